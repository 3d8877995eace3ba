//! docs/PROMISES.md against the tree: every file that it names exists, every name is in one of the files of its row, and every must-fail edit is there.
//! docs/ARCHITECTURE.md has a row for every crate.

use crate::common::repository;
use std::collections::{HashMap, HashSet};
use std::fs;
use std::path::{Path, PathBuf};

/// A row of a table: its line in the document and its cells.
pub struct Row {
    line: usize,
    cells: Vec<String>,
}

/// Returns the rows of the tables, without their heads. A table whose last column is not `where` is about something else.
fn rows(document: &str) -> Vec<Row> {
    let lines: Vec<&str> = document.lines().collect();
    let is_row = |k: usize| lines.get(k).is_some_and(|line| line.starts_with("| "));
    let is_rule = |k: usize| lines.get(k).is_some_and(|line| line.starts_with("|--"));
    let is_promise = |k: usize| {
        let head = (0..k).rev().take_while(|&j| is_row(j) || is_rule(j)).last();
        head.is_none_or(|head| !is_rule(head + 1) || lines[head].ends_with("| where |"))
    };
    (0..lines.len())
        .filter(|&k| is_row(k) && !is_rule(k + 1) && is_promise(k))
        .map(|k| Row {
            line: k + 1,
            cells: lines[k]
                .trim_matches('|')
                .split(" | ")
                .map(|cell| cell.trim().to_string())
                .collect(),
        })
        .collect()
}

/// Returns the rows of the tables whose last column has this head.
pub fn rows_below(document: &str, head: &str) -> Vec<Row> {
    let lines: Vec<&str> = document.lines().collect();
    let has_head = |row: &Row| {
        let above = lines[..row.line].iter().rev();
        let mut table = above.take_while(|line| line.starts_with('|'));
        table.any(|line| line.ends_with(&format!("| {head} |")))
    };
    let mut rows = rows(document);
    rows.retain(has_head);
    rows
}

/// Returns the words of a text that are between single backticks.
fn quoted(text: &str) -> Vec<&str> {
    text.split('`').skip(1).step_by(2).collect()
}

/// Returns the paths of a cell: `crate/Folder/File` or `crate/folder/file.rt`, separated by semicolons.
fn paths(cell: &str) -> Vec<&str> {
    cell.split(';')
        .map(str::trim)
        .filter(|path| !path.is_empty())
        .collect()
}

/// Returns the files that a path names: code if it ends in `.rt`, or else a specification and the theorems of the same name in proofs/. One of these two may
/// be missing; if both are, the first is returned.
fn files(path: &str) -> Vec<PathBuf> {
    let (name, rest) = path.split_once('/').unwrap_or((path, ""));
    let folder = repository().join("crates").join(name);
    if rest.ends_with(".rt") {
        return vec![folder.join("src").join(rest)];
    }
    let of = |part: &str| folder.join(part).join(format!("{rest}.antt"));
    let found: Vec<PathBuf> = ["specs", "proofs"].map(of).into();
    let there: Vec<PathBuf> = found.iter().filter(|f| f.is_file()).cloned().collect();
    match there.is_empty() {
        true => found[..1].to_vec(),
        false => there,
    }
}

/// Returns whether a character separates words of the language: space, bracket or punctuation.
fn is_separator(c: char) -> bool {
    c.is_whitespace() || "(){}[];,:.\"λ⌜⌝".contains(c)
}

/// Returns the words of a source file.
fn words(path: &Path) -> HashSet<String> {
    let text = fs::read_to_string(path).unwrap_or_default();
    text.split(is_separator).map(str::to_string).collect()
}

/// Returns whether a name is that of a must-fail edit, `crate/edit`.
fn is_edit(name: &str) -> bool {
    name.split_once('/').is_some_and(|(crate_name, edit)| {
        let folder = repository()
            .join("crates")
            .join(crate_name)
            .join("must-fail");
        folder.join(format!("{edit}.edit")).is_file()
    })
}

/// The words of each file that was read.
type Words = HashMap<PathBuf, HashSet<String>>;

/// Returns what is wrong with a row.
fn faults(row: &Row, read: &mut Words) -> Vec<String> {
    let [_, names, places] = &row.cells[..] else {
        return vec![format!("line {}: {} cells", row.line, row.cells.len())];
    };
    let mut faults = Vec::new();
    let files: Vec<PathBuf> = paths(places).into_iter().flat_map(files).collect();
    for missing in files.iter().filter(|file| !file.is_file()) {
        faults.push(format!("line {}: no file {}", row.line, missing.display()));
    }
    let mut is_known = |name: &str| {
        files.iter().any(|file| {
            let known = read.entry(file.clone()).or_insert_with(|| words(file));
            known.contains(name)
        })
    };
    for name in quoted(names) {
        let found = match name {
            ".new" => true,
            _ if name.contains('/') => is_edit(name),
            _ => is_known(name),
        };
        if !found {
            faults.push(format!("line {}: `{name}` is not there", row.line));
        }
    }
    faults
}

/// Returns what is wrong with some rows.
pub fn row_faults(rows: &[Row]) -> Vec<String> {
    let mut read = Words::new();
    rows.iter().flat_map(|row| faults(row, &mut read)).collect()
}

/// Returns the lines of a document that are in no table, with their numbers.
fn paragraph_lines(document: &str) -> impl Iterator<Item = (usize, &str)> {
    let lines = document.lines().enumerate().map(|(k, line)| (k + 1, line));
    lines.filter(|(_, line)| !line.starts_with('|'))
}

/// Returns the paths `crate/Folder/File` of the paragraphs that name no file.
pub fn lost_paths(document: &str) -> Vec<String> {
    let is_path = |word: &str| {
        let (crate_name, rest) = word.split_once('/').unwrap_or(("", ""));
        let is_crate = repository().join("crates").join(crate_name).is_dir();
        !crate_name.is_empty() && is_crate && rest.starts_with(|c: char| c.is_ascii_uppercase())
    };
    let mut lost = Vec::new();
    for (number, line) in paragraph_lines(document) {
        let words = line.split(|c: char| !(c.is_ascii_alphanumeric() || c == '/' || c == '_'));
        for word in words.filter(|word| is_path(word) && !files(word)[0].is_file()) {
            lost.push(format!("line {number}: no file {word}"));
        }
    }
    lost
}

/// Appends the specifications and the code below a folder to a text.
fn read_below(folder: &Path, text: &mut String) {
    for entry in fs::read_dir(folder).expect("a folder") {
        let path = entry.expect("a file").path();
        if path.is_dir() {
            read_below(&path, text);
        } else if path
            .extension()
            .is_some_and(|end| end == "antt" || end == "rt")
        {
            *text += &fs::read_to_string(path).expect("a text");
        }
    }
}

/// Returns the names of the paragraphs that are nowhere in the crates. A name is a word of letters, digits and hyphens between backticks.
pub fn lost_names(document: &str) -> Vec<String> {
    let mut text = String::new();
    read_below(&repository().join("crates"), &mut text);
    let known: HashSet<&str> = text.split(is_separator).collect();
    let is_name = |word: &&str| {
        word.chars()
            .all(|c| c.is_alphanumeric() || "-_".contains(c))
    };
    let mut lost = Vec::new();
    for (number, line) in paragraph_lines(document) {
        for name in quoted(line).into_iter().filter(is_name) {
            if name != "sitgurp" && !known.contains(name) {
                lost.push(format!("line {number}: `{name}` is not there"));
            }
        }
    }
    lost
}

#[test]
fn every_name_and_path_of_the_promises_is_in_the_tree() {
    let document = fs::read_to_string(repository().join("docs/PROMISES.md")).expect("the document");
    let rows = rows(&document);
    assert!(rows.len() >= 300, "{} rows", rows.len());
    let mut all = row_faults(&rows);
    all.extend(lost_paths(&document));
    all.extend(lost_names(&document));
    assert!(all.is_empty(), "{}", all.join("\n"));
}

#[test]
fn a_name_that_is_nowhere_is_found() {
    let fault_count = |row: &str| faults(&rows(row)[0], &mut Words::new()).len();
    let row = |names: &str, places: &str| format!("| a sentence | {names} | {places} |");
    assert_eq!(
        fault_count(&row("`make_refuses`", "demands/Settling/Makes")),
        0
    );
    assert_eq!(
        fault_count(&row("`make_refuse`", "demands/Settling/Makes")),
        1
    );
    assert_eq!(fault_count(&row("`make_refuses`", "demands/Makes")), 2);
    assert_eq!(fault_count(&row("`rules/ten_at_m`", "")), 0);
    assert_eq!(fault_count(&row("`rules/ten_at_n`", "")), 1);
    assert_eq!(
        lost_paths("see rules/Calls/Settling and rules/Settling").len(),
        1
    );
    assert_eq!(lost_names("`settle_call` and `settle_calls`").len(), 1);
}

#[test]
fn every_crate_is_in_the_table_of_crates() {
    let document =
        fs::read_to_string(repository().join("docs/ARCHITECTURE.md")).expect("the document");
    let listed: HashSet<&str> = document
        .lines()
        .filter_map(|line| line.strip_prefix("| `")?.split(" | ").next())
        .flat_map(|cell| cell.split(['`', ',', ' ']))
        .collect();
    let crates = fs::read_to_string(repository().join("crates.txt")).expect("the crates");
    for line in crates.lines().filter(|line| !line.starts_with('#')) {
        let name = line.split([':', ' ']).next().expect("a name");
        assert!(
            listed.contains(name),
            "{name} is not in the table of docs/ARCHITECTURE.md"
        );
    }
}
