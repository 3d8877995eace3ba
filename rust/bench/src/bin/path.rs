//! Prints the crates, files and functions that a call of the proved library reaches, from the text of its sources:
//! `cargo run --offline --release -q -p bench --bin path -- sitgurp_make`. `docs/ARCHITECTURE.md` quotes its figures.

use std::collections::{BTreeMap, BTreeSet};
use std::fs;
use std::path::{Path, PathBuf};

type Modules = BTreeMap<Vec<String>, Module>;

/// One source file: its module path starting with the crate, its imports, the body of each of its functions, and the names of its methods, which take
/// `self`. Functions of one name, as `from` of two impls, are one here.
struct Module {
    path: Vec<String>,
    imports: BTreeMap<String, Vec<String>>,
    functions: BTreeMap<String, String>,
    methods: BTreeSet<String>,
}

fn sources(folder: &Path, found: &mut Vec<PathBuf>) {
    let Ok(entries) = fs::read_dir(folder) else {
        return;
    };
    for entry in entries.flatten() {
        let path = entry.path();
        if path.is_dir() {
            sources(&path, found);
        } else if path.extension().is_some_and(|ending| ending == "rt") {
            found.push(path);
        }
    }
}

/// Returns the name of the function that a line defines, if it defines one.
fn defined(line: &str) -> Option<String> {
    let (front, rest) = line.split_once("fn ")?;
    let modifiers = front
        .split_whitespace()
        .all(|word| matches!(word, "pub" | "extern" | "\"C\""));
    let name: String = rest
        .chars()
        .take_while(|c| c.is_alphanumeric() || *c == '_')
        .collect();
    (modifiers && !name.is_empty()).then_some(name)
}

/// Returns the names that a `use` line brings in, each with its path: `a::b`, `a::b as c`, or `a::{b, c as d}`.
fn imported(krate: &str, target: &str) -> Vec<(String, Vec<String>)> {
    let (front, names) = match target.split_once("::{") {
        Some((front, rest)) => (front, rest.trim_end_matches('}')),
        None => ("", target),
    };
    let one = |name: &str| {
        let (name, alias) = name.split_once(" as ").unwrap_or((name, ""));
        let words = front.split("::").chain(name.split("::"));
        let mut full: Vec<String> = words
            .filter(|word| !word.is_empty() && *word != "self")
            .map(str::to_string)
            .collect();
        if full[0] == "crate" {
            full[0] = krate.to_string();
        }
        let last = full[full.len() - 1].clone();
        let name = if alias.is_empty() {
            last
        } else {
            alias.to_string()
        };
        (name, full)
    };
    names.split(',').map(|name| one(name.trim())).collect()
}

fn read_module(krate: &str, root: &Path, file: &Path) -> Module {
    let text = fs::read_to_string(file).unwrap_or_default();
    let inner = file.strip_prefix(root).unwrap_or(file).with_extension("");
    let mut path = vec![krate.to_string()];
    path.extend(
        inner
            .iter()
            .map(|part| part.to_string_lossy().into_owned())
            .filter(|part| part != "lib"),
    );
    let mut module = Module {
        path,
        imports: BTreeMap::new(),
        functions: BTreeMap::new(),
        methods: BTreeSet::new(),
    };
    let mut current = None;
    for line in text.lines() {
        if let Some(target) = line
            .strip_prefix("use ")
            .and_then(|rest| rest.strip_suffix(';'))
        {
            for (name, full) in imported(krate, target) {
                module.imports.insert(name, full);
            }
        } else if let Some(name) = defined(line) {
            module.functions.entry(name.clone()).or_default();
            if line.contains("self") {
                module.methods.insert(name.clone());
            }
            current = Some(name);
        } else if let Some(body) = current
            .as_ref()
            .and_then(|name| module.functions.get_mut(name))
        {
            let code = line.split("//").next().unwrap_or("");
            if !code.contains('⌜') && !code.trim_start().starts_with(['≡', '×']) {
                body.push_str(code);
                body.push('\n');
            }
        }
    }
    module
}

/// Returns a text without the const arguments that it ends with, as in `counted_in::<MOST_CELLS>`.
fn without_arguments(text: &str) -> &str {
    match text.ends_with('>').then(|| text.rfind("::<")).flatten() {
        Some(at) => &text[..at],
        None => text,
    }
}

/// Returns the paths that a body calls: the words before each `(`, split at `::`. A method's has an empty word in front.
fn calls(body: &str) -> Vec<Vec<String>> {
    let mut found = Vec::new();
    for (at, _) in body.match_indices('(') {
        let before = without_arguments(&body[..at]);
        let word: Vec<char> = before
            .chars()
            .rev()
            .take_while(|c| c.is_alphanumeric() || matches!(c, '_' | ':'))
            .collect();
        let word: String = word.into_iter().rev().collect();
        if !word.is_empty() {
            let is_method = before[..before.len() - word.len()].ends_with('.');
            let front = if is_method { vec![""] } else { vec![] };
            let words = front.into_iter().chain(word.split("::"));
            found.push(words.map(str::to_string).collect());
        }
    }
    found
}

/// Returns the path of a method that a module calls: of its own methods and of those in the files of the types that it imports, the one of that name.
fn resolve_method(modules: &Modules, module: &Module, name: &String) -> Vec<String> {
    let of_types = module.imports.values().map(|full| &full[..full.len() - 1]);
    let found = of_types.chain([&module.path[..]]).find(|path| {
        modules
            .get(*path)
            .is_some_and(|other| other.methods.contains(name))
    });
    let path = found.unwrap_or_default();
    path.iter().chain([name]).cloned().collect()
}

/// Returns the path of a function that a module calls, without the type that it may belong to, as in `SitgurpAnswer::from`.
fn resolve(modules: &Modules, module: &Module, called: &[String]) -> Vec<String> {
    if called[0].is_empty() {
        return resolve_method(modules, module, &called[1]);
    }
    let mut full = resolve_plain(module, called);
    if full.len() > 2 && !modules.contains_key(&full[..full.len() - 1]) {
        full.remove(full.len() - 2);
    }
    full
}

fn resolve_plain(module: &Module, called: &[String]) -> Vec<String> {
    if called[0] == "crate" {
        let mut full = called.to_vec();
        full[0] = module.path[0].clone();
        return full;
    }
    if let Some(full) = module.imports.get(&called[0]) {
        return full.iter().chain(&called[1..]).cloned().collect();
    }
    if called.len() == 1 {
        return module.path.iter().chain(called).cloned().collect();
    }
    called.to_vec()
}

fn main() {
    let goal = std::env::args()
        .nth(1)
        .unwrap_or_else(|| "sitgurp_make".to_string());
    let crates = Path::new(env!("CARGO_MANIFEST_DIR")).join("../../crates");
    let mut modules = Modules::new();
    for entry in fs::read_dir(&crates).expect("the folder crates").flatten() {
        let krate = entry.file_name().to_string_lossy().into_owned();
        let root = entry.path().join("src");
        let mut files = Vec::new();
        sources(&root, &mut files);
        for file in files {
            let module = read_module(&krate, &root, &file);
            modules.insert(module.path.clone(), module);
        }
    }
    let mut todo: Vec<Vec<String>> = Vec::new();
    for module in modules
        .values()
        .filter(|module| module.functions.contains_key(&goal))
    {
        todo.push(module.path.iter().chain([&goal]).cloned().collect());
    }
    let mut reached = BTreeSet::new();
    while let Some(function) = todo.pop() {
        let (name, path) = function.split_last().expect("a path");
        let Some(module) = modules.get(path) else {
            continue;
        };
        let Some(body) = module.functions.get(name) else {
            continue;
        };
        if reached.insert(function.clone()) {
            todo.extend(
                calls(body)
                    .iter()
                    .map(|called| resolve(&modules, module, called)),
            );
        }
    }
    let files: BTreeSet<&[String]> = reached
        .iter()
        .map(|function| &function[..function.len() - 1])
        .collect();
    let mut by_crate: BTreeMap<&str, usize> = BTreeMap::new();
    for function in &reached {
        *by_crate.entry(function[0].as_str()).or_default() += 1;
    }
    println!(
        "{goal}: {} crates, {} files, {} functions",
        by_crate.len(),
        files.len(),
        reached.len()
    );
    for (krate, count) in by_crate {
        println!("    {krate}: {count} functions");
    }
}
