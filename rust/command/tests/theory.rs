//! docs/THEORY.md and docs/AUDIT.md against the tree: names and paths, figures, sheets, and the count of what must be believed.

use crate::common::{repository, Folder};
use crate::promises::{lost_names, lost_paths, row_faults, rows_below};
use std::fs;
use std::process::Command;

/// Returns the text of a file of the repository.
fn text(path: &str) -> String {
    fs::read_to_string(repository().join(path)).unwrap_or_else(|e| panic!("{path}: {e}"))
}

/// Returns what is wrong with the names and the paths of a document. The tables with theorems have the head `where` over their last cell.
fn document_faults(path: &str, least: usize) -> Vec<String> {
    let document = text(path);
    let rows = rows_below(&document, "where");
    assert!(rows.len() >= least, "{path}: {} rows", rows.len());
    let mut faults = row_faults(&rows);
    faults.extend(lost_paths(&document));
    faults.extend(lost_names(&document));
    faults
}

#[test]
fn every_name_and_path_of_the_theory_is_in_the_tree() {
    let faults = document_faults("docs/THEORY.md", 40);
    assert!(faults.is_empty(), "{}", faults.join("\n"));
}

#[test]
fn every_name_and_path_of_the_audit_is_in_the_tree() {
    let faults = document_faults("docs/AUDIT.md", 8);
    assert!(faults.is_empty(), "{}", faults.join("\n"));
}

/// Returns the links of a document to files of the repository, as paths from docs/.
fn links(document: &str) -> Vec<&str> {
    let ends = document.split("](").skip(1);
    ends.filter_map(|rest| rest.split(')').next())
        .filter(|link| !link.contains("://"))
        .collect()
}

#[test]
fn every_link_leads_to_a_file() {
    for path in ["docs/THEORY.md", "docs/AUDIT.md"] {
        for link in links(&text(path)) {
            let file = repository().join("docs").join(link);
            assert!(file.exists(), "{path}: {link}");
        }
    }
}

#[test]
fn the_figures_are_what_the_command_draws() {
    let folder = Folder::new("figures");
    let made = Command::new(repository().join("docs/figures/make"))
        .arg(&folder.0)
        .env("SITGURP", env!("CARGO_BIN_EXE_sitgurp"))
        .status();
    assert!(made.expect("the script runs").success());
    let names = folder.names();
    assert!(names.len() >= 12, "{names:?}");
    let theory = text("docs/THEORY.md");
    for name in names {
        let path = format!("docs/figures/{name}");
        assert!(
            folder.get(&name) == text(&path),
            "{path}: run docs/figures/make"
        );
        assert!(theory.contains(&format!("(figures/{name})")), "{path}");
    }
}

#[test]
fn the_sheets_of_the_theory_give_what_is_beside_them() {
    let folder = Folder::new("theory_sheets");
    for name in ["conjecture2", "conjecture3", "conjecture3h1", "parity"] {
        let sheet = format!("examples/theory/{name}");
        let table = text(&format!("{sheet}.table"));
        let made = folder.run_on("make", table.as_bytes());
        assert_eq!(made.out, text(&format!("{sheet}.net")), "{name}");
    }
    let refused = folder.run_on(
        "make --json",
        text("examples/theory/conjecture3h2.table").as_bytes(),
    );
    assert_eq!(refused.status, 1);
    assert!(refused
        .out
        .contains("\"number\":16,\"kind\":\"NoTree\",\"place\":7"));
    assert_eq!(
        text("examples/theory/conjecture3h2.refusal"),
        "number place\n16 7\n"
    );
    let counted = |name: &str| {
        folder.run_on(
            "count",
            text(&format!("examples/theory/{name}.table")).as_bytes(),
        )
    };
    assert_eq!(counted("parity").out, "15\n");
    assert_eq!(counted("conjecture3").out, "1\n");
}

/// The tables H1 and H2 of Conjecture 3 are the whole table with a wire for two inputs; the wire's level is the class, read at its first assignment.
#[test]
fn the_rests_of_conjecture_3_come_from_its_table() {
    let inks = |name: &str| -> Vec<String> {
        let sheet = text(&format!("examples/theory/{name}.table"));
        let rows = sheet.lines().skip(3);
        rows.map(|row| row.split(' ').next_back().expect("an ink").to_string())
            .collect()
    };
    let (whole, one, two) = (
        inks("conjecture3"),
        inks("conjecture3h1"),
        inks("conjecture3h2"),
    );
    assert_eq!((whole.len(), one.len(), two.len()), (81, 27, 27));
    for (k, level) in (0..27).map(|k| (k, [k / 9, k / 3 % 3, k % 3])) {
        assert_eq!(
            one[k],
            whole[27 * level[0] + [0, 3, 12][level[1]] + level[2]]
        );
        assert_eq!(
            two[k],
            whole[27 * level[0] + 9 * level[1] + [0, 1, 3][level[2]]]
        );
    }
}

/// Returns what docs/audit/count prints for some statements, or for all if none is given.
fn counted(statements: &str) -> String {
    let printed = Command::new(repository().join("docs/audit/count"))
        .args(statements.split_whitespace())
        .output()
        .expect("the script runs");
    assert!(printed.status.success());
    String::from_utf8(printed.stdout).expect("text")
}

/// Returns the number in the line `lines to believe`.
fn believed(printed: &str) -> &str {
    let line = printed
        .lines()
        .find(|line| line.starts_with("lines to believe"));
    line.and_then(|line| line.split_whitespace().next_back())
        .expect("a number")
}

#[test]
fn the_audit_shows_what_the_count_prints() {
    let audit = text("docs/AUDIT.md");
    let printed = counted("");
    assert!(printed.lines().count() >= 10, "{printed}");
    let shown: String = printed
        .lines()
        .map(|line| format!("    {}\n", line.trim_end()))
        .collect();
    assert!(
        audit.contains(&shown),
        "docs/AUDIT.md should show:\n{shown}"
    );
    let one = counted("make_refuses");
    let demand = counted(
        "settles settled_accepted settled_own_lines settled_own_table settled_alike make_refuses make_either makes make_as_settle",
    );
    for sentence in [
        format!("**{} lines**", believed(&printed)),
        format!("that is {} lines", believed(&one)),
        format!("({} lines to believe", believed(&demand)),
    ] {
        assert!(audit.contains(&sentence), "docs/AUDIT.md: {sentence}");
    }
}
