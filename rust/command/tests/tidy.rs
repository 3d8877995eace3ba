//! `tidy`: loosely laid tables, end to end.

use crate::common::{answers, refuses, Folder, SUM_TABLE};

#[test]
fn loose_tables() {
    let folder = Folder::new("tidy");
    let (head, rows) = SUM_TABLE.split_at(SUM_TABLE.find("0 0 0 0").expect("a row"));
    let backwards: Vec<&str> = rows.lines().rev().collect();
    folder
        .put("strict.table", SUM_TABLE)
        .put(
            "spaces.table",
            SUM_TABLE.replace(' ', "   ").replace('\n', "  \n"),
        )
        .put(
            "backwards.table",
            format!("{head}{}\n", backwards.join("\n")),
        );
    for name in ["strict", "spaces", "backwards"] {
        answers(folder.run(&format!("tidy {name}.table")), SUM_TABLE);
    }
    let json = folder.run("tidy strict.table --json").out;
    assert!(json.starts_with("{\"table\":{\"levels\":2,"), "{json}");
    answers(
        folder.run("tidy -d tidied spaces.table backwards.table"),
        "2 sheets: 2 written to tidied\n",
    );
    assert_eq!(folder.get("tidied/spaces.table"), SUM_TABLE);
}

#[test]
fn what_is_refused() {
    let folder = Folder::new("tidy_loose_refused");
    let refused = |rows: &str, words: &str| {
        folder.put("my.txt", format!("levels inputs\n2 2\na b ink\n{rows}"));
        refuses(folder.run("tidy my.txt"), words);
    };
    refused(
        "0 0   \n",
        "my.txt:4:7: a row should have 2 levels and an ink, with spaces between them (refusal 1)\n    0 0   \\n\n          ^\n",
    );
    refused(
        "0  0 0\n 0 1 1\n1 0 1\n1 1 0\n",
        "my.txt:5:1: a row should have 2 levels and an ink, with spaces between them (refusal 1)\n     0 1 1\n    ^\n\
         likely cause: a line begins with a space; delete it\n",
    );
}

/// Plain `tidy` on CSV says which `tidy` takes it, whether or not it has another fault.
#[test]
fn csv_without_the_option() {
    let folder = Folder::new("tidy_hint");
    for (mark, words, shown) in [
        (",", "commas", ","),
        (";", "semicolons", ";"),
        ("\t", "tabs", "\\t"),
    ] {
        let front = format!("my.csv:1:1: line 1 should be `levels inputs` (refusal 1)\n    levels{shown}inputs\n    ^\n");
        let cause = format!(
            "likely cause: {words} separate the fields; put one space between two fields\n"
        );
        folder.put("my.csv", SUM_TABLE.replace(' ', mark));
        let hint = "`sitgurp tidy --csv my.csv` writes it as a table sheet\n";
        refuses(folder.run("tidy my.csv"), &format!("{front}{cause}{hint}"));
        folder.put("my.csv", SUM_TABLE.replace(' ', mark).replace("0\n", "7\n"));
        let hint = "`sitgurp tidy --csv my.csv` takes commas, semicolons or tabs between fields\n";
        refuses(folder.run("tidy my.csv"), &format!("{front}{cause}{hint}"));
    }
}
