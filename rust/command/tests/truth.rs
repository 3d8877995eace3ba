//! Nothing untrue is said: hints that hold, commands that can be run, trees counted on the inputs that matter.

use crate::common::{answers, is_wrong, refuses, Folder, SUM_TABLE};
use std::process::Command;

/// A table of a and b, with further inputs that never matter.
fn with_idle(names: &str, idle: usize) -> String {
    let inputs = 2 + idle;
    let mut sheet = format!("levels inputs\n2 {inputs}\n{names} ink\n");
    for row in 0..1 << inputs {
        for input in (0..inputs).rev() {
            sheet += &format!("{} ", row >> input & 1);
        }
        let both = row >> (inputs - 2) == 3;
        sheet += &format!("{}\n", u8::from(both));
    }
    sheet
}

/// There are more trees with an input that never matters: those are left out, and it is said.
#[test]
fn trees_are_counted_on_the_inputs_that_matter() {
    let folder = Folder::new("truth_trees");
    folder
        .put("two.table", with_idle("a b", 0))
        .put("three.table", with_idle("a b c", 1))
        .put("four.table", with_idle("a b c d", 2));
    answers(
        folder.run("why two.table"),
        "nothing is wrong: there is 1 tree with this table\n",
    );
    answers(
        folder.run("why three.table"),
        "nothing is wrong: there is 1 tree on a and b with this table; c never matters, and is left out\n",
    );
    answers(
        folder.run("why four.table"),
        "nothing is wrong: there is 1 tree on a and b with this table; c and d never matter, and are left out\n",
    );
    answers(
        folder.run("why three.table --json"),
        "{\"trees\":1,\"inputs\":[\"a\",\"b\"]}\n",
    );
    refuses(
        folder.run("make three.table --number 1"),
        "three.table: the table has 1 tree on a and b, number 0, and none of number 1 (refusal 17)\n",
    );
    // it is true: here is another net with this table
    folder.put(
        "with_c.net",
        "levels inputs\n2 3\na b c\nleft right table\na b 0001\n1 c 0011\n",
    );
    answers(
        folder.run("check with_c.net three.table"),
        "yes: the net has this table, all 8 rows\n",
    );
}

/// A cause is told only where the file itself has it.
#[test]
fn no_spaces_too_many_and_no_blank_line_where_there_are_none() {
    let folder = Folder::new("truth_causes");
    let padded = SUM_TABLE
        .replace(' ', ",")
        .replace("inputs\n", "inputs,,\n")
        .replace("2,3\n", "2,3,,\n");
    for (name, text) in [
        ("commas", padded.clone() + ",,,\n"),
        ("semicolons", padded.replace(',', ";") + ";;;\n"),
        ("tabs", padded.replace(',', "\t")),
    ] {
        folder.put("my.table", text);
        for words in ["make my.table", "why my.table"] {
            let err = folder.run(words).err;
            let causes: Vec<&str> = err
                .lines()
                .filter(|line| line.starts_with("likely"))
                .collect();
            let due = format!(
                "likely cause: {name} separate the fields; put one space between two fields"
            );
            assert_eq!(causes, [due]);
        }
    }
}

#[test]
fn wide_encodings() {
    let folder = Folder::new("truth_utf16");
    let text = SUM_TABLE.replace('\n', "\r\n");
    let csv = text.replace(' ', ",");
    let little = |text: &str| text.bytes().flat_map(|byte| [byte, 0]).collect::<Vec<u8>>();
    let big = |text: &str| text.bytes().flat_map(|byte| [0, byte]).collect::<Vec<u8>>();
    let cause = "likely cause: the file is UTF-16; save it as plain text, UTF-8 or ASCII";
    for text in [&text, &csv] {
        for sheet in [
            little(text),
            big(text),
            [vec![0xff, 0xfe], little(text)].concat(),
            [vec![0xfe, 0xff], big(text)].concat(),
        ] {
            let is_marked = matches!(sheet[..], [0xff, 0xfe, ..] | [0xfe, 0xff, ..]);
            folder.put("my.table", sheet);
            for words in ["make my.table", "tidy my.table", "tidy --csv my.table"] {
                if is_marked && words.contains("--csv") {
                    // with a byte order mark it is read
                    assert_eq!(folder.run(words).out, SUM_TABLE);
                    continue;
                }
                let err = folder.run(words).err;
                let causes: Vec<&str> = err
                    .lines()
                    .filter(|line| line.starts_with("likely"))
                    .collect();
                assert_eq!(causes, [cause], "{words}");
            }
        }
    }
    let wide: Vec<u8> = text.bytes().flat_map(|byte| [byte, 0, 0, 0]).collect();
    folder.put("my.table", [vec![0xff, 0xfe, 0, 0], wide].concat());
    let err = folder.run("make my.table").err;
    assert!(
        err.ends_with("likely cause: the file is UTF-32; save it as plain text, UTF-8 or ASCII\n"),
        "{err}"
    );
}

#[test]
fn a_name_with_a_space() {
    let folder = Folder::new("truth_names");
    folder.put(
        "my.table",
        "levels inputs\n2 2\nmy stroke near ink\n0 0 0\n",
    );
    refuses(
        folder.run("make my.table"),
        "my.table:3:11: line 3 has 3 names before `ink`, and line 2 says 2 inputs (refusal 1)\n    my stroke near ink\n              ^\n\
         likely cause: a name has a space in it, which makes it two, or the number of inputs in line 2 is wrong\n",
    );
    folder.put(
        "my.net",
        "levels inputs\n2 2\nmy stroke near\nleft right table\nmy near 0001\n",
    );
    refuses(
        folder.run("settle my.net"),
        "my.net:3:10: line 3 has 3 names, and line 2 says 2 inputs (refusal 1)\n    my stroke near\n             ^\n\
         likely cause: a name has a space in it, which makes it two, or the number of inputs in line 2 is wrong\n",
    );
    folder.put("my.table", "levels inputs\n2 2\na b c\n0 0 0\n");
    refuses(
        folder.run("make my.table"),
        "my.table:3:5: `c` is where `ink` should be, after the names of the 2 inputs (refusal 1)\n    a b c\n        ^\n",
    );
}

/// Every command between backquotes can be run as it is, whatever the file is called.
#[test]
fn suggested_commands_can_be_run() {
    let folder = Folder::new("truth_operands");
    let majority = crate::common::example("majority.table");
    let csv = SUM_TABLE.replace(' ', ",");
    for name in [
        "-a.table",
        "my a.table",
        "it's",
        "a\nb.table",
        "\u{1b}[31m.table",
        "gr\u{fc}n",
        "standard input",
        "-",
    ] {
        for (text, begins) in [(&majority, "why"), (&csv, "tidy")] {
            folder.put(name, text);
            let path = format!("./{name}");
            let file = if name == "-" { path.as_str() } else { name };
            let refused = folder
                .command()
                .args(["make", "--", file])
                .output()
                .expect("it runs");
            let err = String::from_utf8(refused.stderr).expect("text");
            assert!(!err.contains('\u{1b}'), "{err}");
            let hint = err.lines().last().expect("a hint");
            let suggested = hint
                .split('`')
                .nth(1)
                .expect("a command")
                .replace("sitgurp ", "");
            assert!(suggested.starts_with(begins), "{err}");
            let shell = format!("\"$0\" {suggested}");
            let ran = Command::new("bash")
                .args(["-c", &shell, env!("CARGO_BIN_EXE_sitgurp")])
                .current_dir(&folder.0)
                .output()
                .expect("bash runs");
            assert_eq!(
                ran.status.code(),
                Some(0),
                "{shell}: {}",
                String::from_utf8_lossy(&ran.stderr)
            );
        }
        std::fs::remove_file(folder.0.join(name)).expect("the file");
    }
}

/// No name of a file, and no word of the command line, steers the terminal.
#[test]
fn control_bytes_are_escaped() {
    let folder = Folder::new("truth_control");
    let name = "\u{1b}]0;x\u{7}\u{9b}.table";
    folder.put(name, "x\n");
    let shown = "\\x1b]0;x\\x07\\x9b.table";
    let run = |words: &[&str]| folder.command().args(words).output().expect("it runs");
    let err = |words: &[&str]| String::from_utf8(run(words).stderr).expect("text");
    assert_eq!(
        err(&["make", name]),
        format!("{shown}:1:1: line 1 should be `levels inputs` (refusal 1)\n    x\n    ^\n")
    );
    assert_eq!(
        err(&["make", "none\u{1b}"]),
        "none\\x1b: cannot be read: No such file or directory\n"
    );
    for words in [
        &["\u{1b}"][..],
        &["make", "a", "\u{1b}"],
        &["make", "--\u{1b}"],
        &["make", "--number", "\u{1b}"],
        &["make", "-d", "\u{1b}/x", "\u{1b}"],
        &["eval", "a=1", "\u{1b}", "\u{1b}"],
        &["make", "-o", "\u{1b}/x", "sum.table"],
    ] {
        folder.put("sum.table", SUM_TABLE);
        let said = err(words);
        assert!(!said.contains('\u{1b}') && said.contains("\\x1b"), "{said}");
    }
    // a program gets the name itself
    let json = String::from_utf8(run(&["make", "--json", name]).stdout).expect("text");
    assert!(
        json.contains("\"file\":\"\\u001b]0;x\\u0007\u{9b}.table\""),
        "{json}"
    );
}

#[test]
fn a_closed_standard_input() {
    let folder = Folder::new("truth_closed");
    let ended = Command::new("bash")
        .args(["-c", "\"$0\" make <&-", env!("CARGO_BIN_EXE_sitgurp")])
        .output()
        .expect("bash runs");
    assert_eq!(ended.status.code(), Some(2));
    assert_eq!(
        String::from_utf8_lossy(&ended.stderr),
        "standard input: cannot be read: it is closed\n"
    );
    // an empty one is an empty sheet
    let empty = folder.run_on("make", b"");
    assert!(empty
        .err
        .starts_with("standard input:1:1: there is nothing to read"));
    is_wrong(folder.run("make none"), "none: cannot be read: ");
}

/// `| head` ends it without a word, and the status is that of the answer.
#[test]
fn a_reader_that_goes_away() {
    let folder = Folder::new("truth_reader");
    let names: Vec<String> = (0..12).map(|k| format!("i{k}")).collect();
    let mut wide = format!(
        "levels inputs\n2 12\n{}\nleft right table\n",
        names.join(" ")
    );
    for (k, name) in names.iter().enumerate().skip(1) {
        let left = if k == 1 {
            "i0".to_string()
        } else {
            (k - 1).to_string()
        };
        wide += &format!("{left} {name} 0110\n");
    }
    folder.put("wide.net", wide);
    let shell = "set -o pipefail; \"$0\" table wide.net | head -n 1; echo $?";
    let ended = Command::new("bash")
        .args(["-c", shell, env!("CARGO_BIN_EXE_sitgurp")])
        .current_dir(&folder.0)
        .output()
        .expect("bash runs");
    assert_eq!(String::from_utf8_lossy(&ended.stdout), "levels inputs\n0\n");
    assert_eq!(String::from_utf8_lossy(&ended.stderr), "");
}
