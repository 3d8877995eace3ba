//! The usual mistakes in a sheet, each with its exact message.

use crate::common::{refuses, Folder, SUM_NET, SUM_TABLE};
use reference::generate::{Generator, TableKind};

/// What `make` says of a table sheet.
fn of_table(name: &str, sheet: impl AsRef<[u8]>, words: &str) {
    let folder = Folder::new(name);
    folder.put("my.table", sheet);
    refuses(folder.run("make my.table"), words);
}

/// The same, and that tidying mends it: with `--csv`, or as it is.
fn of_spreadsheet(name: &str, sheet: impl AsRef<[u8]>, words: &str) {
    let hint = "`sitgurp tidy --csv my.table` writes it as a table sheet\n";
    of_table(name, sheet, &format!("{words}{hint}"));
}

fn of_loose(name: &str, sheet: impl AsRef<[u8]>, words: &str) {
    let hint = "`sitgurp tidy my.table` writes it as a table sheet\n";
    of_table(name, sheet, &format!("{words}{hint}"));
}

/// What `settle` says of a net sheet.
fn of_net(name: &str, sheet: impl AsRef<[u8]>, words: &str) {
    let folder = Folder::new(name);
    folder.put("my.net", sheet);
    refuses(folder.run("settle my.net"), words);
}

const FIRST: &str = "my.table:1:1: line 1 should be `levels inputs` (refusal 1)\n";
const MARK: &str =
    "likely cause: the file begins with a byte order mark; save it as UTF-8 without one\n";
const WINDOWS: &str =
    "likely cause: lines end in CR LF, as Windows writes them; save the file with LF line ends\n";
const COMMAS: &str = "likely cause: commas separate the fields; put one space between two fields\n";

#[test]
fn carriage_returns() {
    of_spreadsheet(
        "crlf",
        SUM_TABLE.replace('\n', "\r\n"),
        &format!("my.table:1:8: line 1 should be `levels inputs` (refusal 1)\n    levels inputs\\r\n           ^\n{WINDOWS}"),
    );
    of_net(
        "crlf_last",
        SUM_NET.replace("1 c 0110\n", "1 c 0110\r\n"),
        &format!("my.net:6:5: a gate's table should be 4 digits from 0 to 1, not `0110\\r` (refusal 6)\n    1 c 0110\\r\n        ^\n{WINDOWS}"),
    );
}

#[test]
fn tabs() {
    of_spreadsheet(
        "tabs",
        SUM_TABLE.replace(' ', "\t"),
        &format!("{FIRST}    levels\\tinputs\n    ^\nlikely cause: tabs separate the fields; put one space between two fields\n"),
    );
}

#[test]
fn commas_and_semicolons() {
    for (name, mark) in [("commas", ","), ("semicolons", ";")] {
        of_spreadsheet(
            name,
            SUM_TABLE.replace(' ', mark),
            &format!("{FIRST}    levels{mark}inputs\n    ^\nlikely cause: {name} separate the fields; put one space between two fields\n"),
        );
    }
    // commas in one row alone: a file has one separator, so `tidy --csv` does not take it
    of_table(
        "one_comma",
        SUM_TABLE.replace("0 1 0 1", "0, 1, 0, 1"),
        &format!("my.table:6:1: this row should begin `0 1 0`, the next in the count (refusal 5)\n    0, 1, 0, 1\n    ^\n{COMMAS}"),
    );
}

#[test]
fn byte_order_mark() {
    of_spreadsheet(
        "mark",
        format!("\u{feff}{SUM_TABLE}"),
        &format!("{FIRST}    \\xef\\xbb\\xbflevels inputs\n    ^\n{MARK}"),
    );
}

#[test]
fn utf16() {
    let letters = SUM_TABLE.bytes().flat_map(|byte| [byte, 0]);
    let sheet: Vec<u8> = [0xff, 0xfe].into_iter().chain(letters).collect();
    let folder = Folder::new("utf16");
    folder.put("my.table", sheet);
    let refused = folder.run("make my.table");
    let due = "likely cause: the file is UTF-16; save it as plain text, UTF-8 or ASCII\n\
               `sitgurp tidy --csv my.table` writes it as a table sheet\n";
    assert!(refused.err.ends_with(due), "{}", refused.err);
}

/// As a spreadsheet writes it: all of them at once.
#[test]
fn several_at_once() {
    let sheet = format!(
        "\u{feff}{}",
        SUM_TABLE.replace(' ', ",").replace('\n', "\r\n")
    );
    of_spreadsheet(
        "several",
        sheet,
        &format!("{FIRST}    \\xef\\xbb\\xbflevels,inputs\\r\n    ^\n{MARK}{WINDOWS}{COMMAS}"),
    );
}

#[test]
fn quotes_and_spaces() {
    of_spreadsheet(
        "quotes",
        SUM_TABLE.replace("a b c ink", "\"a\" \"b\" \"c\" \"ink\""),
        "my.table:3:1: `\"a\"` is no name: a name has 1 to 8 lowercase letters and digits, a letter first (refusal 4)\n    \"a\" \"b\" \"c\" \"ink\"\n    ^\n\
         likely cause: there are quotes around fields; leave them out\n",
    );
    let cause = "likely cause: there are too many spaces: one between two fields, none at a line's start or end\n";
    of_loose(
        "two_spaces",
        SUM_TABLE.replace("0 1 1 0", "0 1 1  0"),
        &format!("my.table:7:7: a row should have 3 levels and an ink, one space apart (refusal 1)\n    0 1 1  0\n          ^\n{cause}"),
    );
    of_loose(
        "space_at_the_end",
        SUM_TABLE.replace("0 1 1 0\n", "0 1 1 0 \n"),
        &format!("my.table:7:8: a row should have 3 levels and an ink, one space apart (refusal 1)\n    0 1 1 0 \n           ^\n{cause}"),
    );
}

#[test]
fn capitals() {
    let cause = "likely cause: there are capitals; words and names are in lowercase\n";
    of_table(
        "capital_name",
        SUM_TABLE.replace("a b c", "a Bold c"),
        &format!("my.table:3:3: `Bold` is no name: a name has 1 to 8 lowercase letters and digits, a letter first (refusal 4)\n    \
            a Bold c ink\n      ^\n{cause}"),
    );
    of_table(
        "capital_word",
        SUM_TABLE.replace("levels", "Levels"),
        &format!("{FIRST}    Levels inputs\n    ^\n{cause}"),
    );
}

#[test]
fn blank_lines() {
    of_table(
        "blank_last",
        format!("{SUM_TABLE}\n"),
        "my.table:12:1: the sheet should end before this line, which is blank: all 8 rows come before it (refusal 1)\n\
         likely cause: there is a blank line; delete it\n",
    );
    of_table(
        "blank_between",
        SUM_TABLE.replace("0 1 0 1\n", "\n0 1 0 1\n"),
        "my.table:6:1: line 6 is blank: a row should have 3 levels and an ink, one space apart (refusal 1)\n\
         likely cause: there is a blank line; delete it\n",
    );
    of_table(
        "nothing",
        "",
        "my.table:1:1: there is nothing to read: a table sheet is due (refusal 1)\n",
    );
}

#[test]
fn a_missing_end() {
    of_table(
        "no_last_feed",
        SUM_TABLE.trim_end(),
        "my.table:11:8: line 11 has no line feed at its end, or the sheet is cut: a row should have 3 levels and an ink, \
        one space apart (refusal 1)\n    1 1 1 1<end of file>\n           ^\n\
         likely cause: the last line has no line feed; press Enter at its end\n",
    );
    of_net(
        "no_gate",
        SUM_NET.replace("a b 0110\n1 c 0110\n", ""),
        "my.net:5:1: the sheet ends here, and there is no gate line: a net has one or more (refusal 1)\n",
    );
    of_net(
        "gate_too_many",
        format!("{SUM_NET}1 c 0110\n"),
        "my.net:7:1: the sheet should end before this line: 2 gates come before it, and 3 inputs need no more (refusal 1)\n    1 c 0110\n    ^\n",
    );
    of_net(
        "blank_line_at_the_end",
        SUM_NET.replace("1 c 0110\n", "\n"),
        "my.net:6:1: line 6 is blank: a gate line should have left, right and table, one space apart (refusal 1)\n\
         likely cause: there is a blank line; delete it\n",
    );
    of_table(
        "no_first_line",
        SUM_TABLE.replace("levels inputs\n", ""),
        &format!("{FIRST}    2 3\n    ^\nlikely cause: the first line is missing; put `levels inputs` before this one\n"),
    );
}

/// The line of the first such gate is shown; a sheet that uses every input has likely lost its last lines.
#[test]
fn gates_that_are_never_used() {
    let head = "levels inputs\n2 5\na b c d e\nleft right table\n";
    let rule = "a later line refers to each gate but the last, which is the output";
    of_net(
        "unused",
        format!("{head}a b 0110\nc d 0110\n2 e 0110\n"),
        &format!(
            "my.net:5:1: gate 1 is never used: {rule} (refusal 26)\n    a b 0110\n    ^\n\
             likely cause: the last line is missing, which joins gates 1 and 3\n"
        ),
    );
    of_net(
        "unused_and_inputs",
        format!("{head}a b 0110\nc d 0110\n"),
        &format!("my.net:5:1: gate 1 is never used: {rule} (refusal 26)\n    a b 0110\n    ^\n"),
    );
    let head = "levels inputs\n2 6\na b c d e f\nleft right table\n";
    of_net(
        "three_gates",
        format!("{head}a b 0110\nc d 0110\ne f 0110\n"),
        &format!(
            "my.net:5:1: gates 1 and 2 are never used: {rule} (refusal 26)\n    a b 0110\n    ^\n\
             likely cause: the last 2 lines are missing, which join gates 1, 2 and 3\n"
        ),
    );
}

#[test]
fn rows_missing_repeated_or_in_another_order() {
    of_table(
        "row_missing",
        SUM_TABLE.replace("0 1 1 0\n", ""),
        "my.table:7:1: this row should begin `0 1 1`, the next in the count (refusal 5)\n    1 0 0 1\n    ^\n\
         likely cause: the row `0 1 1` is missing: there are 7 rows where 8 are due\n",
    );
    of_table(
        "last_row_missing",
        SUM_TABLE.replace("1 1 1 1\n", ""),
        "my.table:11:1: the sheet ends here, and the last row is missing: `1 1 1` and its ink (refusal 1)\n",
    );
    of_table(
        "last_rows_missing",
        SUM_TABLE.replace("1 1 0 0\n1 1 1 1\n", ""),
        "my.table:10:1: the sheet ends here, and 2 rows are missing: from `1 1 0` on (refusal 1)\n",
    );
    of_table(
        "two_rows_missing",
        SUM_TABLE.replace("0 1 0 1\n0 1 1 0\n", ""),
        "my.table:6:1: this row should begin `0 1 0`, the next in the count (refusal 5)\n    1 0 0 1\n    ^\n\
         likely cause: 2 rows are missing, from `0 1 0` to `0 1 1`\n",
    );
    of_table(
        "row_twice",
        SUM_TABLE.replace("0 0 1 1\n", "0 0 1 1\n0 0 1 1\n"),
        "my.table:6:3: this row should begin `0 1 0`, the next in the count (refusal 5)\n    0 0 1 1\n      ^\n\
         likely cause: the row `0 0 1` is there twice, in lines 5 and 6\n",
    );
    of_loose(
        "other_order",
        SUM_TABLE.replace("0 0 1 1\n0 1 0 1\n", "0 1 0 1\n0 0 1 1\n"),
        "my.table:5:3: this row should begin `0 0 1`, the next in the count (refusal 5)\n    0 1 0 1\n      ^\n\
         likely cause: all rows are there, but in another order: count upward, the last input fastest\n",
    );
    // a mistake in every line, and a row that is missing besides
    of_table(
        "row_missing_and_windows",
        SUM_TABLE.replace("0 1 1 0\n", "").replace('\n', "\r\n"),
        &format!("my.table:1:8: line 1 should be `levels inputs` (refusal 1)\n    levels inputs\\r\n           ^\n\
            {WINDOWS}likely cause: the row `0 1 1` is missing: there are 7 rows where 8 are due\n"),
    );
}

#[test]
fn sizes_and_names() {
    let with = |from: &str, to: &str| SUM_TABLE.replace(from, to);
    of_table("levels", with("2 3\n", "1 3\n"), "my.table:2:1: levels should be one digit from 2 to 9, not `1` (refusal 2)\n    1 3\n    ^\n");
    of_table("inputs", with("2 3\n", "2 13\n"), "my.table:2:3: inputs should be a number from 2 to 12, not `13` (refusal 3)\n    2 13\n      ^\n");
    of_table(
        "cells",
        with("2 3\n", "4 7\n"),
        "my.table:2:3: 4 levels with 7 inputs are 16,384 cells, and 4,096 is the most: \
        6 inputs fit (refusal 3)\n    4 7\n      ^\n",
    );
    of_table(
        "few_names",
        with("2 3\n", "2 4\n"),
        "my.table:3:7: `ink` is where a name should be: line 2 says 4 inputs, \
        and there are 3 names (refusal 4)\n    a b c ink\n          ^\n",
    );
    of_table("many_names", with("2 3\n", "2 2\n"), "my.table:3:5: line 3 has 3 names before `ink`, and line 2 says 2 inputs (refusal 1)\n    \
        a b c ink\n        ^\nlikely cause: a name has a space in it, which makes it two, or the number of inputs in line 2 is wrong\n");
    of_table("long_name", with("a b c", "a backlight c"), "my.table:3:3: the name `backlight` is too long: \
        a name has 1 to 8 lowercase letters and digits, a letter first (refusal 4)\n    a backlight c ink\n      ^\n");
    of_table(
        "same_name",
        with("a b c", "a b a"),
        "my.table:3:5: the name `a` is there twice (refusal 4)\n    a b a ink\n        ^\n",
    );
    of_table(
        "ink",
        with("1 1 1 1", "1 1 1 2"),
        "my.table:11:7: an ink should be one digit from 0 to 1, or `-` for an open cell, \
        not `2` (refusal 6)\n    1 1 1 2\n          ^\n",
    );
}

#[test]
fn gates() {
    let with = |from: &str, to: &str| SUM_NET.replace(from, to);
    of_net(
        "unknown",
        with("1 c", "1 d"),
        "my.net:6:3: `d` is no input and no earlier gate: the inputs are a, b and c, \
        and the only earlier gate is 1 (refusal 7)\n    1 d 0110\n      ^\n",
    );
    of_net(
        "own_number",
        with("a b 0110", "1 b 0110"),
        "my.net:5:1: `1` is no input and no earlier gate: the inputs are a, b and c, \
        and there is no gate before the first (refusal 7)\n    1 b 0110\n    ^\n",
    );
    of_net("used", with("1 c", "1 a"), "my.net:6:3: `a` is used already, in line 5: no input and no gate is used twice (refusal 8)\n    1 a 0110\n      ^\n");
    of_net(
        "used_here",
        with("a b 0110", "a a 0110"),
        "my.net:5:3: `a` is used already, in this line: \
        no input and no gate is used twice (refusal 8)\n    a a 0110\n      ^\n",
    );
    of_net("gate_used", with("1 c", "1 1"), "my.net:6:3: gate `1` is used already, in this line: no input and no gate is used twice (refusal 8)\n    \
        1 1 0110\n      ^\n");
    of_net("short_gate", with("1 c 0110", "1 c 011"), "my.net:6:5: a gate's table should be 4 digits from 0 to 1, and this has 3 (refusal 6)\n    \
        1 c 011\n        ^\n");
    of_net("gate_digit", with("1 c 0110", "1 c 0112"), "my.net:6:5: a gate's table should be 4 digits from 0 to 1, and this has a 2 (refusal 6)\n    \
        1 c 0112\n        ^\n");
}

#[test]
fn another_sheet() {
    of_table("net_for_table", SUM_NET, "my.table:3:6: line 3 should have the names of the 3 inputs and then `ink`, one space apart (refusal 1)\n    \
        a b c\\n\n         ^\nlikely cause: this is a net sheet, and a table sheet is due here\n");
    of_net("table_for_net", SUM_TABLE, "my.net:3:6: line 3 should have the names of the 3 inputs, one space apart (refusal 1)\n    \
        a b c ink\n         ^\nlikely cause: this is a table sheet, and a net sheet is due here; `sitgurp make` makes the net of a table\n");
}

#[test]
fn a_refusal_as_json() {
    let folder = Folder::new("json_refusal");
    folder.put("my.table", SUM_TABLE.replace("0 1 1 0\n", ""));
    let refused = folder.run("make my.table --json");
    assert_eq!((refused.status, refused.err.as_str()), (1, ""));
    assert_eq!(
        refused.out,
        "{\"refused\":[{\"file\":\"my.table\",\"number\":5,\"kind\":\"Row\",\"place\":52,\"line\":7,\"column\":1,\
         \"words\":\"this row should begin `0 1 1`, the next in the count\",\
         \"causes\":[\"the row `0 1 1` is missing: there are 7 rows where 8 are due\"]}]}\n"
    );
}

/// Whatever the bytes, there is a message and status 1: lines that are long, and bytes that are no text.
#[test]
fn any_bytes() {
    let folder = Folder::new("any_bytes");
    let long = "9".repeat(5_000);
    for sheet in [
        &b"\xff\xff\x00\n"[..],
        b"\n",
        b"levels",
        b"levels inputs\n2 2\na b ink\n0 0",
        long.as_bytes(),
        b"levels inputs\n9 9",
        b"levels inputs\n99999999999999999999 2\n",
    ] {
        folder.put("my.table", sheet).put("my.net", sheet);
        for words in [
            "make my.table",
            "settle my.net",
            "why my.table",
            "check my.net my.table",
        ] {
            let refused = folder.run(words);
            assert_eq!((refused.status, refused.out.as_str()), (1, ""));
            assert!(
                refused.err.lines().all(|line| line.len() < 160),
                "{}",
                refused.err
            );
        }
    }
}

/// A damaged sheet is refused with its line and column, or is good after all; whatever it is, it is said in words.
#[test]
fn damaged_sheets() {
    let folder = Folder::new("damaged");
    let mut generator = Generator::new(2_302);
    let mut refused = 0;
    for (m, n) in [(2, 2), (2, 3), (3, 2), (4, 2), (3, 3)] {
        for _ in 0..24 {
            let table = generator.table_sheet(m, n, TableKind::OfNet);
            let net = generator.net_sheet(m, n);
            folder
                .put("my.table", generator.damaged(&table))
                .put("my.net", generator.damaged(&net));
            for (words, file) in [("why my.table", "my.table:"), ("settle my.net", "my.net:")] {
                let ended = folder.run(words);
                let good = ended.status == 0 && ended.err.is_empty();
                let said = ended.status == 1 && ended.err.starts_with(file);
                assert!(good || said, "{}", ended.err);
                refused += usize::from(said);
            }
        }
    }
    assert!(refused > 120, "{refused}");
}
