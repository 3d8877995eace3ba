//! `tidy --csv`: what spreadsheets write, end to end. No field is ever joined, split or moved to another column.

use crate::common::{answers, answers_with_note, is_wrong, refuses, Folder, SUM_TABLE};
use std::time::{Duration, Instant};

#[test]
fn spreadsheets() {
    let folder = Folder::new("csv");
    let with = |mark: &str| SUM_TABLE.replace(' ', mark);
    let padded = with(",")
        .replace("inputs\n", "inputs,,\n")
        .replace("2,3\n", "2,3,,\n");
    for (name, separator, text) in [
        ("commas", "commas", with(",")),
        ("semicolons", "semicolons", with(";")),
        ("tabs", "tabs", with("\t")),
        ("spaces", "spaces", with("   ").replace('\n', " \r\n")),
        ("windows", "commas", with(",").replace('\n', "\r\n")),
        ("mac", "commas", with(",").replace('\n', "\r")),
        ("mark", "commas", format!("\u{feff}{}", with(","))),
        ("after_comma", "commas", with(", ")),
        (
            "all_quoted",
            "commas",
            format!("\"{}\"", with("\",\"").trim_end().replace('\n', "\"\n\"")),
        ),
        ("padded", "commas", padded),
        ("all_padded", "commas", with(",").replace('\n', ",,\n")),
        ("no_end", "commas", with(",").trim_end().to_string()),
        ("blank_end", "commas", with(",") + ",,,\n\n"),
    ] {
        folder.put(name, text);
        let note = format!("{name}: {separator} separate the fields\n");
        answers_with_note(folder.run(&format!("tidy --csv {name}")), SUM_TABLE, &note);
    }
    let json = folder.run("tidy --csv --json semicolons");
    assert_eq!((json.status, json.err.as_str()), (0, ""));
    assert!(
        json.out.starts_with("{\"separator\":\";\",\"table\":{"),
        "{}",
        json.out
    );
    let many = folder.run("tidy --csv -d tidied commas tabs");
    assert_eq!(many.out, "2 sheets: 2 written to tidied\n");
    assert_eq!(
        many.err,
        "commas: commas separate the fields\ntabs: tabs separate the fields\n"
    );
    assert_eq!(folder.get("tidied/tabs.table"), SUM_TABLE);
}

/// What is said of rows below the lines of a table of two levels and two inputs.
fn refused(name: &str, rows: &str, words: &str) {
    let folder = Folder::new(name);
    folder.put(
        "my.csv",
        format!("levels,inputs,\r\n2,2,\r\na,b,ink\r\n{rows}"),
    );
    refuses(
        folder.run("tidy --csv my.csv"),
        &format!("{words}commas separate the fields of this file\n"),
    );
}

#[test]
fn refusals_have_their_place_in_the_file() {
    refused(
        "csv_twice",
        "0,0,0\r\n1,1,0\r\n0,0,1\r\n",
        "my.csv:6:1: the row `0 0` is already in line 4 (refusal 20)\n    0,0,1\\r\n    ^\n",
    );
    refused(
        "csv_ink",
        "0,0,0\r\n1,\"1\",7\r\n",
        "my.csv:5:7: an ink should be one digit from 0 to 1, or `-` for an open cell, not `7` (refusal 6)\n    1,\"1\",7\\r\n          ^\n",
    );
    refused(
        "csv_level",
        "0,0,0\r\n2,0,1\r\n",
        "my.csv:5:1: an input's level should be one digit from 0 to 1, not `2` (refusal 5)\n    2,0,1\\r\n    ^\n",
    );
    refused(
        "csv_missing",
        "0,0,0\r\n1,1,0\r\n1,0,0\r\n",
        "my.csv:7:1: the sheet ends here, and the row `0 1` is missing (refusal 1)\n",
    );
    // the place is where the next row is due, and not behind the padding
    refused(
        "csv_missing_padded",
        "0,0,0\n1,1,0\n1,0,0\n,,,,\n,,",
        "my.csv:7:1: the sheet ends here, and the row `0 1` is missing (refusal 1)\n    ,,,,\n    ^\n",
    );
    refused(
        "csv_missing_no_end",
        "0,0,0\n1,1,0\n1,0,0",
        "my.csv:6:6: the sheet ends here, and the row `0 1` is missing (refusal 1)\n    1,0,0<end of file>\n         ^\n",
    );
    refused(
        "csv_short_row",
        "0,0,0\r\n0,1\r\n",
        "my.csv:5:4: a row should have 2 levels and an ink, each in a cell of its own (refusal 1)\n    0,1\\r\n       ^\n",
    );
}

/// A blank cell moves no other cell: it is refused where it is.
#[test]
fn blank_cells() {
    let ink = "this cell is blank: an ink should be one digit from 0 to 1, or `-` for an open cell (refusal 6)\n";
    let level = "this cell is blank: an input's level should be one digit from 0 to 1; only an ink may be left open, with `-` (refusal 5)\n";
    refused(
        "blank_ink",
        "0,0,0\r\n0,1,,1\r\n",
        &format!("my.csv:5:5: {ink}    0,1,,1\\r\n        ^\n"),
    );
    refused(
        "blank_last",
        "0,0,0\n0,1,\n",
        &format!("my.csv:5:5: {ink}    0,1,\\n\n        ^\n"),
    );
    refused(
        "blank_padded",
        "0,0,0,,\n0,1,,,\n",
        &format!("my.csv:5:5: {ink}    0,1,,,\n        ^\n"),
    );
    refused(
        "blank_level",
        "0,,1,1\n",
        &format!("my.csv:4:3: {level}    0,,1,1\n      ^\n"),
    );
    refused(
        "blank_first",
        ",1,1\n",
        &format!("my.csv:4:1: {level}    ,1,1\n    ^\n"),
    );
    refused(
        "blank_quoted",
        "0,\"\",1\n",
        &format!("my.csv:4:3: {level}    0,\"\",1\n      ^\n"),
    );
    refused(
        "blank_spaces",
        "0,  ,1\n",
        &format!("my.csv:4:5: {level}    0,  ,1\n        ^\n"),
    );
    // a blank line is no row, and the lines below it keep their numbers
    refused(
        "blank_row",
        "0,0,0\n,,\n0,1,1\n\n0,1,0\n",
        "my.csv:8:1: the row `0 1` is already in line 6 (refusal 20)\n    0,1,0\n    ^\n",
    );
}

#[test]
fn one_separator() {
    refused(
        "two_separators",
        "0,0,0\n1;1,1\n",
        "my.csv:5:1: an input's level should be one digit from 0 to 1, not `1;1` (refusal 5)\n    1;1,1\n    ^\n\
         likely cause: commas separate the fields of this file, so `;` is part of this field\n",
    );
    let folder = Folder::new("separators");
    folder.put("my.csv", "levels inputs\n2 2\na;b;ink\n0;0;0\n");
    refuses(
        folder.run("tidy --csv my.csv"),
        "my.csv:1:1: line 1 should have the columns' names, or be `levels` and `inputs`, each in a cell of its own (refusal 1)\n    levels inputs\n    ^\n\
         likely cause: semicolons separate the fields of this file, so a space is part of this field\n\
         semicolons separate the fields of this file\n",
    );
}

/// What is not said in the file is inferred and reported, and the columns get valid names.
#[test]
fn a_plain_export() {
    let folder = Folder::new("csv_plain");
    let due = "levels inputs\n2 2\nmystroke nahe ink\n0 0 0\n0 1 1\n1 0 1\n1 1 -\n";
    let names = "my.csv: mystroke is `My stroke`\nmy.csv: nahe is `Nähe`\nmy.csv: ink is `Tinte`\n";
    let report = |separator: &str| {
        format!("my.csv: {separator} separate the fields\nmy.csv: 2 levels and 2 inputs, by its digits and columns\n{names}")
    };
    let text = "My stroke,Nähe,Tinte\r\n0,0,0\r\n1,0,1\r\n0,1,1.0\r\n1,1,-\r\n";
    let semicolons = format!("sep=;\r\n{}", text.replace(',', ";").replace("1.0", "1,0"));
    let latin: Vec<u8> = text.chars().map(|letter| letter as u8).collect();
    let wide = |bytes: fn(u16) -> [u8; 2]| -> Vec<u8> {
        let text = format!("\u{feff}{}", text.replace(',', "\t"));
        text.encode_utf16().flat_map(bytes).collect()
    };
    for (file, separator) in [
        (text.as_bytes().to_vec(), "commas"),
        (format!("\u{feff}{text}").into_bytes(), "commas"),
        (latin, "commas"),
        (semicolons.into_bytes(), "semicolons"),
        (wide(u16::to_le_bytes), "tabs"),
        (wide(u16::to_be_bytes), "tabs"),
        (
            text.replace("\r\n", ",,\r\n,,,,\r\n").into_bytes(),
            "commas",
        ),
    ] {
        folder.put("my.csv", file);
        answers_with_note(folder.run("tidy --csv my.csv"), due, &report(separator));
    }
    folder.put("my.csv", text);
    answers_with_note(
        folder.run("tidy --csv my.csv -o my.table --names my.names"),
        "",
        &report("commas"),
    );
    assert_eq!(folder.get("my.table"), due);
    assert_eq!(
        folder.get("my.names"),
        "name,written\nmystroke,My stroke\nnahe,Nähe\nink,Tinte\n"
    );
    let json = folder.run("tidy --csv my.csv --json").out;
    assert!(
        json.ends_with(
            "\"inferred\":true,\"names\":[{\"name\":\"mystroke\",\"written\":\"My stroke\"},\
             {\"name\":\"nahe\",\"written\":\"Nähe\"},{\"name\":\"ink\",\"written\":\"Tinte\"}]}\n"
        ),
        "{json}"
    );
    // a table sheet is due elsewhere, and the hint says how to get one
    let hint = "`sitgurp tidy --csv my.csv` writes it as a table sheet\n";
    assert!(folder.run("make my.csv").err.ends_with(hint));
}

#[test]
fn columns_by_name() {
    let folder = Folder::new("csv_columns");
    folder.put(
        "my.csv",
        "no,ink,\"a, b\",c\n1,0,0,0\n2,1,0,1\n3,1,1,0\n4,0,1,1\n",
    );
    let due = "levels inputs\n2 2\nab c ink\n0 0 0\n0 1 1\n1 0 1\n1 1 0\n";
    let note = "my.csv: commas separate the fields\nmy.csv: 2 levels and 2 inputs, by its digits and columns\nmy.csv: ab is `a, b`\n";
    answers_with_note(folder.run("tidy --csv my.csv --drop no"), due, note);
    answers_with_note(
        folder.run("tidy --csv my.csv --drop=NO --names n.csv"),
        due,
        note,
    );
    assert_eq!(
        folder.get("n.csv"),
        "name,written\nab,\"a, b\"\nc,c\nink,ink\n"
    );
    let inks = "levels inputs\n2 2\nink2 ab ink\n0 0 0\n0 1 1\n1 0 1\n1 1 0\n";
    let other = folder.run("tidy --csv my.csv --drop no --ink c");
    assert_eq!((other.status, other.out.as_str()), (0, inks));
    let refused = folder.run("tidy --csv my.csv");
    refuses(
        refused,
        "my.csv:6:1: the sheet ends here, and 121 rows are missing, `0 0 0` the first of them (refusal 1)\n\
         commas separate the fields of this file; by its digits and columns it has 5 levels and 3 inputs\n\
         `sitgurp tidy --csv --drop NAME my.csv` leaves a column out, and `--ink NAME` says which is the ink\n",
    );
    for (words, said) in [
        (
            "--drop z",
            "my.csv: no column is called `z`; the columns are `no`, `ink`, `a, b` and `c`",
        ),
        (
            "--drop no,z",
            "my.csv: no column is called `z`; the columns are `no`, `ink`, `a, b` and `c`",
        ),
        (
            "--drop no --ink no",
            "my.csv: no column is called `no`; the columns are `ink`, `a, b` and `c`",
        ),
        (
            "--drop no --names my.csv",
            "`my.csv` is a sheet that it reads, and would be written over: name another file",
        ),
        ("--drop no --names x -o x", "--names and -o name one file"),
    ] {
        let front = format!("sitgurp tidy: {said}\n");
        is_wrong(folder.run(&format!("tidy --csv my.csv {words}")), &front);
    }
    assert!(!folder.0.join("x").exists());
    is_wrong(
        folder.run("tidy my.csv --drop no"),
        "sitgurp tidy: --drop goes with --csv\n",
    );
    let many = folder.run("tidy --csv -d out my.csv --drop no --names n.csv");
    assert_eq!(many.status, 2);
    let said = "--names and -d do not go together";
    assert!(many.err.contains(said), "{}", many.err);
    let stream = "{\"call\":\"tidy\",\"words\":[\"--csv\",\"--names\",\"x\"],\"sheets\":[\"a,b,c\\n0,0,0\\n0,1,1\\n1,0,1\\n1,1,1\\n\"]}\n";
    let stream = folder.run_on("stream", stream.as_bytes()).out;
    assert!(stream.contains("a stream writes no files"), "{stream}");
    assert!(!folder.0.join("x").exists());
}

/// Names that are written differently stay different, and those that are written alike are refused.
#[test]
fn names_stay_different() {
    let folder = Folder::new("csv_names");
    let table = |names: &str| {
        let rows = "0,0,0\n0,1,1\n1,0,1\n1,1,1\n";
        folder.put("my.csv", format!("{names}\n{rows}"));
        folder.run("tidy --csv my.csv")
    };
    let third = |names: &str| {
        let sheet = table(names).out;
        sheet.lines().nth(2).map(str::to_string).unwrap_or_default()
    };
    assert_eq!(third("A,a,ink"), "a2 a ink");
    assert_eq!(
        third("stroke weight,stroke weigher,x"),
        "strokewe strokew2 ink"
    );
    assert_eq!(third("1st,2nd,tone"), "x1st x2nd ink");
    assert_eq!(third("重さ,近さ,色"), "in1 in2 ink");
    let head = "commas separate the fields of this file; by its digits and columns it has 2 levels and 2 inputs\n";
    let drop = "`sitgurp tidy --csv --drop NAME my.csv` leaves a column out, and `--ink NAME` says which is the ink\n";
    refuses(
        table("My a,My a,ink"),
        &format!("my.csv:1:6: the name `My a` is there twice (refusal 4)\n    My a,My a,ink\n         ^\n{head}{drop}"),
    );
    refuses(
        table("a,\"b,ink"),
        &format!(
            "my.csv:1:3: inputs should be a number from 2 to 12, not `1` (refusal 3)\n    a,\"b,ink\n      ^\n\
             likely cause: no quote closes the one that opens this field\n{}{drop}",
            head.replace("2 inputs", "1 input")
        ),
    );
    refuses(
        table("a,,ink"),
        &format!(
            "my.csv:1:3: this cell is blank: line 1 should have the names of the 2 inputs and then `ink`, each in a cell of its own \
             (refusal 4)\n    a,,ink\n      ^\n{head}{drop}"
        ),
    );
}

/// `why` reads the names back.
#[test]
fn why_with_the_names_of_the_spreadsheet() {
    let folder = Folder::new("csv_why");
    let rows = "0,0,0,0\n0,0,1,0\n0,1,0,0\n0,1,1,1\n1,0,0,0\n1,0,1,1\n1,1,0,1\n1,1,1,1\n";
    folder.put("my.csv", format!("\"Left, near\",Right,c,Ink\n{rows}"));
    folder.run("tidy --csv my.csv -o my.table --names my.names");
    let why = folder.run("why my.table");
    let named = folder.run("why my.table --names my.names");
    let names =
        "\nThe inputs in the spreadsheet:\n    leftnear: Left, near\n    right: Right\n    c: c\n";
    answers(named, &format!("{}{names}", why.out));
    is_wrong(
        folder.run("why my.table --names other.names"),
        "other.names: cannot be read: No such file or directory\n",
    );
    let stream = "{\"call\":\"why\",\"words\":[\"--names\",\"my.names\"],\"sheets\":[\"levels inputs\\n2 3\\na b c ink\\n\
                  0 0 0 0\\n0 0 1 0\\n0 1 0 0\\n0 1 1 1\\n1 0 0 0\\n1 0 1 1\\n1 1 0 1\\n1 1 1 1\\n\"]}\n";
    let stream = folder.run_on("stream", stream.as_bytes()).out;
    assert!(stream.contains("a stream reads no files"), "{stream}");
}

/// The time grows with the file, and not with the square of its columns.
#[test]
fn very_many_columns() {
    let folder = Folder::new("csv_columns_many");
    let names: String = (0..100_000).map(|k| format!("A {k},")).collect();
    let blank = ",".repeat(100_000);
    for line in [format!("{names}ink\n"), format!("{blank}A\n")] {
        folder.put("my.csv", line + &"0\n".repeat(50_000));
        let start = Instant::now();
        let refused = folder.run("tidy --csv my.csv");
        let said = "my.csv:1:1: inputs should be a number from 2 to 12, not `";
        assert!(refused.err.starts_with(said), "{}", &refused.err[..80]);
        assert!(
            start.elapsed() < Duration::from_secs(60),
            "{:?}",
            start.elapsed()
        );
    }
}

/// The own files of spreadsheet programs, by their names and by their bytes.
#[test]
fn workbooks() {
    let folder = Folder::new("csv_workbooks");
    let said = |file: &str| {
        format!("{file}: cannot be read: it is a spreadsheet program's own file\nexport it as CSV; `sitgurp tidy --csv FILE.csv` reads that\n")
    };
    for name in ["my.xlsx", "my.XLSX", "my.xls", "my.ods"] {
        folder.put(name, SUM_TABLE);
        for command in ["tidy --csv", "tidy", "make"] {
            is_wrong(folder.run(&format!("{command} {name}")), &said(name));
        }
    }
    for bytes in [
        &b"PK\x03\x04rest"[..],
        b"\xd0\xcf\x11\xe0\xa1\xb1\x1a\xe1rest",
    ] {
        folder.put("my.csv", bytes);
        is_wrong(folder.run("tidy --csv my.csv"), &said("my.csv"));
        is_wrong(folder.run_on("tidy --csv", bytes), &said("standard input"));
    }
}

#[test]
fn quotes_as_in_rfc_4180() {
    let ink = "an ink should be one digit from 0 to 1, or `-` for an open cell, not";
    refused(
        "quote_inside",
        "0,0,0\"\n0,1,1\n",
        &format!("my.csv:4:5: {ink} `0\"` (refusal 6)\n    0,0,0\"\n        ^\n\
         likely cause: there is a quote inside this field; put quotes around all of it, and write a quote inside them twice\n"),
    );
    refused(
        "after_quote",
        "0,0,\"0\"1\n0,1,1\n",
        &format!("my.csv:4:5: {ink} `\"0\"1` (refusal 6)\n    0,0,\"0\"1\n        ^\n\
         likely cause: something follows the quote that closes this field; a quote inside quotes is written twice\n"),
    );
    refused(
        "unclosed",
        "0,0,\"0\n0,1,1\n",
        &format!(
            "my.csv:4:5: {ink} `\"0\\x0a0,1,1\\x0a` (refusal 6)\n    0,0,\"0\n        ^\n\
         likely cause: no quote closes the one that opens this field\n"
        ),
    );
    let folder = Folder::new("csv_quotes");
    folder.put(
        "my.csv",
        SUM_TABLE
            .replace(' ', ",")
            .replace(",b,", ",\"b\",")
            .replace("\n0", "\n\"0\""),
    );
    let tidied = folder.run("tidy --csv --json my.csv");
    assert_eq!(tidied.status, 0);
    answers(folder.run("tidy --csv my.csv -o tidied.table --json"), "");
    assert_eq!(folder.get("tidied.table"), tidied.out);
}

/// Whatever separator, quote or space is put anywhere into a file, and whichever cell is blanked: it is refused, or the table is the same.
fn no_cell_moves(folder: &str, csv: &str, accepted: std::ops::Range<usize>) {
    let folder = Folder::new(folder);
    let mut files = Vec::new();
    for place in 0..=csv.len() {
        for mark in [",", ";", "\t", "\"", " ", "\"\"", ",,", "\n", ",\n"] {
            files.push(format!("{}{mark}{}", &csv[..place], &csv[place..]));
        }
    }
    for place in (0..csv.len()).filter(|&place| csv.as_bytes()[place].is_ascii_digit()) {
        files.push(format!("{}{}", &csv[..place], &csv[place + 1..]));
    }
    let quoted = |text: &str| {
        let text = text.replace('"', "\\\"").replace('\t', "\\t");
        text.replace('\n', "\\n")
    };
    let line = |file: &String| {
        let sheet = quoted(file);
        format!("{{\"call\":\"tidy\",\"words\":[\"--csv\"],\"sheets\":[\"{sheet}\"]}}\n")
    };
    // a stream is written before its answers are read, so it is short
    let answers = files.chunks(200).map(|some| {
        let lines: String = some.iter().map(line).collect();
        folder.run_on("stream", lines.as_bytes()).out
    });
    let answers: String = answers.collect();
    assert_eq!(answers.lines().count(), files.len());
    let mut good = 0;
    for (answer, file) in answers.lines().zip(&files) {
        if answer.starts_with("{\"id\":null,\"status\":0,") {
            assert!(answer.contains(&quoted(SUM_TABLE)), "{file:?}: {answer}");
            good += 1;
        }
    }
    // spaces around fields, padding and blank lines
    assert!(accepted.contains(&good), "{good} of {}", files.len());
}

#[test]
fn no_cell_ever_moves() {
    let csv = SUM_TABLE.replace(' ', ",");
    no_cell_moves("csv_moves", &csv, 50..400);
    // the same table without its first two lines, and with its columns in another order
    let (_, plain) = csv.split_once("2,3\n").expect("two lines before the names");
    no_cell_moves("csv_moves_plain", plain, 50..400);
    let (ink, inputs): (Vec<String>, Vec<String>) = plain
        .lines()
        .map(|line| line.rsplit_once(',').expect("an ink"))
        .map(|(inputs, ink)| (ink.to_string(), inputs.to_string()))
        .unzip();
    let first: Vec<String> = ink
        .iter()
        .zip(&inputs)
        .map(|(ink, inputs)| format!("{ink},{inputs}\n"))
        .collect();
    no_cell_moves("csv_moves_ink", &first.concat(), 50..400);
}
