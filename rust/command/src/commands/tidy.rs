//! `tidy`: a loosely laid table as a table sheet.

use super::Command;
use crate::call::{Call, Opt};
use crate::csv::{narrow, Choice, Column, Csv};
use crate::input::{sheets, Sheet};
use crate::json::Json;
use crate::outcome::{Answer, Failure};
use crate::output;
use crate::refused::Refused;
use crate::words::{count, file_name};
use sitgurp::Table;
use std::path::Path;

pub static COMMAND: Command = Command {
    name: "tidy",
    usage: "[FILE] [--csv [--ink NAME] [--drop NAME ..] [--names FILE]]",
    summary: "a loosely laid table as a table sheet",
    help: "\
Takes one or more spaces between fields, spaces at a line's end, and rows in any order; every row is there once. The ink `-` of
a row that is left open stays.

With --csv the first line may have the columns' names. Levels and inputs are then inferred: the highest digit is the highest level,
and every column but the ink is an input. The ink is the column called ink, or else the last one. A name with capitals, accents,
spaces or too many letters becomes a valid one. One separator is found for the whole file: the one that a first line `sep=;` names,
or else the first comma, semicolon or tab that is not in quotes. All this is reported on standard error.

A blank cell is refused; an open cell has the ink `-`. `1.0` is 1. Blank lines and blank columns are left out.
",
    sheets: 1,
    more: false,
    options: &[
        Opt::flag("--csv").says(
            "read what a spreadsheet writes: commas, semicolons or tabs, quotes as in RFC 4180, CR LF, UTF-8, or UTF-16 with a byte order mark",
        ),
        Opt::value("--ink", "NAME").says("the column that is the ink"),
        Opt {
            many: true,
            ..Opt::value("--drop", "NAME").says("leave a column out, or several with commas between")
        },
        Opt::value("--names", "FILE").says("write each column's name in the sheet and in the spreadsheet to a file, as CSV"),
    ],
    ending: Some("table"),
    run,
};

fn run(call: &Call) -> Result<Answer, Failure> {
    let only = ["--ink", "--drop", "--names"]
        .into_iter()
        .find(|option| call.has(option));
    if let (Some(option), false) = (only, call.has("--csv")) {
        return Err(call.wrong(format!("{option} goes with --csv")));
    }
    let [sheet] = sheets(call)?;
    if call.has("--csv") {
        return of_csv(call, &sheet.with(narrow(&sheet.bytes).into_owned()));
    }
    let tidied =
        sitgurp::tidied(&sheet.bytes).map_err(|refusal| Refused::of_loose(&sheet, refusal))?;
    let table = Table::read(&tidied).expect("a sheet that the library has written");
    let json = Json::object([("table", crate::sheets::table(&table))]);
    Ok(Answer::new(table.as_str(), json))
}

/// Tidies CSV, and reports its separator, what was inferred, and the names that are not as they are written.
fn of_csv(call: &Call, sheet: &Sheet) -> Result<Answer, Failure> {
    let choice = Choice {
        ink: call.value("--ink"),
        drop: call.values("--drop"),
    };
    let csv = Csv::with(&sheet.bytes, &choice)
        .map_err(|words| call.wrong(format!("{}: {words}", sheet.name)))?;
    let tidied =
        sitgurp::tidied(&csv.text).map_err(|refusal| Refused::of_csv(sheet, &csv, refusal))?;
    let table = Table::read(&tidied).expect("a sheet that the library has written");
    if let Some(file) = call.value("--names") {
        store(call, Path::new(&file), &csv.columns)?;
    }
    let separator = char::from(csv.separator.byte()).to_string();
    let name = |column: &Column| {
        Json::object([
            ("name", Json::text(&column.name)),
            ("written", Json::text(&column.written)),
        ])
    };
    let json = Json::object([
        ("separator", Json::text(separator)),
        ("table", crate::sheets::table(&table)),
        ("inferred", Json::Bool(csv.inferred.is_some())),
        ("names", Json::List(csv.columns.iter().map(name).collect())),
    ]);
    let answer = Answer::new(table.as_str(), json);
    Ok(if call.json {
        answer
    } else {
        answer.note(report(sheet, &csv))
    })
}

/// What is said of a file that was read, a line for each thing.
fn report(sheet: &Sheet, csv: &Csv) -> String {
    let mut lines = vec![format!("{} separate the fields", csv.separator.words())];
    if let Some([levels, inputs]) = csv.inferred {
        let inputs = count(inputs, "input");
        lines.push(format!(
            "{levels} levels and {inputs}, by its digits and columns"
        ));
    }
    for Column { written, name } in &csv.columns {
        if written != name {
            lines.push(format!("{name} is `{}`", file_name(written.as_ref())));
        }
    }
    let line = |line: &String| format!("{}: {line}\n", sheet.name);
    lines.iter().map(line).collect()
}

/// Writes each column's name in the sheet and as it is written, as CSV.
fn store(call: &Call, file: &Path, columns: &[Column]) -> Result<(), Failure> {
    if call.lent.is_some() {
        return Err(call.wrong("a stream writes no files".to_string()));
    }
    if call.of_many {
        return Err(call.wrong("--names and -d do not go together".to_string()));
    }
    if call.output.as_deref() == Some(file.as_os_str()) {
        return Err(call.wrong("--names and -o name one file".to_string()));
    }
    call.may_write(file)?;
    let line = |column: &Column| format!("{},{}\n", column.name, quoted(&column.written));
    let lines: String = columns.iter().map(line).collect();
    output::to_file(file, format!("name,written\n{lines}").as_bytes())
}

/// Returns a text as a cell of CSV: in quotes where it has a comma, a quote or a line end.
fn quoted(text: &str) -> String {
    match text.contains([',', '"', '\n', '\r']) {
        true => format!("\"{}\"", text.replace('"', "\"\"")),
        false => text.to_string(),
    }
}
