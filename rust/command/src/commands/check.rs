//! `check`: whether a net has a table.

use super::Command;
use crate::call::Call;
use crate::input::sheets;
use crate::json::Json;
use crate::outcome::{Answer, Failure};
use crate::refused;
use crate::sheets::at;
use crate::words::{assignment, count, thousands};
use sitgurp::Verdict;

pub static COMMAND: Command = Command {
    name: "check",
    usage: "NET [TABLE]",
    summary: "whether a net computes a table, and the first row that differs",
    help: "\
Both sheets have the same levels, inputs and names, in the same order. Where they differ, the first such row is reported by its inputs,
with the net's ink and the table's, and the status is 1. Rows that the table leaves open, with the ink `-`, are passed over.
",
    sheets: 2,
    more: false,
    options: &[],
    ending: None,
    run,
};

fn run(call: &Call) -> Result<Answer, Failure> {
    let sheets = sheets(call)?;
    let (net, table) = refused::net_and_table(&sheets)?;
    let verdict = net
        .check(&table)
        .map_err(|refusal| refused::headers_differ(&sheets, &net.table(), &table, refusal))?;
    let open = table.open().len();
    let Verdict::Differ(index) = verdict else {
        let json = Json::object([("agree", Json::Bool(true)), ("open", Json::number(open))]);
        return Ok(Answer::new(yes(table.inks().len(), open), json));
    };
    let row = table.row(index).expect("an index of the table");
    let value = net.value(&row.levels).expect("an assignment of the net");
    let line = index + 4;
    let words = format!(
        "no: at {} the net gives {value} and the table has {} ({} line {line})\n",
        assignment(table.names(), &row.levels),
        row.ink,
        sheets[1].name
    );
    let json = Json::object([
        ("agree", Json::Bool(false)),
        ("at", at(table.names(), &row)),
        ("line", Json::number(line)),
        ("net", Json::Number(value.into())),
        ("table", Json::Number(row.ink.into())),
        ("open", Json::number(open)),
    ]);
    Ok(Answer::new(words, json).no())
}

/// A net that agrees, in so many rows of which so many are open.
fn yes(rows: usize, open: usize) -> String {
    match open {
        0 => format!("yes: the net has this table, all {}\n", count(rows, "row")),
        _ => format!(
            "yes: the net has this table in {} of {}; {} open\n",
            thousands(rows - open),
            count(rows, "row"),
            match open {
                1 => "the other is".to_string(),
                _ => format!("the other {} are", thousands(open)),
            }
        ),
    }
}
