//! `widen`: the same rule with more levels.

use super::Command;
use crate::call::{Call, Opt};
use crate::input::{sheets, Sheet};
use crate::json::Json;
use crate::outcome::{Answer, Failure};
use crate::refused::{self, Refused};
use crate::words::count;
use search::widened;
use sitgurp::{Refusal, Table};

pub static COMMAND: Command = Command {
    name: "widen",
    usage: "[TABLE] [--levels K]",
    summary: "the same rule with more levels, so that it has a tree",
    help: "\
Writes the table of the same rule with the fewest levels that give a tree. An input above its own levels acts as its highest. The library
makes the tree of what is written. A table that has a tree is written as it is.
",
    sheets: 1,
    more: false,
    options: &[Opt::value("--levels", "K").says("write the table with K levels, whether or not it then has a tree")],
    ending: Some("table"),
    run,
};

fn run(call: &Call) -> Result<Answer, Failure> {
    let levels = call.number("--levels", 9)?;
    let [sheet] = sheets(call)?;
    let wide = match levels {
        Some(levels) => of_levels(call, &sheet, levels as usize)?,
        None => with_tree(&sheet)?,
    };
    let json = Json::object([("table", crate::sheets::table(&wide))]);
    Ok(Answer::new(wide.as_str(), json))
}

fn of_levels(call: &Call, sheet: &Sheet, levels: usize) -> Result<Table, Failure> {
    let table = refused::table(sheet)?;
    if levels < table.levels() {
        let own = count(table.levels(), "level");
        return Err(call.wrong(format!("--levels {levels} is too few: the table has {own}")));
    }
    match widened(&table, levels) {
        Ok(wide) => Ok(wide),
        Err(refusal) => {
            let inputs = count(table.names().len(), "input");
            let words = format!("a sheet of {inputs} cannot have {levels} levels");
            // the place is one of the sheet that cannot be
            let refusal = Refusal {
                position: None,
                ..refusal
            };
            Err(Refused::of_file(sheet, refusal, words).into())
        }
    }
}

/// Returns the table with the fewest levels that give a tree, if a sheet can have so many.
fn with_tree(sheet: &Sheet) -> Result<Table, Failure> {
    let table = refused::full_table(sheet)?;
    let Err(refusal) = table.settled() else {
        return Ok(table);
    };
    let fewest = table.fewest_levels().expect("a full table");
    let wide = widened(&table, fewest).ok();
    wide.filter(|wide| wide.settled().is_ok()).ok_or_else(|| {
        let inputs = count(table.names().len(), "input");
        let words =
            format!("a tree needs {fewest} levels, and a sheet of {inputs} cannot have so many");
        Refused::of_file(sheet, refusal, words).into()
    })
}
