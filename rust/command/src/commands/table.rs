//! `table`: the table of a net.

use super::Command;
use crate::call::Call;
use crate::input::sheets;
use crate::json::Json;
use crate::outcome::{Answer, Failure};
use crate::refused;

pub static COMMAND: Command = Command {
    name: "table",
    usage: "[NET]",
    summary: "the table sheet that a net computes",
    help: "Writes a row for every combination of levels, with the net's value as its ink.\n",
    sheets: 1,
    more: false,
    options: &[],
    ending: Some("table"),
    run,
};

fn run(call: &Call) -> Result<Answer, Failure> {
    let [sheet] = sheets(call)?;
    let table = refused::net(&sheet)?.table();
    let json = Json::object([("table", crate::sheets::table(&table))]);
    Ok(Answer::new(table.as_str(), json))
}
