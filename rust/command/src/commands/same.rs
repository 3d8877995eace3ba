//! `same`: whether two nets compute the same table.

use super::Command;
use crate::call::Call;
use crate::input::sheets;
use crate::json::Json;
use crate::outcome::{Answer, Failure};
use crate::refused;
use crate::sheets::at;
use crate::words::assignment;
use sitgurp::Verdict;

pub static COMMAND: Command = Command {
    name: "same",
    usage: "NET [NET]",
    summary: "whether two nets compute the same table",
    help: "\
Two nets of the same levels, inputs and names are the same where they settle to the same sheet, whatever their wiring and whichever
inputs they use. Where they are not, the first row at which they differ is reported, and the status is 1.
",
    sheets: 2,
    more: false,
    options: &[],
    ending: None,
    run,
};

fn run(call: &Call) -> Result<Answer, Failure> {
    let sheets = sheets(call)?;
    let (first, second) = (refused::net(&sheets[0])?, refused::net(&sheets[1])?);
    let table = second.table();
    let verdict = first
        .check(&table)
        .map_err(|refusal| refused::headers_differ(&sheets, &first.table(), &table, refusal))?;
    let same = first.settled() == second.settled();
    let Verdict::Differ(index) = verdict else {
        let json = Json::object([("same", Json::Bool(same))]);
        return Ok(Answer::new(
            "same: the two nets compute the same table\n",
            json,
        ));
    };
    let row = table.row(index).expect("an index of the table");
    let value = first.value(&row.levels).expect("an assignment of the net");
    let words = format!(
        "not the same: at {} the first net gives {value} and the second {}\n",
        assignment(table.names(), &row.levels),
        row.ink
    );
    let json = Json::object([
        ("same", Json::Bool(same)),
        ("at", at(table.names(), &row)),
        ("first", Json::Number(value.into())),
        ("second", Json::Number(row.ink.into())),
    ]);
    Ok(Answer::new(words, json).no())
}
