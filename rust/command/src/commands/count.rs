//! `count`: how many trees a table has.

use super::Command;
use crate::call::Call;
use crate::input::sheets;
use crate::json::Json;
use crate::outcome::{Answer, Failure};
use crate::refused;

pub static COMMAND: Command = Command {
    name: "count",
    usage: "[TABLE]",
    summary: "how many trees compute a table",
    help: "\
Counted are the trees of the inputs that `make` uses. Trees that differ only in which side is left, in gate numbers or in gate
tables count once. A table with no tree has 0, and `sitgurp why TABLE` says what to change; `sitgurp make TABLE --number K` writes
each of them.
",
    sheets: 1,
    more: false,
    options: &[],
    ending: None,
    run,
};

fn run(call: &Call) -> Result<Answer, Failure> {
    let [sheet] = sheets(call)?;
    let table = refused::full_table(&sheet)?;
    let trees = table.family().expect("a full table").size();
    let json = Json::object([("trees", Json::Number(trees))]);
    Ok(Answer::new(format!("{trees}\n"), json))
}
