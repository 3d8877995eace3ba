//! `settle`: the settled net of a net.

use super::{Command, SHALLOW};
use crate::call::Call;
use crate::input::sheets;
use crate::json::Json;
use crate::outcome::{Answer, Failure};
use crate::refused;

pub static COMMAND: Command = Command {
    name: "settle",
    usage: "[NET] [--shallow]",
    summary: "the settled net of a net sheet: equal tables give equal bytes",
    help: "\
Writes the net that `make` writes for the net's own table.
",
    sheets: 1,
    more: false,
    options: &[SHALLOW],
    ending: Some("net"),
    run,
};

fn run(call: &Call) -> Result<Answer, Failure> {
    let [sheet] = sheets(call)?;
    let net = refused::net(&sheet)?;
    let settled = match call.has("--shallow") {
        true => net.shallow().net,
        false => net.settled(),
    };
    let json = Json::object([("net", crate::sheets::net(&settled))]);
    Ok(Answer::new(settled.as_str(), json))
}
