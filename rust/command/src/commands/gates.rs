//! `gates`: a net's gate lines.

use super::Command;
use crate::call::Call;
use crate::input::sheets;
use crate::json::Json;
use crate::outcome::{Answer, Failure};
use crate::refused;
use sitgurp::Lister;

pub static COMMAND: Command = Command {
    name: "gates",
    usage: "[NET]",
    summary: "a net's gates, one by one, each with its number",
    help: "The last gate is the output. With --json a gate's table is a list of digits, and the layers are reported too.\n",
    sheets: 1,
    more: false,
    options: &[],
    ending: None,
    run,
};

fn run(call: &Call) -> Result<Answer, Failure> {
    let [sheet] = sheets(call)?;
    let net = refused::net(&sheet)?;
    let lines = Lister::start(net.as_ref()).expect("an accepted sheet");
    let mut text = Vec::new();
    for (k, line) in lines.enumerate() {
        text.extend_from_slice(format!("gate {}: ", k + 1).as_bytes());
        text.extend_from_slice(line);
        text.push(b'\n');
    }
    let json = Json::object([
        ("gates", crate::sheets::gates(&net)),
        ("layers", Json::number(net.layers())),
    ]);
    Ok(Answer::new(text, json))
}
