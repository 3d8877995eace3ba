//! `arrivals`: when a net's output settles.

use super::Command;
use crate::call::{Call, Opt};
use crate::input::sheets;
use crate::json::Json;
use crate::outcome::{Answer, Failure};
use crate::refused;

pub static COMMAND: Command = Command {
    name: "arrivals",
    usage: "NET [ARRIVALS] --delay Q",
    summary: "when a net's output settles, from when its inputs arrive",
    help: "\
An arrival sheet has the line `name from to`, then a line for each input, in order: its name and between which two times it
arrives, in whole quarters of a microsecond, 0 to 65535. An input that the net does not use has a line too, and does not count.
",
    sheets: 2,
    more: false,
    options: &[Opt::value("--delay", "Q").says("the time that every gate takes, 0 to 255 quarters of a microsecond; it is needed")],
    ending: None,
    run,
};

fn run(call: &Call) -> Result<Answer, Failure> {
    let delay = call.number("--delay", 255)?;
    let delay = delay.ok_or_else(|| {
        call.wrong(
            "--delay is needed: what every gate takes, 0 to 255 quarters of a microsecond"
                .to_string(),
        )
    })? as u8;
    let [net_sheet, arrival_sheet] = sheets(call)?;
    let net = refused::net(&net_sheet)?;
    let settling = net
        .settling(&arrival_sheet.bytes, delay)
        .map_err(|refusal| refused::arrivals(&arrival_sheet, refusal, net.names()))?;
    let (earliest, latest) = (settling.earliest, settling.latest);
    let words = match earliest == latest {
        true => format!("the output settles at {earliest} microseconds\n"),
        false => format!("the output settles between {earliest} and {latest} microseconds\n"),
    };
    let json = Json::object([
        ("earliest", Json::Time(earliest)),
        ("latest", Json::Time(latest)),
    ]);
    Ok(Answer::new(words, json))
}
