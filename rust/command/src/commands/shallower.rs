//! `shallower`: the shallower of two nets.

use super::Command;
use crate::call::Call;
use crate::input::sheets;
use crate::json::Json;
use crate::outcome::{Answer, Failure};
use crate::refused;
use sitgurp::Net;

pub static COMMAND: Command = Command {
    name: "shallower",
    usage: "NET [NET]",
    summary: "of two net sheets the one with fewer layers, as they are wired",
    help: "\
Writes the sheet itself, the first where they are level. A sheet that cannot be read loses to one that can, and why it cannot is
told on standard error; where neither can, the status is 1.
",
    sheets: 2,
    more: false,
    options: &[],
    ending: None,
    run,
};

fn run(call: &Call) -> Result<Answer, Failure> {
    let [first, second] = sheets(call)?;
    let refused: Vec<_> = [&first, &second]
        .into_iter()
        .filter_map(|sheet| refused::net(sheet).err())
        .map(|refused| *refused)
        .collect();
    if refused.len() == 2 {
        return Err(Failure::Refused(refused));
    }
    let chosen = sitgurp::shallower(&first.bytes, &second.bytes);
    let is_first = std::ptr::eq(chosen.as_ptr(), first.bytes.as_ptr());
    let sheet = if is_first { &first } else { &second };
    let net = Net::read(chosen).expect("an accepted sheet");
    let json = Json::object([
        ("file", Json::text(sheet.file())),
        ("which", Json::number(if is_first { 1 } else { 2 })),
        ("net", crate::sheets::net(&net)),
    ]);
    let answer = Answer::new(chosen, json);
    Ok(refused
        .iter()
        .fold(answer, |answer, one| answer.note(one.to_string())))
}
