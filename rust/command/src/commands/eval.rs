//! `eval`: a net's value for given levels.

use super::Command;
use crate::call::Call;
use crate::input::of_names;
use crate::json::Json;
use crate::outcome::{Answer, Failure};
use crate::refused;
use crate::words::list;
use sitgurp::Net;
use std::ffi::OsStr;

pub static COMMAND: Command = Command {
    name: "eval",
    usage: "[NET] NAME=LEVEL ..",
    summary: "the shade that a net gives for levels of its inputs",
    help: "Every input is given once, in any order: `sitgurp eval shade.net weight=2 light=0 near=1`.\n",
    sheets: 1,
    more: true,
    options: &[],
    ending: None,
    run,
};

fn run(call: &Call) -> Result<Answer, Failure> {
    let is_level = |word: &&OsStr| word.to_string_lossy().contains('=');
    let words = call.operands.iter().map(AsRef::as_ref);
    let (levels, names): (Vec<&OsStr>, Vec<&OsStr>) = words.partition(is_level);
    if names.len() > 1 {
        let odd = names[1].to_string_lossy();
        return Err(call.wrong(format!(
            "`{odd}` is no level of an input; write it as NAME=LEVEL"
        )));
    }
    let [sheet] = of_names(call, &names)?;
    let net = refused::net(&sheet)?;
    let assignment = assignment(call, &net, &levels)?;
    let ink = net.value(&assignment).expect("a level for each input");
    let json = Json::object([("ink", Json::Number(ink.into()))]);
    Ok(Answer::new(format!("{ink}\n"), json))
}

/// A level for each input, in the net's order.
fn assignment(call: &Call, net: &Net, words: &[&OsStr]) -> Result<Vec<u8>, Failure> {
    let mut given: Vec<Option<u8>> = vec![None; net.names().len()];
    for word in words {
        let word = word.to_string_lossy();
        let (name, value) = word.split_once('=').expect("a word with `=`");
        let input = net.names().iter().position(|known| known == name);
        let input = input.ok_or_else(|| {
            let names = list(net.names());
            call.wrong(format!(
                "`{name}` is no input of this net; its inputs are {names}"
            ))
        })?;
        let level = value
            .parse()
            .ok()
            .filter(|&level: &u8| usize::from(level) < net.levels());
        let level = level.ok_or_else(|| {
            let most = net.levels() - 1;
            call.wrong(format!(
                "the level of {name} is a digit from 0 to {most}, not `{value}`"
            ))
        })?;
        if given[input].replace(level).is_some() {
            return Err(call.wrong(format!("{name} is given twice")));
        }
    }
    let missing = net.names().iter().zip(&given);
    let missing: Vec<&String> = missing
        .filter(|(_, level)| level.is_none())
        .map(|(name, _)| name)
        .collect();
    match given.iter().copied().collect() {
        Some(levels) => Ok(levels),
        None => Err(call.wrong(format!("no level is given for {}", list(&missing)))),
    }
}
