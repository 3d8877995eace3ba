//! `draw`: a net as a picture.

use super::Command;
use crate::call::{Call, Opt};
use crate::input::sheets;
use crate::json::Json;
use crate::outcome::{Answer, Failure};
use crate::refused;

pub static COMMAND: Command = Command {
    name: "draw",
    usage: "[NET] [--dot]",
    summary: "a net as a picture (SVG)",
    help: "\
Inputs are at the left, the output at the right, each gate with its table, shaded by level. An input that is not used is dashed.
",
    sheets: 1,
    more: false,
    options: &[Opt {
        ending: Some("dot"),
        ..Opt::flag("--dot").says("write the net for Graphviz instead")
    }],
    ending: Some("svg"),
    run,
};

fn run(call: &Call) -> Result<Answer, Failure> {
    let dot = call.has("--dot");
    let [sheet] = sheets(call)?;
    let net = refused::net(&sheet)?;
    let (name, text) = match dot {
        true => ("dot", picture::dot::write(&net)),
        false => ("svg", picture::svg::draw(&net)),
    };
    let json = Json::object([(name, Json::text(&text))]);
    Ok(Answer::new(text, json))
}
