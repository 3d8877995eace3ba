//! `family`: the trees of a table on one page.

use super::Command;
use crate::call::{Call, Opt};
use crate::input::sheets;
use crate::json::Json;
use crate::outcome::{Answer, Failure};
use crate::refused::{self, Refused};
use sitgurp::Net;

pub static COMMAND: Command = Command {
    name: "family",
    usage: "[TABLE] [--from K] [--most N]",
    summary: "the trees of a table on one page (SVG)",
    help: "\
Draws the wiring of each tree, with its number. A gate's disc has the gate's number; its table is not drawn. Trees that differ only in
which side is left, in gate numbers or in gate tables are one. `sitgurp make TABLE --number K` writes the tree of number K, and
`sitgurp count TABLE` says how many there are.
",
    sheets: 1,
    more: false,
    options: &[
        Opt::value("--from", "K").says("begin with tree K instead of 0"),
        Opt::value("--most", "N").says("draw N trees at most, up to 1000, instead of 60"),
    ],
    ending: Some("svg"),
    run,
};

/// How many trees are drawn where nothing is said.
const USUAL: u64 = 60;
const MOST: u64 = 1000;

fn run(call: &Call) -> Result<Answer, Failure> {
    let from = call.number("--from", u64::MAX)?.unwrap_or(0);
    let most = call.number("--most", MOST)?.unwrap_or(USUAL).max(1);
    let [sheet] = sheets(call)?;
    let table = refused::full_table(&sheet)?;
    let refused = |refusal| Refused::of_table(&sheet, &table, refusal);
    // a table without a tree is refused as `make` refuses it
    table.settled().map_err(refused)?;
    let family = table.family().map_err(refused)?;
    let all = family.size();
    // a number that no tree has is refused
    family.tree(from).map_err(refused)?;
    let end = from.saturating_add(most).min(all);
    let trees: Result<Vec<(u64, Net)>, _> = (from..end)
        .map(|number| Ok((number, family.tree(number)?)))
        .collect();
    let trees = trees.map_err(refused)?;
    let svg = picture::family::draw(&trees, all);
    let json = Json::object([
        ("trees", Json::Number(all)),
        ("from", Json::Number(from)),
        ("drawn", Json::number(trees.len())),
        ("svg", Json::text(&svg)),
    ]);
    Ok(Answer::new(svg, json))
}
