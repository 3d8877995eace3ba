//! `page`: a table and its tree, or why there is none, as one page to keep or to send.

use super::Command;
use crate::call::{Call, Opt};
use crate::input::sheets;
use crate::json::Json;
use crate::outcome::{Answer, Failure};
use crate::page::page;
use crate::refused;

pub static COMMAND: Command = Command {
    name: "page",
    usage: "[TABLE] [--all]",
    summary: "a table and its tree, or why it has none, as one page to draw on (HTML)",
    help: "\
The page is one file that fetches nothing. Opened in a browser it is the page of Sitgurp with the table inside: draw on the table and see its tree, or
what to change. Without scripts it shows the table, its tree with the shades, the layers and how many trees there are; if there is no tree it shows what
`why` says, with the matrices of the inputs at fault.

The page itself is share/sitgurp/sitgurp.html beside the command's folder bin, where ./install puts it. SITGURP_PAGE names another file.
",
    sheets: 1,
    more: false,
    options: &[Opt::flag("--all").says("without scripts, list every line and every row, and draw matrices of any size")],
    ending: Some("html"),
    run,
};

/// How many lines of a list the page has without `--all`.
const LINES: usize = 40;

fn run(call: &Call) -> Result<Answer, Failure> {
    let [sheet] = sheets(call)?;
    let table = refused::table(&sheet)?;
    let most = if call.has("--all") { usize::MAX } else { LINES };
    let html = page(&sheet.name, &table, most)?;
    let json = Json::object([("html", Json::text(&html))]);
    Ok(Answer::new(html, json))
}
