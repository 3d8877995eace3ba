//! `fill`: inks for the open cells of a table, with which it has a tree.

use super::Command;
use crate::call::{Call, Opt};
use crate::input::{sheets, Sheet};
use crate::json::Json;
use crate::outcome::{Answer, Failure};
use crate::progress::Progress;
use crate::refused::{self, Refused};
use crate::words::{count, thousands};
use search::{fill, fillings, Filled, Filling, Ground, Wish};
use sitgurp::Table;
use std::time::Duration;

pub static COMMAND: Command = Command {
    name: "fill",
    usage: "[TABLE] [--net] [--shallow] [--for SECONDS]",
    summary: "inks for the open cells of a table, with which it has a tree",
    help: "\
Writes the table with an ink in place of every `-`. The table has a tree, which the library has checked against the open table. If there
are at most 65,536 fillings, all are tried, and the lowest inks in the order of the rows are taken. Otherwise the first filling that a
search finds is taken. 'no filling has a tree' is said only where that is certain.
",
    sheets: 1,
    more: false,
    options: &[
        Opt {
            ending: Some("net"),
            ..Opt::flag("--net").says("write the tree instead, as a net sheet")
        },
        Opt::flag("--shallow").says("prefer a filling whose tree has fewest layers"),
        Opt::value("--for", "SECONDS").says("search for so long, if there are more than 65,536 fillings and none is found sooner"),
    ],
    ending: Some("table"),
    run,
};

/// A day, which is longer than anybody waits.
const MOST_SECONDS: u64 = 86_400;

fn run(call: &Call) -> Result<Answer, Failure> {
    let seconds = call.number("--for", MOST_SECONDS)?;
    let [sheet] = sheets(call)?;
    let open = refused::table(&sheet)?;
    match searched(call, &open, seconds) {
        Filling::Found(filled) => Ok(found(call, &filled)),
        Filling::Impossible(ground) => {
            Err(refused(&sheet, &open, impossible(&open, ground)).into())
        }
        Filling::NotFound { attempts, gates } => {
            let none = refused(&sheet, &open, not_found(&open, attempts, gates));
            Err(none
                .hinted("`--for SECONDS` searches longer".to_string())
                .into())
        }
    }
}

/// Searches, and shows how much of the time has passed.
fn searched(call: &Call, open: &Table, seconds: Option<u64>) -> Filling {
    let progress = Progress::of(seconds.unwrap_or(0) as usize);
    let is_shown = seconds.is_some() && !call.of_many;
    let mut told = None;
    let mut tell = |taken: Duration| {
        let taken = taken.as_secs().min(seconds.unwrap_or(0));
        if is_shown && told.is_none_or(|told| taken > told) {
            progress.at(taken as usize);
            told = Some(taken);
        }
    };
    let wish = Wish {
        shallow: call.has("--shallow"),
        time: seconds.map(Duration::from_secs),
        tell: &mut tell,
    };
    let filling = fill(open, wish);
    if told.is_some() {
        progress.end();
    }
    filling
}

fn found(call: &Call, filled: &Filled) -> Answer {
    let Filled { table, net, every } = filled;
    let text = match call.has("--net") {
        true => net.as_str(),
        false => table.as_str(),
    };
    let json = Json::object([
        ("table", crate::sheets::table(table)),
        ("net", crate::sheets::net(net)),
        ("all_tried", Json::Bool(*every)),
    ]);
    Answer::new(text, json)
}

/// Says that no filling has a tree, and how that is known.
fn impossible(open: &Table, ground: Ground) -> String {
    let how = match (ground, open.open().len()) {
        (_, 0) => "no cell is open, and the table has none".to_string(),
        (Ground::Tried(fillings), _) => format!("all {} were tried", thousands(fillings as usize)),
        (Ground::Counted, _) => {
            "whatever the open cells hold, every way to join the inputs needs more levels"
                .to_string()
        }
    };
    format!("no filling has a tree: {how}")
}

/// Says that none was found, and what was tried.
fn not_found(open: &Table, attempts: u64, gates: u64) -> String {
    let fillings = match fillings(open.levels(), open.open().len()) {
        Some(fillings) => thousands(fillings as usize),
        None => format!("{} to the power {}", open.levels(), open.open().len()),
    };
    format!(
        "none found: there are {fillings} fillings; {} tried {} and came to no tree, but there may be one",
        count(attempts as usize, "attempt"),
        count(gates as usize, "gate")
    )
}

/// Refuses the table as the library does, and says what came of the search.
fn refused(sheet: &Sheet, open: &Table, words: String) -> Refused {
    let refusal = open
        .settled()
        .expect_err("a table without a tree, or with open cells");
    Refused::of_file(sheet, refusal, words)
}
