//! Changed rows with which a table has a tree, in words and as JSON.

use crate::json::Json;
use crate::words::{assignment, count};
use search::{Change, Nearest};
use sitgurp::Table;

/// Says how many rows change, whether fewer would do, and how a change is applied.
pub fn words(nearest: &Nearest) -> String {
    let rows = nearest.ways[0].len();
    let at_least = nearest.at_least;
    let fewer = match rows - at_least {
        0 if rows == 1 => String::new(),
        0 => "; fewer are ruled out".to_string(),
        1 => format!("; {at_least} may do, but no such change was found"),
        _ => format!(
            "; {at_least} to {} may do, but no such change was found",
            rows - 1
        ),
    };
    let ways = match (nearest.all, nearest.ways.len()) {
        (true, 1) => "This is the only such change",
        (true, _) => "These are all such changes",
        (false, _) => "Other changes may do as well",
    };
    format!(
        "Or other inks: with {} changed there is a tree{fewer}. {ways}; `why --apply K` writes the table with change K:",
        count(rows, "row")
    )
}

/// Lists the changes, a line a row, numbered from 1.
pub fn lines(table: &Table, nearest: &Nearest) -> Vec<String> {
    let mut lines = Vec::new();
    for (k, way) in nearest.ways.iter().enumerate() {
        let number = format!("{}. ", k + 1);
        for (row, change) in way.iter().enumerate() {
            let head = match row {
                0 => number.clone(),
                _ => " ".repeat(number.len()),
            };
            lines.push(format!("{head}{}", line(table, change)));
        }
    }
    lines
}

fn line(table: &Table, change: &Change) -> String {
    let row = table.row(change.index).expect("a row of the table");
    format!(
        "line {}: {} has ink {} in place of {}",
        change.index + 4,
        assignment(table.names(), &row.levels),
        change.to,
        change.from
    )
}

/// Returns a change as JSON.
pub fn json(way: &[Change]) -> Json {
    let change = |change: &Change| {
        Json::object([
            ("line", Json::number(change.index + 4)),
            ("from", Json::Number(change.from.into())),
            ("to", Json::Number(change.to.into())),
        ])
    };
    Json::List(way.iter().map(change).collect())
}

/// Returns all changes as JSON, and which numbers of rows are ruled out.
pub fn json_of_all(nearest: &Nearest) -> Json {
    let ways = nearest.ways.iter().map(|way| json(way));
    Json::object([
        ("at_least", Json::number(nearest.at_least)),
        ("all", Json::Bool(nearest.all)),
        ("ways", Json::List(ways.collect())),
    ])
}
