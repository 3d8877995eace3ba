//! `larger`: a tree with gates of more than two inputs.

use super::Command;
use crate::call::{Call, Opt};
use crate::input::sheets;
use crate::json::Json;
use crate::outcome::{Answer, Failure};
use crate::refused;
use crate::words::{count, wrapped};
use search::{larger, Larger, LargerGate, Source};
use sitgurp::Table;

pub static COMMAND: Command = Command {
    name: "larger",
    usage: "[TABLE] [--svg]",
    summary: "the tree with the smallest gates, where two inputs a gate are too few",
    help: "\
Shows the tree whose largest gate has fewest inputs; of these, one with fewest gates of that size. Each gate is listed with its inputs and
its table, in which the first input changes slowest. The tree is evaluated on every row. It is not a net sheet: the gates of a net have two
inputs, so no other command reads it.
",
    sheets: 1,
    more: false,
    options: &[Opt {
        ending: Some("svg"),
        ..Opt::flag("--svg").says("draw the tree instead")
    }],
    ending: Some("txt"),
    run,
};

/// The width of what is told.
const WIDTH: usize = 96;

fn run(call: &Call) -> Result<Answer, Failure> {
    let [sheet] = sheets(call)?;
    let table = refused::full_table(&sheet)?;
    let tree = larger(&table).expect("a full table");
    assert_eq!(tree.differs(&table), None, "the tree gives the table");
    let drawing = picture::larger::draw(&tree);
    let text = match call.has("--svg") {
        true => drawing.clone(),
        false => words(&tree, &table),
    };
    Ok(Answer::new(text, json(&tree, drawing)))
}

/// The tree in words: what it is, its shape and its gates.
fn words(tree: &Larger, table: &Table) -> String {
    let size = tree.largest();
    let head = match size {
        2 => "This table has a tree of two-input gates, and `make` writes one".to_string(),
        _ => format!(
            "A gate of {size} inputs is needed: no tree of smaller gates has this table. This tree has {} of {size} inputs, and no tree has fewer",
            count(tree.of_size(size), "gate")
        ),
    };
    let rows = count(table.inks().len(), "row");
    let checked = format!("{head}. It was evaluated on all {rows} and gives each ink. It is not a net sheet: a net has two-input gates.");
    let mut text = wrapped(&checked, WIDTH) + "\n\n";
    shape(tree, Source::Gate(tree.gates.len() - 1), "", "", &mut text);
    text.push('\n');
    for (k, gate) in tree.gates.iter().enumerate() {
        text += &format!(
            "gate {}: {} {}\n",
            k + 1,
            names(tree, gate).join(" "),
            digits(gate)
        );
    }
    text
}

/// Draws a subtree with lines, a gate or an input a line.
fn shape(tree: &Larger, source: Source, first: &str, rest: &str, text: &mut String) {
    *text += first;
    match source {
        Source::Input(input) => *text += &format!("{}\n", tree.names[input]),
        Source::Gate(gate) => {
            *text += &format!("gate {}\n", gate + 1);
            let sources = &tree.gates[gate].sources;
            for (k, &below) in sources.iter().enumerate() {
                let (corner, line) = match k + 1 == sources.len() {
                    true => ("`-- ", "    "),
                    false => ("|-- ", "|   "),
                };
                shape(
                    tree,
                    below,
                    &format!("{rest}{corner}"),
                    &format!("{rest}{line}"),
                    text,
                );
            }
        }
    }
}

/// The inputs of a gate: names, and numbers of gates.
fn names(tree: &Larger, gate: &LargerGate) -> Vec<String> {
    let name = |source: &Source| match *source {
        Source::Input(input) => tree.names[input].clone(),
        Source::Gate(gate) => (gate + 1).to_string(),
    };
    gate.sources.iter().map(name).collect()
}

fn digits(gate: &LargerGate) -> String {
    gate.digits.iter().map(u8::to_string).collect()
}

fn json(tree: &Larger, drawing: String) -> Json {
    let source = |source: &Source| match *source {
        Source::Input(input) => Json::text(&tree.names[input]),
        Source::Gate(gate) => Json::number(gate + 1),
    };
    let gate = |gate: &LargerGate| {
        Json::object([
            (
                "inputs",
                Json::List(gate.sources.iter().map(source).collect()),
            ),
            ("table", Json::numbers(&gate.digits)),
        ])
    };
    let size = tree.largest();
    Json::object([
        ("largest", Json::number(size)),
        ("of_that_size", Json::number(tree.of_size(size))),
        ("gates", Json::List(tree.gates.iter().map(gate).collect())),
        ("svg", Json::text(drawing)),
    ])
}
