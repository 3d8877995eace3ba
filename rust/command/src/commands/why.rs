//! `why`: why a table has no tree, and what to change.

use super::Command;
use crate::call::{Call, Opt};
use crate::changes;
use crate::csv;
use crate::fault::{Apart, Fault, Split};
use crate::input::{beside, sheets};
use crate::json::Json;
use crate::outcome::{Answer, Failure};
use crate::refused;
use crate::words::{assignment, count, file_name, levels, list, wrapped};
use search::{changed, larger, nearest, Nearest};
use sitgurp::{Table, MOST_CELLS};

pub static COMMAND: Command = Command {
    name: "why",
    usage: "[TABLE] [--all | --apply K] [--names FILE]",
    summary: "why a table has no tree, and what to change",
    help: "\
Tells which inputs want too much together, how many levels each way of joining them would need, rows that no gate can keep apart,
how many levels would do, how large a gate would do, and the fewest changed rows that were found with which there is a tree.
",
    sheets: 1,
    more: false,
    options: &[
        Opt::flag("--all").says("list every way and every pair of rows; long lists are cut otherwise"),
        Opt::value("--apply", "K").says("write the table with change K of the list, from 1; it has a tree"),
        Opt::value("--names", "FILE").says("list the inputs as they are written in the spreadsheet, from the file of `tidy --names`"),
    ],
    ending: None,
    run,
};

/// The width of what is told.
const WIDTH: usize = 96;
/// How many lines of a list are told without `--all`.
const FEW: usize = 12;

fn run(call: &Call) -> Result<Answer, Failure> {
    let number = call.number("--apply", u64::MAX)?;
    if number.is_some() && call.has("--all") {
        return Err(call.wrong("--all and --apply do not go together".to_string()));
    }
    let [sheet] = sheets(call)?;
    let table = refused::full_table(&sheet)?;
    let Some(fault) = Fault::of(&table) else {
        return match number {
            Some(_) => {
                Err(call.wrong("the table has a tree, and nothing is to be changed".to_string()))
            }
            None => Ok(nothing_wrong(&table)),
        };
    };
    let nearest = nearest(&table);
    if let Some(number) = number {
        return applied(call, &table, nearest.as_ref(), number);
    }
    let most = if call.has("--all") { usize::MAX } else { FEW };
    let mut text = String::new();
    let names = call
        .value("--names")
        .map(|file| written(call, &table, &file));
    let last = names.transpose()?;
    for paragraph in paragraphs(&fault, nearest.as_ref(), most)
        .into_iter()
        .chain(last)
    {
        text += &paragraph.text();
        text.push('\n');
    }
    text.pop();
    Ok(Answer::new(text, json(&fault, nearest.as_ref())))
}

/// The inputs as they are written in a spreadsheet, by a file of names.
fn written(call: &Call, table: &Table, file: &str) -> Result<Paragraph, Failure> {
    let columns = csv::pairs(&beside(call, file)?.bytes);
    let line = |name: &String| {
        let column = columns.iter().find(|column| column.name == *name)?;
        Some(format!("{name}: {}", file_name(column.written.as_ref())))
    };
    Ok(Paragraph {
        words: "The inputs in the spreadsheet:".to_string(),
        lines: table.names().iter().filter_map(line).collect(),
    })
}

/// The table with a change of the list.
fn applied(
    call: &Call,
    table: &Table,
    nearest: Option<&Nearest>,
    number: u64,
) -> Result<Answer, Failure> {
    let ways = nearest.map_or(&[][..], |nearest| &nearest.ways);
    let way = usize::try_from(number)
        .ok()
        .and_then(|number| ways.get(number.checked_sub(1)?));
    let Some(way) = way else {
        let numbers = match ways.len() {
            1 => "there is change 1 only".to_string(),
            several => format!("there are changes 1 to {several}"),
        };
        return Err(call.wrong(format!("--apply {number}: {numbers}")));
    };
    let table = changed(table, way);
    let json = Json::object([("table", crate::sheets::table(&table))]);
    Ok(Answer::new(table.as_str(), json))
}

/// Says how many trees a table has that has one. They are counted on the inputs that matter, and the others are named.
fn nothing_wrong(table: &Table) -> Answer {
    let size = table.family().expect("a full table").size();
    let verb = if size == 1 { "is" } else { "are" };
    let (used, unused) = refused::leaves(table).expect("a table with a tree");
    let left_out = match &unused[..] {
        [] => String::new(),
        [one] => format!("; {one} never matters, and is left out"),
        several => format!("; {} never matter, and are left out", list(several)),
    };
    let trees = refused::trees(table, size);
    let words = format!("nothing is wrong: there {verb} {trees} with this table{left_out}\n");
    let json = Json::object([
        ("trees", Json::Number(size)),
        ("inputs", Json::texts(&used)),
    ]);
    Answer::new(words, json)
}

/// A sentence or two, and lines that belong to it.
pub struct Paragraph {
    pub words: String,
    pub lines: Vec<String>,
}

impl Paragraph {
    fn text(&self) -> String {
        let lines: String = self
            .lines
            .iter()
            .map(|line| format!("    {line}\n"))
            .collect();
        format!("{}\n{lines}", wrapped(&self.words, WIDTH))
    }
}

/// What there is to say of a table without a tree, with lists of at most so many lines.
pub fn paragraphs(fault: &Fault, nearest: Option<&Nearest>, most: usize) -> Vec<Paragraph> {
    let mut paragraphs = vec![
        group(fault, most),
        pairs(fault, most),
        more_levels(fault),
        larger_gates(fault),
    ];
    paragraphs.extend(nearest.map(|nearest| Paragraph {
        words: changes::words(nearest),
        lines: cut(changes::lines(fault.table, nearest), most, "line"),
    }));
    paragraphs
}

/// The group at fault, and every way to part it.
fn group(fault: &Fault, most: usize) -> Paragraph {
    let names = fault.names(fault.group());
    let m = fault.table.levels();
    let words = format!(
        "No tree of two-input gates computes this table. At fault are {} together (refusal {}, group {}): they could leave on one wire, but the gate that \
         joins them takes them in two parts, each on a wire of its own, and a wire carries {m} levels. Every way to part them needs more of one part:",
        list(&names),
        fault.refusal.number,
        fault.group()
    );
    let lines = fault.splits.iter().map(|split| split_line(fault, split));
    Paragraph {
        words,
        lines: cut(lines.collect(), most, "way"),
    }
}

fn split_line(fault: &Fault, split: &Split) -> String {
    let [left, right] = split.parts.map(|part| fault.names(part).join(" "));
    let [a, b] = split.classes;
    format!("{left} | {right}: {a} and {b} levels")
}

/// Rows of the part at fault that must be told apart.
fn pairs(fault: &Fault, most: usize) -> Paragraph {
    let part = fault.part();
    let names = fault.names(part);
    let all = (1 << fault.table.names().len()) - 1;
    let others = fault.names(all - part);
    let m = fault.table.levels();
    let words = format!(
        "The least is `{}`. There {} would be one wire, which cannot tell these {} apart (levels of {}):",
        split_line(fault, &fault.splits[0]).split(':').next().unwrap_or(""),
        list(&names),
        m + 1,
        names.join(" ")
    );
    let line = |apart: &Apart| {
        format!(
            "{} and {}: at {} the ink is {} and {}",
            levels(&apart.first),
            levels(&apart.second),
            assignment(&others, &apart.others),
            apart.inks[0],
            apart.inks[1]
        )
    };
    let lines = fault.apart().iter().map(line).collect();
    Paragraph {
        words,
        lines: cut(lines, most, "pair"),
    }
}

/// How many levels would do.
fn more_levels(fault: &Fault) -> Paragraph {
    let (fewest, inputs) = (fault.fewest, fault.table.names().len());
    let m = fault.table.levels();
    let fits = fewest <= 9 && fewest.pow(inputs as u32) <= MOST_CELLS;
    let how = match fits {
        true => format!(
            " Draw the same rule with {fewest} levels, where an input above {} acts as {}, and it is made; `widen` writes that table.",
            m - 1,
            m - 1
        ),
        false => format!(" A sheet of {inputs} inputs cannot have so many."),
    };
    Paragraph {
        words: format!(
            "More levels: with {fewest} levels on the wires between gates there would be a tree.{how}"
        ),
        lines: Vec::new(),
    }
}

/// How large a gate would do.
fn larger_gates(fault: &Fault) -> Paragraph {
    let tree = larger(fault.table).expect("a full table");
    let size = tree.largest();
    Paragraph {
        words: format!(
            "Larger gates: there is a tree with {} of {size} inputs; `larger` shows it.",
            count(tree.of_size(size), "gate")
        ),
        lines: Vec::new(),
    }
}

fn cut(mut lines: Vec<String>, most: usize, one: &str) -> Vec<String> {
    if lines.len() > most {
        let left = lines.len() - most;
        lines.truncate(most);
        lines.push(format!(
            "and {} more (`--all` tells every one)",
            count(left, one)
        ));
    }
    lines
}

fn json(fault: &Fault, nearest: Option<&Nearest>) -> Json {
    let split = |split: &Split| {
        let parts = split.parts.map(|part| Json::texts(&fault.names(part)));
        Json::object([
            ("parts", Json::List(parts.into())),
            (
                "classes",
                Json::List(split.classes.map(Json::number).into()),
            ),
        ])
    };
    let apart = |apart: &Apart| {
        Json::object([
            ("first", Json::numbers(&apart.first)),
            ("second", Json::numbers(&apart.second)),
            ("others", Json::numbers(&apart.others)),
            ("inks", Json::numbers(&apart.inks)),
        ])
    };
    Json::object([
        ("trees", Json::Number(0)),
        ("group", Json::texts(&fault.names(fault.group()))),
        (
            "splits",
            Json::List(fault.splits.iter().map(split).collect()),
        ),
        ("part", Json::texts(&fault.names(fault.part()))),
        (
            "apart",
            Json::List(fault.apart().iter().map(apart).collect()),
        ),
        ("fewest_levels", Json::number(fault.fewest)),
        (
            "largest_gate",
            Json::number(larger(fault.table).expect("a full table").largest()),
        ),
        (
            "changes",
            nearest.map_or(Json::Null, |nearest| changes::json(&nearest.ways[0])),
        ),
        ("nearest", nearest.map_or(Json::Null, changes::json_of_all)),
    ])
}
