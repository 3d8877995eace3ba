//! `matrix`: a table's partition matrix over some of its inputs, as a picture.

use super::Command;
use crate::call::{Call, Opt};
use crate::input::sheets;
use crate::json::Json;
use crate::outcome::{Answer, Failure};
use crate::refused;
use crate::words::list;
use sitgurp::Table;

pub static COMMAND: Command = Command {
    name: "matrix",
    usage: "[TABLE] --group NAME,NAME",
    summary: "a table over some of its inputs as a picture (SVG), columns gathered by class",
    help: "\
A column for each combination of the group's levels, a row for each of the other inputs', shaded by ink. Equal columns make a class and
are drawn together. A gate that joins the group has to tell its classes apart, so there may be as many as there are levels.
",
    sheets: 1,
    more: false,
    options: &[Opt::value("--group", "NAME,NAME").says("the inputs of the group; it is needed")],
    ending: Some("svg"),
    run,
};

fn run(call: &Call) -> Result<Answer, Failure> {
    let Some(names) = call.value("--group") else {
        return Err(
            call.wrong("--group is needed: names of inputs with commas between".to_string())
        );
    };
    let [sheet] = sheets(call)?;
    let table = refused::full_table(&sheet)?;
    let group = group(call, &table, &names)?;
    let classes = table.multiplicity(group).expect("a group of the table");
    let svg = picture::matrix::draw(&table, group);
    let json = Json::object([
        ("classes", Json::number(classes)),
        ("svg", Json::text(&svg)),
    ]);
    Ok(Answer::new(svg, json))
}

/// The number of a group by its inputs' names.
fn group(call: &Call, table: &Table, names: &str) -> Result<usize, Failure> {
    let mut group = 0;
    for name in names.split(',') {
        let input = table.names().iter().position(|known| known == name);
        let input = input.ok_or_else(|| {
            let inputs = list(table.names());
            call.wrong(format!(
                "`{name}` is no input of this table; its inputs are {inputs}"
            ))
        })?;
        if group >> input & 1 == 1 {
            return Err(call.wrong(format!("{name} is in the group twice")));
        }
        group |= 1 << input;
    }
    Ok(group)
}
