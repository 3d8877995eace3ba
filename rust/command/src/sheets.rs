//! Nets and tables as JSON.

use crate::json::Json;
use sitgurp::{Gate, Net, Row, Table, Wire};

pub fn net(net: &Net) -> Json {
    Json::object([
        ("levels", Json::number(net.levels())),
        ("inputs", Json::texts(net.names())),
        ("layers", Json::number(net.layers())),
        ("gates", gates(net)),
        ("sheet", Json::text(net.as_str())),
    ])
}

pub fn gates(net: &Net) -> Json {
    let gates = net.gates().iter();
    Json::List(gates.map(|gate| self::gate(net, gate)).collect())
}

/// An input is a text, a gate its number from 1.
fn gate(net: &Net, gate: &Gate) -> Json {
    let wire = |wire| match wire {
        Wire::Input(input) => Json::text(&net.names()[input]),
        Wire::Gate(gate) => Json::number(gate + 1),
    };
    Json::object([
        ("left", wire(gate.left)),
        ("right", wire(gate.right)),
        ("table", Json::numbers(&gate.digits)),
    ])
}

/// The ink of an open cell is null.
pub fn table(table: &Table) -> Json {
    let ink = |&ink: &u8| match usize::from(ink) == table.levels() {
        true => Json::Null,
        false => Json::Number(ink.into()),
    };
    let inks = table.inks().iter().map(ink).collect();
    Json::object([
        ("levels", Json::number(table.levels())),
        ("inputs", Json::texts(table.names())),
        ("inks", Json::List(inks)),
        ("sheet", Json::text(table.as_str())),
    ])
}

/// The inputs of a row by their names.
pub fn at(names: &[String], row: &Row) -> Json {
    let pairs = names.iter().zip(&row.levels);
    Json::Object(
        pairs
            .map(|(name, &level)| (name.clone(), Json::Number(level.into())))
            .collect(),
    )
}
