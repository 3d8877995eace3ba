//! BLIF, the Berkeley Logic Interchange Format, for nets of two levels.

use crate::lines::fault;
use crate::model::{Model, Node, Rule};
use crate::tree::{Cone, Tree};
use crate::{wire_name, Fault, Read, OUTPUT};
use sitgurp::{Net, Table, Wire};

/// Returns a net of two levels as BLIF, as a model of this name; None where it has more levels.
pub fn blif(net: &Net, name: &str) -> Option<String> {
    if net.levels() != 2 {
        return None;
    }
    let mut text = header(net, name);
    for (k, gate) in net.gates().iter().enumerate() {
        let wires = [gate.left, gate.right, Wire::Gate(k)].map(|wire| wire_name(net, wire));
        text += &format!(".names {}\n", wires.join(" "));
        let ones = gate
            .digits
            .iter()
            .enumerate()
            .filter(|(_, &digit)| digit == 1);
        let rows: String = ones.map(|(row, _)| format!("{row:02b} 1\n")).collect();
        // a table without rows is 0 too, but ABC refuses it if it has inputs
        text += if rows.is_empty() { "-- 0\n" } else { &rows };
    }
    Some(text + ".end\n")
}

/// Returns the first lines of a model.
pub fn header(net: &Net, name: &str) -> String {
    format!(
        ".model {name}\n.inputs {}\n.outputs {OUTPUT}\n",
        net.names().join(" ")
    )
}

/// Reads the net of a BLIF or BLIF-MV file: a tree of tables, in which each signal is read once.
///
/// A table of one input becomes part of the gate beside it, and a constant part of the gate that reads it. The library splits a table of more than two inputs,
/// if it has a tree. The gates have the order of their tables, as far as a sheet allows it. `output` names one of several outputs; the net then has just
/// the inputs that this output depends on.
pub fn net_of_blif(file: &[u8], output: Option<&str>) -> Result<Read<Net>, Fault> {
    let model = Model::read(file)?;
    let cone = Cone::of(&model, output)?;
    let tree = Tree::of(&cone)?;
    let net = tree.net();
    // the library checks what was read
    let table = cone.table();
    let verdict = net.check(&table);
    assert_eq!(
        verdict,
        Ok(sitgurp::Verdict::Agree),
        "the net has the model's table"
    );
    Ok(cone.read(net))
}

/// Reads the table of a BLIF or BLIF-MV file, whatever its wiring.
pub fn table_of_blif(file: &[u8], output: Option<&str>) -> Result<Read<Table>, Fault> {
    let model = Model::read(file)?;
    let cone = Cone::of(&model, output)?;
    let table = cone.table();
    Ok(cone.read(table))
}

/// Returns whether the rows of a node are those of BLIF: the levels of all inputs in one word, and all signals have two values.
pub fn is_cover(model: &Model, node: &Node) -> bool {
    let mut signals = node.inputs.iter().chain([&node.output]);
    let are_binary = signals.all(|signal| model.count(signal.text) == 2);
    let spaced = node
        .rows
        .iter()
        .any(|row| row.len() == node.inputs.len() + 1 && row.len() > 2);
    are_binary && !spaced
}

/// Returns the rule of a cover: its value where a row holds, and elsewhere the other one. Without rows it is 0.
pub fn rule<'a>(model: &Model<'a>, node: &Node<'a>) -> Result<Rule<'a>, Fault> {
    let count = node.inputs.len();
    let mut rows = Vec::new();
    let mut value = None;
    for row in &node.rows {
        let (plane, output) = match row[..] {
            [output] if count == 0 => (&b""[..], output),
            [plane, output] if plane.text.len() == count => (plane.text, output),
            _ => {
                let due = match count {
                    0 => "one digit".to_string(),
                    1 => "one digit for the input, a space, and one for the output".to_string(),
                    count => {
                        format!("{count} digits for the inputs, a space, and one for the output")
                    }
                };
                return Err(fault(
                    model.file,
                    row[0].place,
                    format!("this row should be {due}"),
                ));
            }
        };
        if let Some(at) = plane.iter().position(|digit| !b"01-".contains(digit)) {
            return Err(fault(
                model.file,
                row[0].place + at,
                "an input of a row is 0, 1 or -",
            ));
        }
        let own = match output.text {
            b"0" => 0,
            b"1" => 1,
            _ => {
                return Err(fault(
                    model.file,
                    output.place,
                    "the output of a row is 0 or 1",
                ))
            }
        };
        if value.replace(own).is_some_and(|before| before != own) {
            return Err(fault(
                model.file,
                output.place,
                "all rows of a table have the same output, 0 or 1, and this one has the other",
            ));
        }
        rows.push(plane);
    }
    let value = value.unwrap_or(1);
    Ok(Rule::Cover { rows, value })
}
