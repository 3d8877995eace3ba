//! A tree for Graphviz. Names are quoted, since `node` and `graph` are valid names of inputs and also keywords of DOT.

use crate::tree::{digit, root};
use sitgurp::{Net, Wire};

const HEAD: &str = "\
digraph net {
    rankdir=LR;
    ordering=in;
    node [shape=box, fontname=\"monospace\"];
    edge [fontname=\"monospace\", fontsize=10];
";

/// Writes the net in DOT. A gate's id is its number: no input's name begins with a digit or is `ink`. An input that no gate refers to is dashed.
pub fn write(net: &Net) -> String {
    let mut text = HEAD.to_string();
    let unused = net.unused();
    for (k, name) in net.names().iter().enumerate() {
        let style = if unused.contains(&k) {
            "\"rounded,dashed\""
        } else {
            "rounded"
        };
        text += &format!("    \"{name}\" [style={style}];\n");
    }
    for gate in 0..net.gates().len() {
        text += &gate_lines(net, gate);
    }
    text += "    \"ink\" [shape=plaintext];\n";
    text += &format!("    \"{}\" -> \"ink\";\n}}\n", id(net, root(net)));
    text
}

/// Writes a gate with its table, one line for each of left's levels, and its two wires.
fn gate_lines(net: &Net, gate: usize) -> String {
    let own = id(net, Wire::Gate(gate));
    let rows: Vec<String> = (0..net.levels())
        .map(|row| {
            (0..net.levels())
                .map(|column| digit(net, gate, row, column).to_string())
                .collect()
        })
        .collect();
    let left = id(net, net.gates()[gate].left);
    let right = id(net, net.gates()[gate].right);
    format!(
        "    \"{own}\" [label=\"gate {own}\\n{}\"];\n    \"{left}\" -> \"{own}\" [label=\"left\"];\n    \"{right}\" -> \"{own}\" [label=\"right\"];\n",
        rows.join("\\n")
    )
}

fn id(net: &Net, wire: Wire) -> String {
    match wire {
        Wire::Input(input) => net.names()[input].clone(),
        Wire::Gate(gate) => (gate + 1).to_string(),
    }
}
