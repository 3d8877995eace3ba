//! A net as a function in C.

use crate::names::c_name;
use crate::{wire_name, OUTPUT};
use sitgurp::{Gate, Net, Wire};

/// What the function returns where an argument is no level.
const NO_LEVEL: u8 = 255;

/// Returns a net as a C function of this name: a byte for each input, in the sheet's order, and a constant table for each gate. It needs no header, and C99
/// and C++ compilers take it. An argument that is no level gives 255.
pub fn c(net: &Net, name: &str) -> String {
    let (levels, names) = (net.levels(), net.names());
    let arguments: Vec<String> = names.iter().map(|name| c_name(name)).collect();
    let list: Vec<String> = arguments
        .iter()
        .map(|argument| format!("unsigned char {argument}"))
        .collect();
    let mut text = format!(
        "/* A tree of {levels} levels and {} inputs: {}. */\n\n",
        names.len(),
        names.join(", ")
    );
    for (k, gate) in net.gates().iter().enumerate() {
        text += &table(net, name, k, gate);
    }
    let signature = format!("unsigned char {name}({})", list.join(", "));
    text += &format!("\n/* Returns the ink: 0 to {}, or {NO_LEVEL} where an argument is not below {levels}. */\n", levels - 1);
    // with a declaration before it no compiler asks for one
    text += &format!("{signature};\n\n{signature}\n{{\n");
    let too_high: Vec<String> = arguments
        .iter()
        .map(|argument| format!("{argument} >= {levels}"))
        .collect();
    for (k, _) in net.gates().iter().enumerate() {
        text += &format!("    unsigned char {};\n", value_name(net, Wire::Gate(k)));
    }
    text += &format!(
        "\n    if ({}) {{\n        return {NO_LEVEL};\n    }}\n",
        too_high.join(" || ")
    );
    for (k, gate) in net.gates().iter().enumerate() {
        let [left, right] = [gate.left, gate.right].map(|wire| value_name(net, wire));
        text += &format!(
            "    {} = {name}_table_{}[{left}][{right}];\n",
            value_name(net, Wire::Gate(k)),
            k + 1
        );
    }
    text + &format!("    return {OUTPUT};\n}}\n")
}

/// Returns what a wire's value is called.
fn value_name(net: &Net, wire: Wire) -> String {
    match wire {
        Wire::Input(input) => c_name(&net.names()[input]),
        wire => wire_name(net, wire),
    }
}

/// Returns the constant table of a gate.
fn table(net: &Net, name: &str, gate: usize, content: &Gate) -> String {
    let levels = net.levels();
    let rows: Vec<String> = content
        .digits
        .chunks(levels)
        .map(|row| {
            let digits: Vec<String> = row.iter().map(u8::to_string).collect();
            format!("    {{{}}}", digits.join(", "))
        })
        .collect();
    let [left, right] = [content.left, content.right].map(|wire| wire_name(net, wire));
    format!(
        "/* {left} slowest, then {right} */\nstatic const unsigned char {name}_table_{}[{levels}][{levels}] = {{\n{}\n}};\n",
        gate + 1,
        rows.join(",\n")
    )
}
