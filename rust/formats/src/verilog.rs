//! A net as a module in Verilog, with a test bench.

use crate::names::verilog_name;
use crate::{wire_name, OUTPUT};
use sitgurp::{Gate, Net, Row, Wire};

/// Returns a net as a Verilog module of this name, and a test bench `NAME_test` that compares every row of the table that the library gives the net. A level
/// is a number in as few bits as hold all of them; bits that are no level give x. Tools for synthesis define `SYNTHESIS` and pass over the test bench.
pub fn verilog(net: &Net, name: &str) -> String {
    let (levels, names) = (net.levels(), net.names());
    format!(
        "// A tree of {levels} levels and {} inputs: {}.\n{}\n`ifndef SYNTHESIS\n{}`endif\n",
        names.len(),
        names.join(", "),
        module(net, name),
        bench(net, name)
    )
}

/// Counts the bits of a level.
fn width(net: &Net) -> usize {
    let highest = net.levels() - 1;
    highest.ilog2() as usize + 1
}

/// Returns the range of a level's bits in a declaration, with a space behind it.
fn range(net: &Net) -> String {
    match width(net) {
        1 => String::new(),
        width => format!("[{}:0] ", width - 1),
    }
}

/// Returns a level as a constant.
fn constant(net: &Net, level: u8) -> String {
    format!("{}'d{level}", width(net))
}

fn value_name(net: &Net, wire: Wire) -> String {
    match wire {
        Wire::Input(input) => verilog_name(&net.names()[input]),
        wire => wire_name(net, wire),
    }
}

fn module(net: &Net, name: &str) -> String {
    let range = range(net);
    let mut text = format!("module {name} (\n");
    for input in net.names() {
        text += &format!("    input wire {range}{},\n", verilog_name(input));
    }
    text += &format!("    output reg {range}{OUTPUT}\n);\n");
    for gate in 1..net.gates().len() {
        text += &format!("    reg {range}gate_{gate};\n");
    }
    for (k, gate) in net.gates().iter().enumerate() {
        text += &process(net, k, gate);
    }
    text + "endmodule\n"
}

/// Returns what a gate does.
fn process(net: &Net, gate: usize, content: &Gate) -> String {
    let name = value_name(net, Wire::Gate(gate));
    let [left, right] = [content.left, content.right].map(|wire| value_name(net, wire));
    let mut text = format!(
        "\n    // gate {}\n    always @* begin\n        case ({{{left}, {right}}})\n",
        gate + 1
    );
    let levels = net.levels();
    for (k, &digit) in content.digits.iter().enumerate() {
        let [left, right] = [k / levels, k % levels].map(|level| constant(net, level as u8));
        text += &format!(
            "            {{{left}, {right}}}: {name} = {};\n",
            constant(net, digit)
        );
    }
    let width = width(net);
    text + &format!(
        "            default: {name} = {{{width}{{1'bx}}}};\n        endcase\n    end\n"
    )
}

/// Returns the test bench. Its names have a `_`, so no input has one of them.
fn bench(net: &Net, name: &str) -> String {
    let (range, names) = (range(net), net.names());
    let inputs: Vec<String> = names.iter().map(|name| verilog_name(name)).collect();
    let declared = inputs
        .iter()
        .map(|input| format!("    reg {range}{input};\n"));
    let connected = inputs.iter().map(|input| format!(".{input}({input}), "));
    let shown: Vec<String> = names.iter().map(|name| format!("{name}=%0d")).collect();
    let table = net.table();
    let rows = table.rows().map(|Row { levels, ink }| {
        let levels: Vec<String> = levels.iter().map(|&level| constant(net, level)).collect();
        format!(
            "        check_row({{{}}}, {});\n",
            levels.join(", "),
            constant(net, ink)
        )
    });
    BENCH
        .replace("@NAME@", name)
        .replace("@INPUTS@", &declared.collect::<String>())
        .replace("@RANGE@", &range)
        .replace("@PORTS@", &connected.collect::<String>())
        .replace("@TOP@", &(width(net) * inputs.len() - 1).to_string())
        .replace("@ALL@", &inputs.join(", "))
        .replace("@SHOWN@", &shown.join(" "))
        .replace("@ROWS@", &rows.collect::<String>())
        .replace("@COUNT@", &table.inks().len().to_string())
}

const BENCH: &str = r#"module @NAME@_test;
@INPUTS@    wire @RANGE@ink;
    integer wrong_rows;

    @NAME@ the_tree (@PORTS@.ink(ink));

    task check_row;
        input [@TOP@:0] the_levels;
        input @RANGE@due_ink;
        begin
            {@ALL@} = the_levels;
            #1;
            if (ink !== due_ink) begin
                wrong_rows = wrong_rows + 1;
                $display("wrong: @SHOWN@: ink is %0d, due is %0d", @ALL@, ink, due_ink);
            end
        end
    endtask

    initial begin
        wrong_rows = 0;
@ROWS@        if (wrong_rows == 0)
            $display("ok: all @COUNT@ rows");
        else
            $display("failed: %0d of @COUNT@ rows", wrong_rows);
        $finish;
    end
endmodule
"#;
