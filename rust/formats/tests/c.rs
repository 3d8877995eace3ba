//! C functions: a compiler takes them with all warnings as errors, and a program compares every row.

use formats::c;
use reference::allowed_sizes;
use reference::generate::Generator;
use sitgurp::{Net, Row};
use std::path::Path;
use std::process::Command;

/// A program over the functions of some nets: it compares every row with the library's table, and counts what differs.
fn program(nets: &[Net]) -> String {
    let mut text = String::from("#include <stdio.h>\n");
    let mut calls = String::new();
    for (k, net) in nets.iter().enumerate() {
        let name = format!("tree_{k}");
        text += &c(net, &name);
        let inputs = net.names().len();
        text += &format!(
            "static const unsigned char rows_{k}[][{}] = {{\n",
            inputs + 1
        );
        let table = net.table();
        for Row { levels, ink } in table.rows() {
            let numbers: Vec<String> = levels.iter().chain([&ink]).map(u8::to_string).collect();
            text += &format!("    {{{}}},\n", numbers.join(", "));
        }
        text += "};\n";
        let arguments: Vec<String> = (0..inputs)
            .map(|input| format!("rows_{k}[row][{input}]"))
            .collect();
        let rows = table.inks().len();
        calls += &format!(
            "    for (row = 0; row < {rows}; row++) {{\n        wrong += {name}({}) != rows_{k}[row][{inputs}];\n    }}\n",
            arguments.join(", ")
        );
        // no level
        for input in 0..inputs {
            let arguments: Vec<String> = (0..inputs)
                .map(|k| {
                    if k == input {
                        net.levels().to_string()
                    } else {
                        "0".to_string()
                    }
                })
                .collect();
            calls += &format!("    wrong += {name}({}) != 255;\n", arguments.join(", "));
        }
    }
    text + &format!("int main(void)\n{{\n    int row, wrong = 0;\n{calls}    printf(\"%d\\n\", wrong);\n    return 0;\n}}\n")
}

/// What the program of a source says; None where there is no compiler.
fn said(name: &str, source: &str) -> Option<String> {
    let folder = Path::new(env!("CARGO_TARGET_TMPDIR"));
    let (file, program) = (folder.join(format!("{name}.c")), folder.join(name));
    std::fs::write(&file, source).expect("a file");
    let mut cc = Command::new("cc");
    cc.args(["-std=c99", "-Wall", "-Wextra", "-Werror", "-pedantic"])
        .arg(&file)
        .arg("-o")
        .arg(&program);
    let ended = cc.output().ok()?;
    assert!(
        ended.status.success(),
        "{}",
        String::from_utf8_lossy(&ended.stderr)
    );
    let ended = Command::new(program).output().expect("the program runs");
    Some(String::from_utf8_lossy(&ended.stdout).into_owned())
}

#[test]
fn every_row_of_every_size() {
    let mut generator = Generator::new(46);
    let mut nets: Vec<Net> = Vec::new();
    for (m, n) in allowed_sizes() {
        nets.push(Net::read(&generator.net_sheet(m as usize, n as usize)).expect("a net"));
    }
    // names that are words of C
    nets.push(
        "levels inputs\n2 4\nint near linux ink0\nleft right table\nint linux 0110\nnear 1 0001\n"
            .parse()
            .expect("a net"),
    );
    let source = program(&nets);
    if let Some(said) = said("every_row", &source) {
        assert_eq!(said, "0\n");
        // the program can fail: with another digit in a table it does
        let net = &nets[0];
        let table = format!(
            "{{{}}}",
            net.gates()[0].digits[..2]
                .iter()
                .map(u8::to_string)
                .collect::<Vec<_>>()
                .join(", ")
        );
        let other = format!(
            "{{{}, {}}}",
            1 - net.gates()[0].digits[0],
            1 - net.gates()[0].digits[1]
        );
        let wrong =
            self::said("wrong_row", &source.replacen(&table, &other, 1)).expect("a compiler");
        assert_ne!(wrong, "0\n");
    }
}
