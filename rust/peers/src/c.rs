//! C and C++ compilers take the functions, and a program compares every row.

use crate::tools::{folder, nets, put, run, spoiled, Tally};
use reference::generate::Generator;
use sitgurp::{Net, Row};

/// Returns a program that calls the functions of nets, and prints how many rows differ from these tables, and how many there are.
fn program(nets: &[(Net, Net)]) -> String {
    let mut text = String::from("#include <stdio.h>\n");
    let mut calls = String::new();
    for (k, (own, due)) in nets.iter().enumerate() {
        text += &formats::c(own, &format!("tree_{k}"));
        let (inputs, table) = (due.names().len(), due.table());
        text += &format!(
            "static const unsigned char rows_{k}[][{}] = {{\n",
            inputs + 1
        );
        for Row { levels, ink } in table.rows() {
            let numbers: Vec<String> = levels.iter().chain([&ink]).map(u8::to_string).collect();
            text += &format!("{{{}}},\n", numbers.join(","));
        }
        let arguments: Vec<String> = (0..inputs)
            .map(|input| format!("rows_{k}[row][{input}]"))
            .collect();
        text += "};\n";
        calls += &format!(
            "    for (row = 0; row < {}; row++) {{\n        wrong += tree_{k}({}) != rows_{k}[row][{inputs}];\n    }}\n    all += row;\n",
            table.inks().len(),
            arguments.join(", ")
        );
    }
    text + &format!("int main(void)\n{{\n    int row, wrong = 0, all = 0;\n{calls}    printf(\"%d %d\\n\", wrong, all);\n    return 0;\n}}\n")
}

/// Counts the rows that differ, and all rows, by a compiler that takes the program without a warning.
fn compared(compiler: &str, words: &[&str]) -> Option<(usize, usize)> {
    let mut all = vec!["-Wall", "-Wextra", "-Werror", "-pedantic", "-o", "rows"];
    all.extend(words);
    let (good, said) = run(compiler, &all);
    if !good {
        println!(
            "{compiler} {}: {}",
            words.join(" "),
            said.lines().take(5).collect::<Vec<_>>().join("\n")
        );
        return None;
    }
    let (_, said) = run(&folder().join("rows").to_string_lossy(), &[]);
    let numbers: Vec<usize> = said
        .split_whitespace()
        .map(|number| number.parse().expect("a number"))
        .collect();
    Some((numbers[0], numbers[1]))
}

pub fn functions() -> Tally {
    let mut tally = Tally::default();
    let mut generator = Generator::new(5);
    let good = nets(&mut generator, &[2, 3, 4, 5, 6, 7, 8, 9], 5);
    let own: Vec<(Net, Net)> = good.iter().map(|net| (net.clone(), net.clone())).collect();
    let other: Vec<(Net, Net)> = good
        .iter()
        .filter_map(|net| Some((spoiled(net, &mut generator)?, net.clone())))
        .collect();
    put("rows.c", &program(&own));
    let rows: usize = good.iter().map(|net| net.table().inks().len()).sum();
    for (compiler, words) in [
        ("gcc", &["-std=c99", "rows.c"][..]),
        ("gcc", &["-O2", "rows.c"]),
        (
            "gcc",
            &[
                "-fsanitize=undefined,address",
                "-fno-sanitize-recover=all",
                "rows.c",
            ],
        ),
        ("clang", &["-std=c99", "rows.c"]),
        ("clang", &["-O2", "rows.c"]),
        ("g++", &["-x", "c++", "rows.c"]),
    ] {
        let (wrong, all) = compared(compiler, words).unwrap_or((rows, rows));
        let words = words.join(" ");
        tally.line(
            &format!(
                "{compiler} {words}: rows of {} functions that agree",
                own.len()
            ),
            all - wrong,
            rows,
        );
    }
    put("rows.c", &program(&other));
    let (wrong, _) = compared("gcc", &["-std=c99", "rows.c"]).unwrap_or((0, 0));
    println!(
        "functions with a wrong digit: {wrong} rows of {} functions differ",
        other.len()
    );
    tally.wrong += usize::from(wrong < other.len());
    tally
}
