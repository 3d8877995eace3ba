//! What independent programs say of what Sitgurp writes. `rust/peers/run` installs them and calls this; docs/PEERS.md has the figures.
//!
//! | module    | what is compared                                                                            |
//! |-----------|---------------------------------------------------------------------------------------------|
//! | `blif`    | ABC proves a net's BLIF, and its BLIF-MV, equivalent to the PLA of its table; reads ABC's    |
//! | `verilog` | Icarus Verilog runs the test bench                                                          |
//! | `c`       | C and C++ compilers take the function, and a program compares every row                     |
//! | `dsd`     | which functions have a tree, by ABC's disjoint-support decomposition                        |
//! | `tools`   | files and programs                                                                          |
//!
//! Each part also has a wrong file, which the other program must find. The status is 1 where anything differs.

mod blif;
mod c;
mod dsd;
mod tools;
mod verilog;

use std::process::ExitCode;
use tools::Tally;

fn main() -> ExitCode {
    let words: Vec<String> = std::env::args().skip(1).collect();
    type Part = (&'static str, fn() -> Tally);
    let parts: [Part; 6] = [
        ("cec", blif::equivalent),
        ("mv", blif::many_levels),
        ("import", blif::read_back),
        ("verilog", verilog::benches),
        ("c", c::functions),
        ("dsd", dsd::trees),
    ];
    if let Some(word) = words
        .iter()
        .find(|word| !parts.iter().any(|(name, _)| name == word))
    {
        eprintln!("there is no part `{word}`: the parts are cec, mv, import, verilog, c and dsd");
        return ExitCode::from(2);
    }
    tools::versions();
    let mut wrong = 0;
    for (name, part) in parts {
        if words.is_empty() || words.iter().any(|word| word == name) {
            println!("\n== {name}");
            wrong += part().wrong;
        }
    }
    std::fs::remove_dir_all(tools::folder()).ok();
    println!("\n{wrong} differences");
    ExitCode::from(u8::from(wrong > 0))
}
