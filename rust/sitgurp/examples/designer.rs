//! The tree of a rule, from Rust: `cargo run -p sitgurp --example designer`, or with a table sheet's name the tree of that table.
//!
//! A refusal ends the program in words, since its Debug is its Display.

use sitgurp::{Table, Verdict, Wire};
use std::error::Error;

fn main() -> Result<(), Box<dyn Error>> {
    let table = match std::env::args().nth(1) {
        // a sheet is bytes: whether they make sense is the library's to judge
        Some(path) => Table::read(&std::fs::read(path)?)?,
        // the heavier of two strokes, one shade lighter where the backlight is strong
        None => Table::from_rule(4, &["weight", "light", "near"], |levels| {
            let shade = levels[0].max(levels[2]);
            shade.saturating_sub(u8::from(levels[1] >= 2))
        })?,
    };
    let net = table.settled()?;
    print!("{net}");
    assert_eq!(net.check(&table)?, Verdict::Agree);

    let name = |wire| match wire {
        Wire::Input(input) => net.names()[input].clone(),
        Wire::Gate(gate) => format!("gate {}", gate + 1),
    };
    for (k, gate) in net.gates().iter().enumerate() {
        let (left, right) = (name(gate.left), name(gate.right));
        println!("gate {} joins {left} and {right}", k + 1);
    }
    println!(
        "{} layers, {} trees in all",
        net.layers(),
        table.family()?.size()
    );
    Ok(())
}
