//! Nets and tables in the formats of the field. Everything here is outside the proofs: what is read is a sheet that the library accepts, and the library
//! checks its table.
//!
//! | format  | of      | levels | written by  | read by                                                     |
//! |---------|---------|--------|-------------|-------------------------------------------------------------|
//! | BLIF    | a net   | 2      | [`blif`]    | [`net_of_blif`]; [`table_of_blif`] reads any wiring         |
//! | BLIF-MV | a net   | any    | [`blif_mv`] | the same two                                                |
//! | Verilog | a net   | any    | [`verilog`] |                                                             |
//! | C       | a net   | any    | [`c`]       |                                                             |
//! | PLA     | a table | 2      | [`pla`]     | [`table_of_pla`]                                            |
//! | CSV     | a table | any    | [`csv`]     | the command `tidy --csv`                                    |
//!
//! Inside, `lines` parts a file into words, `model` is what a BLIF file says, and `tree` makes a net of it.
//!
//! ```
//! let net: sitgurp::Net = "levels inputs\n2 3\na b c\nleft right table\na b 0110\n1 c 0001\n".parse()?;
//! let text = formats::blif(&net, "tree").expect("two levels");
//! assert!(text.contains(".names gate_1 c ink\n11 1\n"));
//! let read = formats::net_of_blif(text.as_bytes(), None).expect("a tree");
//! assert_eq!(read.sheet, net);
//! # Ok::<(), sitgurp::Refusal>(())
//! ```

mod blif;
mod blif_mv;
mod c;
mod csv;
mod lines;
mod model;
mod names;
mod pla;
mod tree;
mod verilog;

pub use blif::{blif, net_of_blif, table_of_blif};
pub use blif_mv::blif_mv;
pub use c::c;
pub use csv::csv;
pub use names::{is_identifier, valid_names};
pub use pla::{pla, table_of_pla};
pub use verilog::verilog;

use sitgurp::{Net, Wire};
use std::fmt;

/// Why a file is not read, and where.
#[derive(Clone, Debug, PartialEq, Eq)]
pub struct Fault {
    /// The line, from 1.
    pub line: usize,
    /// The byte, from 0.
    pub place: usize,
    pub words: String,
}

impl fmt::Display for Fault {
    fn fmt(&self, f: &mut fmt::Formatter<'_>) -> fmt::Result {
        write!(f, "line {}: {}", self.line, self.words)
    }
}

impl std::error::Error for Fault {}

/// What was read: a net or a table, and what its reader should know.
#[derive(Clone, Debug, PartialEq, Eq)]
pub struct Read<S> {
    pub sheet: S,
    /// The names in the file that no sheet can have, each with the name in the sheet.
    pub renamed: Vec<(String, String)>,
    /// Anything else: tables that the output does not use, or named values.
    pub notes: Vec<String>,
}

/// The formats that are read.
#[derive(Clone, Copy, Debug, PartialEq, Eq)]
pub enum Kind {
    /// BLIF or BLIF-MV.
    Blif,
    Pla,
}

/// Returns the format of a file, by the first of its commands that only one format has.
pub fn kind(file: &[u8]) -> Option<Kind> {
    lines::lines(file)
        .iter()
        .find_map(|line| match line[0].text {
            b".model" | b".inputs" | b".outputs" | b".names" | b".table" | b".mv" => {
                Some(Kind::Blif)
            }
            b".i" | b".o" | b".ilb" | b".ob" | b".type" => Some(Kind::Pla),
            _ => None,
        })
}

/// The name of the output in every format. No input has it.
const OUTPUT: &str = "ink";

/// Returns the name of a wire in the formats of nets: an input's own name, or `gate_1`, which no input can have. The last gate has the output's name.
fn wire_name(net: &Net, wire: Wire) -> String {
    match wire {
        Wire::Input(input) => net.names()[input].clone(),
        Wire::Gate(gate) if gate + 1 == net.gates().len() => OUTPUT.to_string(),
        Wire::Gate(gate) => format!("gate_{}", gate + 1),
    }
}
