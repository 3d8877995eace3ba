//! All tests in one program, which builds faster than one program per file.

mod common;

mod arrivals;
mod bare_cells;
mod buffers;
mod cases;
mod checking;
mod family;
mod fewest_levels;
mod generator;
mod glyph;
mod job;
mod keep;
mod leaves;
mod lister;
mod open_cells;
mod packing;
mod programs;
mod refusals;
mod settled_equality;
mod settled_rules;
mod shallow;
mod shallower;
mod three_levels;
mod tidy;
mod trees;
