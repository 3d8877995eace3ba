//! All tests in one program: it is built in less time than one for each file.

mod common;

mod arrivals;
mod bare;
mod c_interface;
mod counting;
mod examples;
mod family;
mod glyph;
mod header;
mod job;
mod keep;
mod lister;
mod open_cells;
mod programs;
mod refusals;
mod renaming;
mod shallow;
mod sheets;
mod tidy;
mod types;
