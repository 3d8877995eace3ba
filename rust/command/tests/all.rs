//! All tests in one program: it is built in less time than one for each file.

mod common;

mod batch;
mod commands;
mod csv;
mod designer;
mod family;
mod formats;
mod generated;
mod glyph;
mod install;
mod invert;
mod keep;
mod landings;
mod manners;
mod mistakes;
mod open_cells;
mod package;
mod page;
mod pictures;
mod promises;
mod readme;
mod run_script;
mod stream;
mod theory;
mod tidy;
mod truth;
mod why;
mod work;
