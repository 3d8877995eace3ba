//! All tests in one program, which builds faster than one program per file.

mod common;

mod dot;
mod drawn;
mod family;
mod letter;
mod partition;
mod places;
