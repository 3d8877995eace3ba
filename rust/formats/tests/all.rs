//! All tests in one program.

mod blif;
mod blif_mv;
mod c;
mod pla;
mod round_trips;
mod verilog;
