//! All tests in one program.

mod fill;
mod larger;
mod nearest;
