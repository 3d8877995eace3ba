//! The commands: a file for each, and a line in the list.

mod arrivals;
mod check;
mod count;
mod draw;
mod eval;
mod export;
mod family;
mod fill;
mod gates;
mod glyph;
mod import;
mod invert;
mod keep;
mod larger;
mod make;
mod matrix;
mod page;
mod same;
mod settle;
mod shallower;
mod stream;
mod table;
mod tidy;
pub mod why;
mod widen;

use crate::call::{Call, Opt};
use crate::outcome::{Answer, Failure};

/// A command, as it is listed, called and run.
pub struct Command {
    pub name: &'static str,
    /// What stands behind the name.
    pub usage: &'static str,
    /// What it does, in a line.
    pub summary: &'static str,
    /// What `--help` says besides.
    pub help: &'static str,
    /// How many sheets it takes.
    pub sheets: usize,
    /// Whether it takes other operands behind its sheets.
    pub more: bool,
    pub options: &'static [Opt],
    /// The ending of the files that it writes for `-d FOLDER`; none where it takes no `-d`.
    pub ending: Option<&'static str>,
    pub run: fn(&Call) -> Result<Answer, Failure>,
}

impl Command {
    /// Returns whether this is `stream`, which writes as it goes and has no one answer.
    pub fn is_stream(&self) -> bool {
        self.name == stream::COMMAND.name
    }
}

/// All of them, in the order of the list that `--help` prints.
pub static ALL: &[&Command] = &[
    &make::COMMAND,
    &why::COMMAND,
    &fill::COMMAND,
    &widen::COMMAND,
    &larger::COMMAND,
    &check::COMMAND,
    &tidy::COMMAND,
    &invert::COMMAND,
    &table::COMMAND,
    &eval::COMMAND,
    &settle::COMMAND,
    &same::COMMAND,
    &keep::COMMAND,
    &gates::COMMAND,
    &count::COMMAND,
    &family::COMMAND,
    &shallower::COMMAND,
    &arrivals::COMMAND,
    &draw::COMMAND,
    &matrix::COMMAND,
    &page::COMMAND,
    &glyph::COMMAND,
    &export::COMMAND,
    &import::COMMAND,
    &stream::COMMAND,
];

/// `--shallow`, of making and settling.
const SHALLOW: Opt = Opt::flag("--shallow").says("write a tree of fewest layers instead");
