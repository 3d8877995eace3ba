//! "Two programs read standard input, at most its first 65,536 bytes, which are
//! then the sheet: one settles, one makes." A third, of the same kind, tidies.

use crate::calls::{make, settle, tidy};
use crate::limits::{MOST_CELLS, MOST_INPUTS, MOST_NET_SHEET_BYTES, PROGRAM_BYTES};
use crate::marks;
use crate::refusal::Refusal;

/// A call that turns a sheet into a sheet: settling or making.
type Call = fn(&[u8], &mut [u8], &mut [u8], &mut [u8]) -> Result<usize, Refusal>;

/// Returns the settling program's whole output.
pub fn settle_program(stdin: &[u8]) -> Vec<u8> {
    run(stdin, settle)
}

/// Returns the making program's whole output.
pub fn make_program(stdin: &[u8]) -> Vec<u8> {
    run(stdin, make)
}

/// Returns the tidying program's whole output: it has room for as many bytes as it reads.
pub fn tidy_program(stdin: &[u8]) -> Vec<u8> {
    let mut cells = vec![0; MOST_CELLS as usize];
    let mut out = vec![0; PROGRAM_BYTES];
    match tidy(read_of(stdin), &mut cells, &mut out) {
        Ok(length) => out[..length].to_vec(),
        Err(refusal) => refusal_text(refusal),
    }
}

/// Returns the part of its standard input that a program reads.
fn read_of(stdin: &[u8]) -> &[u8] {
    &stdin[..stdin.len().min(PROGRAM_BYTES)]
}

/// Runs a call with buffers that are long enough for every size.
fn run(stdin: &[u8], call: Call) -> Vec<u8> {
    let mut cells = vec![0; MOST_CELLS as usize];
    let mut marks = vec![0; marks::needed(MOST_INPUTS as usize)];
    let mut out = vec![0; MOST_NET_SHEET_BYTES];
    match call(read_of(stdin), &mut cells, &mut marks, &mut out) {
        Ok(length) => out[..length].to_vec(),
        Err(refusal) => refusal_text(refusal),
    }
}

/// "A refusal prints the line `number place`, then the two decimal values."
fn refusal_text(refusal: Refusal) -> Vec<u8> {
    format!("number place\n{} {}\n", refusal.number, refusal.place).into_bytes()
}
