//! The binary: standard input to standard output, exit status 0 at both kinds of
//! end.

use crate::common::*;
use reference::{make_program, settle_program};
use std::io::Write;
use std::process::{Command, Stdio};
use std::thread::sleep;
use std::time::Duration;

/// Runs `reference NAME` with the pieces on standard input, one write per piece.
fn run(name: &str, pieces: &[&[u8]]) -> Vec<u8> {
    let mut child = Command::new(env!("CARGO_BIN_EXE_reference"))
        .arg(name)
        .stdin(Stdio::piped())
        .stdout(Stdio::piped())
        .spawn()
        .expect("the binary starts");
    let mut stdin = child.stdin.take().expect("a pipe");
    for piece in pieces {
        // The program may have read all it needs and ended.
        let _ = stdin.write_all(piece);
        let _ = stdin.flush();
        sleep(Duration::from_millis(5));
    }
    drop(stdin);
    let output = child.wait_with_output().expect("the binary ends");
    assert!(output.status.success());
    output.stdout
}

const CASE_2: &str = "levels inputs/2 3/a b c/left right table/a b 0110/1 c 0110/";
const CASE_2_SETTLED: &str = "levels inputs/2 3/a b c/left right table/b c 0110/a 1 0110/";

#[test]
fn settle_prints_the_settled_sheet() {
    assert_eq!(run("settle", &[&lines(CASE_2)]), lines(CASE_2_SETTLED));
}

#[test]
fn make_prints_the_settled_sheet() {
    let table = table_written(&lines(CASE_2)).expect("accepted");
    assert_eq!(run("make", &[&table]), lines(CASE_2_SETTLED));
}

#[test]
fn a_short_read_is_not_the_end() {
    let sheet = lines(CASE_2);
    let pieces: Vec<&[u8]> = sheet.chunks(7).collect();
    assert_eq!(run("settle", &pieces), lines(CASE_2_SETTLED));
}

#[test]
fn a_refusal_is_two_lines() {
    let sheet = lines("levels inputs/2 2/a b/left right table/a a 0001/");
    assert_eq!(run("settle", &[&sheet]), b"number place\n8 41\n");
    assert_eq!(run("settle", &[]), b"number place\n1 0\n");
    let rule = |x: &[usize]| usize::from(x.iter().sum::<usize>() >= 2);
    let table = rule_sheet(2, "a b c", rule);
    assert_eq!(run("make", &[&table]), b"number place\n16 7\n");
}

/// A sheet longer than the first 65,536 bytes is refused like its
/// front part, and the rest need not be read.
#[test]
fn a_sheet_and_then_far_too_much() {
    let sheet = lines(CASE_2);
    let refusal = format!("number place\n1 {}\n", sheet.len()).into_bytes();
    let long = [sheet, vec![b'x'; 200_000]].concat();
    assert_eq!(run("settle", &[&long]), refusal);
    assert_eq!(settle_program(&long), refusal);
    assert_eq!(settle_program(&long[..65_536]), refusal);
    assert_eq!(make_program(&vec![b' '; 100_000]), b"number place\n1 0\n");
}

/// Returns the table sheet of a sum, with names of 8 bytes.
fn long_table_sheet(m: usize, n: usize) -> Vec<u8> {
    let names: Vec<String> = (0..n).map(|input| format!("longna{input:02}")).collect();
    rule_sheet(m, &names.join(" "), |x| x.iter().sum::<usize>() % m)
}

/// Every table sheet except those of 2 with 12 is within the bytes read.
#[test]
fn the_largest_table_sheets_go_through_the_program() {
    for (m, n, length) in [(2, 11, 49_274), (4, 6, 57_420), (8, 4, 41_018)] {
        let table = long_table_sheet(m, n);
        assert_eq!(table.len(), length);
        let net = made(&table).expect("a sum has a tree");
        assert_eq!(run("make", &[&table]), net);
    }
}

/// "A table sheet of 2 with 12 is longer than the making program's 65,536 bytes:
/// the library takes it, and the program refuses with 1 at 65,536 a sheet without
/// an earlier fault that hasn't ended by then."
#[test]
fn a_table_sheet_that_has_not_ended_by_then() {
    let table = long_table_sheet(2, 12);
    assert_eq!(table.len(), 106_627);
    assert!(made(&table).is_ok());
    let refusal = b"number place\n1 65536\n";
    assert_eq!(run("make", &[&table]), refusal);
    // Up to the last byte read it has no fault; what follows does not matter.
    for place in [65_536, 65_537, 106_626] {
        let mut damaged = table.clone();
        damaged[place] = b'x';
        assert_eq!(make_program(&damaged), refusal);
    }
    let mut damaged = table.clone();
    damaged[65_535] = b'x';
    let number = made(&damaged).expect_err("a fault").number;
    let early = format!("number place\n{number} 65535\n");
    assert_eq!(make_program(&damaged), early.into_bytes());
}
