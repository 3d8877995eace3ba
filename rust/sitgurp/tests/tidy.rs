//! Tidying, held against the second implementation: strict sheets and loose ones of every allowed size, every single edit of small loose sheets,
//! rows that come again, damaged sheets, buffers of every length around each need and full of other bytes.

use crate::common::{around, due, full, got, sizes, Back};
use reference::damage::{byte_damages, single_edits};
use reference::generate::{Generator, TableKind};
use sitgurp::{Named, MOST_CELLS, MOST_TABLE_SHEET};
use std::collections::BTreeMap;

const SEED: u64 = 20;

/// Both implementations on the same sheet and buffers: the answers and all lent bytes are equal. Answers the sheet that was written.
fn same_tidy(sheet: &[u8], cells: usize, output: usize) -> Result<Vec<u8>, Back> {
    let mut ours = [full(cells), full(output)];
    let mut theirs = ours.clone();
    let [cells, output] = &mut ours;
    let answer = got(sitgurp::tidy(sheet, cells, output));
    let [cells, output] = &mut theirs;
    let expected = due(reference::tidy(sheet, cells, output));
    let text = String::from_utf8_lossy(sheet);
    assert_eq!(answer, expected, "sheet {text:?}");
    assert!(ours == theirs, "buffers differ, sheet {text:?}");
    answer.map(|length| ours[1][..length].to_vec())
}

/// The same with buffers that suffice for a small sheet.
fn same_small(sheet: &[u8]) -> Result<Vec<u8>, Back> {
    same_tidy(sheet, 100, 1_000)
}

/// The refusal's number, which is the sheet's, and 0 where the sheet is accepted.
fn number(answer: Result<Vec<u8>, Back>) -> usize {
    match answer {
        Ok(_) => 0,
        Err((number, _, named)) => {
            assert_eq!(named, Named::Table);
            number
        }
    }
}

#[test]
fn strict_sheets_come_back_unchanged() {
    println!("seed {SEED}");
    let mut generator = Generator::new(SEED);
    for (m, n) in sizes() {
        for kind in TableKind::ALL {
            let strict = generator.table_sheet(m, n, kind);
            let tidied = same_tidy(&strict, MOST_CELLS, MOST_TABLE_SHEET);
            assert!(tidied.as_ref() == Ok(&strict));
        }
    }
}

#[test]
fn loose_sheets_tidy_to_the_strict_one() {
    let mut generator = Generator::new(SEED + 1);
    for (m, n) in sizes() {
        let strict = generator.table_sheet(m, n, TableKind::Random);
        for loose in [
            generator.rows_shuffled(&strict),
            generator.spaced(&strict),
            generator.loosened(&strict),
            generator.loosened(&strict),
            generator.aligned(&strict),
            generator.aligned(&strict),
            generator.aligned(&strict),
        ] {
            let tidied = same_tidy(&loose, MOST_CELLS, MOST_TABLE_SHEET);
            assert!(tidied.as_ref() == Ok(&strict));
        }
    }
}

#[test]
fn every_buffer_around_its_need() {
    let mut generator = Generator::new(SEED + 2);
    for (m, n) in [(2, 2), (2, 3), (3, 3), (2, 6), (9, 3), (2, 12)] {
        let strict = generator.table_sheet(m, n, TableKind::OfNet);
        let loose = generator.loosened(&strict);
        let lengths = match n {
            12 => |need| vec![need - 1, need],
            _ => around,
        };
        for cells in lengths(m.pow(n as u32)) {
            for output in lengths(strict.len()) {
                same_tidy(&loose, cells, output).ok();
            }
        }
    }
}

// ---- refusals

#[test]
fn every_single_edit() {
    let mut numbers: BTreeMap<usize, usize> = BTreeMap::new();
    for sheet in [
        &b"levels inputs\n2 2\na b ink\n1 0 1\n0 1 0\n1 1 0\n0 0 1\n"[..],
        b"levels  inputs \n2  2\na b  ink\n0 1  0\n0  0 1  \n1 1 0\n1 0 1\n",
    ] {
        for edited in single_edits(sheet) {
            *numbers.entry(number(same_small(&edited))).or_default() += 1;
        }
    }
    println!("{numbers:?}");
    let seen: Vec<usize> = numbers.into_keys().collect();
    assert_eq!(seen, [0, 1, 2, 3, 4, 5, 6, 20]);
}

#[test]
fn every_byte_damaged() {
    let mut generator = Generator::new(SEED + 3);
    for (m, n) in [(2, 2), (3, 2), (2, 3), (9, 2)] {
        let strict = generator.table_sheet(m, n, TableKind::Random);
        for damaged in byte_damages(&generator.loosened(&strict)) {
            same_small(&damaged).ok();
        }
    }
}

/// Rows that are laid alike are read by the places of the first one's fields: any byte of any row may stand otherwise.
#[test]
fn every_byte_of_an_aligned_sheet_damaged() {
    let mut generator = Generator::new(SEED + 7);
    for (m, n) in [(2, 3), (2, 4), (3, 3), (9, 2), (2, 5), (2, 6)] {
        let strict = generator.table_sheet(m, n, TableKind::Random);
        for damaged in byte_damages(&generator.aligned(&strict)) {
            same_small(&damaged).ok();
        }
    }
}

#[test]
fn aligned_sheets_of_every_size_damaged() {
    let mut generator = Generator::new(SEED + 8);
    for (m, n) in sizes() {
        let strict = generator.table_sheet(m, n, TableKind::Random);
        for _ in 0..8 {
            let aligned = generator.aligned(&strict);
            let damaged = generator.loosely_damaged(&aligned);
            same_tidy(&damaged, MOST_CELLS, MOST_TABLE_SHEET).ok();
        }
    }
}

/// Each row with the assignment of each other: its ink good, bad, empty after some spaces, and missing with the space before it; the sheet cut there, too.
#[test]
fn every_row_again() {
    let assignments = ["0 0", "0  1", "1 0", "1   1"];
    let inks = [" 1", "   0", " 2", " x", " ", "   ", ""];
    let mut numbers: BTreeMap<usize, usize> = BTreeMap::new();
    for row in 0..4 {
        for other in 0..4 {
            for ink in inks {
                for end in ["\n", " \n", ""] {
                    let mut sheet = "levels inputs\n2 2\na b ink\n".to_string();
                    for assignment in &assignments[..row] {
                        sheet += &format!("{assignment} 0\n");
                    }
                    sheet += &format!("{}{ink}{end}", assignments[other]);
                    // without its line feed the row is the last
                    if !end.is_empty() {
                        for assignment in &assignments[row + 1..] {
                            sheet += &format!("{assignment} 0\n");
                        }
                    }
                    let answer = same_small(sheet.as_bytes());
                    *numbers.entry(number(answer)).or_default() += 1;
                }
            }
        }
    }
    println!("{numbers:?}");
    assert_eq!(numbers.into_keys().collect::<Vec<_>>(), [0, 1, 6, 20]);
}

#[test]
fn damaged_fields_and_lines() {
    let mut generator = Generator::new(SEED + 4);
    let mut numbers: BTreeMap<usize, usize> = BTreeMap::new();
    for round in 0..3_000 {
        // mostly small sheets, so that few rows stand before a damage
        let (m, n) = match round % 10 {
            0 => generator.size(),
            _ => *generator
                .rng
                .pick(&[(2, 2), (2, 3), (3, 2), (4, 2), (2, 4), (9, 2)]),
        };
        let kind = *generator.rng.pick(&TableKind::ALL);
        let strict = generator.table_sheet(m, n, kind);
        let loose = generator.loosened(&strict);
        let once = generator.loosely_damaged(&loose);
        let twice = generator.loosely_damaged(&once);
        for sheet in [once, twice] {
            let answer = same_tidy(&sheet, MOST_CELLS, strict.len() + 100);
            *numbers.entry(number(answer)).or_default() += 1;
        }
    }
    println!("{numbers:?}");
    let seen: Vec<usize> = numbers.into_keys().collect();
    assert_eq!(seen, [0, 1, 2, 3, 4, 5, 6, 20]);
}

/// Rows too many and too few at the largest size, and a row that comes again after all others.
#[test]
fn the_largest_sheet() {
    let mut generator = Generator::new(SEED + 5);
    let strict = generator.table_sheet(2, 12, TableKind::Sum);
    let loose = generator.loosened(&strict);
    let lines: Vec<&[u8]> = loose.split_inclusive(|&byte| byte == b'\n').collect();
    let (first, last) = (lines[3], lines[lines.len() - 1]);
    let all_but_one = lines[..lines.len() - 1].concat();
    let sheets = [
        (all_but_one.clone(), 1),
        ([&all_but_one, first].concat(), 20),
        ([&loose, first].concat(), 1),
        ([&loose, last].concat(), 1),
        ([&loose, &b" "[..]].concat(), 1),
        ([&loose, &b"\n"[..]].concat(), 1),
    ];
    for (sheet, due) in sheets {
        let answer = same_tidy(&sheet, MOST_CELLS, MOST_TABLE_SHEET);
        assert_eq!(number(answer), due);
    }
}

#[test]
fn bytes_that_are_no_sheet() {
    for sheet in [
        &b""[..],
        b"\n",
        b" ",
        b"   \n",
        b"\0",
        b"\xff",
        b"levels   ",
        b"levels   inputs   ",
        b"levels inputs\n",
        b"levels inputs\n2 2\na b\nleft right table\na b 0110\n",
    ] {
        for length in [0, 100] {
            same_tidy(sheet, length, length).expect_err("no table sheet");
        }
    }
}
