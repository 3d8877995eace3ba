//! The tidier of loose table sheets. In the sheets below `/` is a line feed
//! and `^` marks the place of a refusal (it is not part of the sheet).

use crate::common::*;
use reference::damage::single_edits;
use reference::generate::{Generator, TableKind};
use reference::sheet::read_table_sheet;
use reference::{allowed_sizes, tidy, Sheet};
use std::collections::HashMap;

const STRICT: &str = "levels inputs/2 2/a b ink/0 0 0/0 1 0/1 0 0/1 1 1/";

fn assert_tidies(loose: &str, strict: &str) {
    assert_eq!(tidied(&lines(loose)), Ok(lines(strict)), "{loose}");
}

#[test]
fn loose_sheets_by_hand() {
    for loose in [
        STRICT,
        "levels  inputs/2 2/a b ink/0 0 0/0 1 0/1 0 0/1 1 1/",
        "levels inputs /2 2/a b ink/0 0 0/0 1 0/1 0 0/1 1 1/",
        "levels     inputs   /2   2     /a b    ink  /0 0 0/0 1 0/1 0 0/1 1 1/",
        "levels inputs/2 2/a b ink/1 1 1/1 0 0/0 1 0/0 0 0/",
        "levels inputs/2 2/a b ink/0  0 0/0 1  0 /1   0   0/1 1 1   /",
        "levels inputs/2 2 /a   b   ink /1 1 1 /0 0 0/1  0  0/0  1  0/",
    ] {
        assert_tidies(loose, STRICT);
    }
    // The row that names an assignment gives its ink, wherever the row is.
    assert_tidies(
        "levels inputs/3 2/x y ink/2 2 1/2 1 0/2 0 2/1 2 2/1 1 1/1 0 0/0 2 1/0 1 2/0 0 0/",
        "levels inputs/3 2/x y ink/0 0 0/0 1 2/0 2 1/1 0 0/1 1 1/1 2 2/2 0 2/2 1 0/2 2 1/",
    );
}

/// "It puts the inks in the cells buffer": in index order.
#[test]
fn the_cells_are_in_index_order() {
    let sheet = lines("levels inputs/2 2/a b ink/1 0 1/0 1 0/1 1 0/0 0 1/");
    let mut cells = [9; 6];
    let mut out = [9; 60];
    assert_eq!(tidy(&sheet, &mut cells, &mut out), Ok(50));
    assert_eq!(cells, [1, 0, 1, 0, 9, 9]);
    assert_eq!(out[50..], [9; 10]);
}

/// "A strict sheet comes back unchanged"; with more spaces and its rows in any
/// order the result is the same.
#[test]
fn sheets_of_every_size() {
    let seed = 2_020;
    println!("seed {seed}");
    let mut generator = Generator::new(seed);
    for (m, n) in allowed_sizes() {
        for kind in TableKind::ALL {
            let (m, n) = (m as usize, n as usize);
            let strict = match generator.rng.below(3) {
                0 => generator.open_table_sheet(m, n, kind),
                _ => generator.table_sheet(m, n, kind),
            };
            assert_eq!(tidied(&strict).as_ref(), Ok(&strict));
            for loose in [
                generator.rows_shuffled(&strict),
                generator.spaced(&strict),
                generator.loosened(&strict),
            ] {
                assert_eq!(tidied(&loose).as_ref(), Ok(&strict));
            }
        }
    }
}

/// "Two accepted loose sheets with the same first three lines, spaces aside, tidy
/// to equal bytes exactly when they give every assignment the same ink."
#[test]
fn equal_exactly_when_the_inks_are() {
    let mut generator = Generator::new(2_021);
    let (mut equal, mut unlike) = (0, 0);
    for _ in 0..1_500 {
        let m = 2 + generator.rng.below(2);
        // with 2 levels a third of the cells is open
        let inks = |generator: &mut Generator| -> Vec<u8> {
            let most = if m == 2 { 3 } else { 2 };
            (0..m * m).map(|_| generator.rng.level(most)).collect()
        };
        let (first, second) = (inks(&mut generator), inks(&mut generator));
        let loose = |generator: &mut Generator, inks: &[u8]| {
            let sheet = table_sheet(m, "a b", inks);
            tidied(&generator.loosened(&sheet)).expect("a loose sheet")
        };
        let (one, other) = (
            loose(&mut generator, &first),
            loose(&mut generator, &second),
        );
        assert_eq!(one == other, first == second);
        equal += usize::from(first == second);
        unlike += usize::from(first != second);
    }
    assert!(equal > 5 && unlike > 100);
}

// ---- refusals

fn assert_refused(number: u8, texts: &[&str]) {
    for text in texts {
        let place = text.find('^').expect("a marked place") as u64;
        let sheet = lines(&text.replace('^', ""));
        assert_eq!(tidied(&sheet), Err(of_table(number, place)), "{text}");
    }
}

#[test]
fn refusal_1_a_space_that_starts_a_line() {
    assert_refused(
        1,
        &[
            "^ levels inputs/2 2/a b ink/0 0 0/0 1 0/1 0 0/1 1 1/",
            "^   levels inputs/2 2/a b ink/0 0 0/0 1 0/1 0 0/1 1 1/",
            "levels inputs/^ 2 2/a b ink/0 0 0/0 1 0/1 0 0/1 1 1/",
            "levels inputs/2 2/^  a b ink/0 0 0/0 1 0/1 0 0/1 1 1/",
            "levels inputs/2 2/a b ink/^ 0 0 0/0 1 0/1 0 0/1 1 1/",
            "levels inputs/2 2/a b ink/0 0 0/^  0 1 0/1 0 0/1 1 1/",
            "levels inputs/2 2/a b ink/0 0 0/0 1 0/1 0 0/^ /",
            "levels inputs/2 2/a b ink/0 0 0/0 1 0/1 0 0/^  ",
        ],
    );
}

#[test]
fn refusal_1_after_the_spaces_passed() {
    assert_refused(
        1,
        &[
            "levels   ^",
            "levels   ^/inputs/",
            "levels   ^input/2 2/",
            "levels inputs   ^",
            "levels inputs   ^2 2/",
            "levels inputs/2   ^/2/",
            "levels inputs/2   ^",
            "levels inputs/2 2  ^a b ink/",
            "levels inputs/2 2/a   ^/",
            "levels inputs/2 2/a   b   ^/",
            "levels inputs/2 2/a   b   ^c ink/",
            "levels inputs/2 2/a b ink   ^",
            "levels inputs/2 2/a b ink   ^0 0 0/",
            "levels inputs/2 2/a b ink/0   ^/",
            "levels inputs/2 2/a b ink/0   ^",
            "levels inputs/2 2/a b ink/0  0   ^/0 1 0/",
            "levels inputs/2 2/a b ink/0  0   ^",
            "levels inputs/2 2/a b ink/0 0 0   ^0 1 0/",
            "levels inputs/2 2/a b ink/0 0 0   ^",
            "levels inputs/2 2/a b ink/0 0 0   ^\t/",
            "levels inputs/2 2/a b ink/0 0 0/0 1 0/1 0 0/1 1 1  ^",
        ],
    );
}

#[test]
fn refusal_1_as_in_a_strict_sheet() {
    assert_refused(
        1,
        &[
            "^",
            "^/",
            "^lev",
            "levels^",
            "levels^/inputs/",
            "levels ^/",
            "levels inputs^",
            "levels ^inputs\r/2 2/",
            "levels inputs/2^/2/",
            "levels inputs/2 2^",
            "levels inputs/2 2/a^/",
            "levels inputs/2 2/a b^/0 0 0/",
            "levels inputs/2 2/a b ^inks/0 0 0/",
            "levels inputs/2 2/a b ink/^",
            "levels inputs/2 2/a b ink/^/0 0 0/0 1 0/1 0 0/1 1 1/",
            "levels inputs/2 2/a b ink/0^/0 0/0 1 0/1 0 0/1 1 1/",
            "levels inputs/2 2/a b ink/0 0^/0 1 0/1 0 0/1 1 1/",
            "levels inputs/2 2/a b ink/0 0 ^/0 1 0/1 0 0/1 1 1/",
            "levels inputs/2 2/a b ink/0 0 0 ^0/0 1 0/1 0 0/1 1 1/",
            "levels inputs/2 2/a b ink/0 0 0^",
            // Too few rows, and bytes after the last.
            "levels inputs/2 2/a b ink/1 1 0/0 1 0/1 0 0/^",
            "levels inputs/2 2/a b ink/1 1 0/0 1 0/1 0 0/0 0 0/^/",
            "levels inputs/2 2/a b ink/1 1 0/0 1 0/1 0 0/0 0 0/^ ",
            "levels inputs/2 2/a b ink/1 1 0/0 1 0/1 0 0/0 0 0/^0 0 0/",
            "levels inputs/2 2/a b ink/1 1 0/0 1 0/1 0 0/0 0 0/^2 x",
        ],
    );
}

#[test]
fn refusals_2_to_4_of_loose_lines() {
    assert_refused(2, &["levels   inputs  /^1   2/", "levels inputs/^22  2/"]);
    assert_refused(3, &["levels inputs/2   ^1 /", "levels inputs/9  ^4"]);
    assert_refused(
        4,
        &[
            "levels inputs/2 2/a   ^a ink/",
            "levels inputs/2 2/a   ^ink  /",
            "levels inputs/2 2/^A   b ink/",
        ],
    );
}

/// "An input field that is no digit below m is 5."
#[test]
fn refusal_5_no_level() {
    assert_refused(
        5,
        &[
            "levels inputs/2 2/a b ink/^2 0 0/",
            "levels inputs/2 2/a b ink/1  ^2 0/",
            "levels inputs/2 2/a b ink/^00 0 0/",
            "levels inputs/2 2/a b ink/^x 0 0/",
            "levels inputs/2 2/a b ink/^- 0 0/",
            "levels inputs/2 2/a b ink/0   ^0\r 0/",
            "levels inputs/2 2/a b ink/^: 0 0/",
            "levels inputs/9 2/a b ink/8   ^9 0/",
            // Judged before the byte after it, and before 20.
            "levels inputs/2 2/a b ink/^2/",
            "levels inputs/2 2/a b ink/0 ^2",
            "levels inputs/2 2/a b ink/0 0 0/0 ^2 0/",
        ],
    );
}

#[test]
fn refusal_6_inks() {
    assert_refused(
        6,
        &[
            "levels inputs/2 2/a b ink/1 1   ^2/",
            "levels inputs/2 2/a b ink/1 1 ^01/",
            "levels inputs/2 2/a b ink/1 1 ^x/",
            "levels inputs/2 2/a b ink/1 1 ^--  /",
            "levels inputs/2 2/a b ink/1 1 -/1 0 ^-0/",
            "levels inputs/2 2/a b ink/1 1 ^0\r/",
            "levels inputs/3 2/a b ink/0 1 2/2 1 ^3",
        ],
    );
}

/// "Assignment given in an earlier row, placed at the row's first field, judged
/// just before its ink field, even an empty one."
#[test]
fn refusal_20_a_row_again() {
    assert_refused(
        20,
        &[
            "levels inputs/2 2/a b ink/0 0 0/^0 0 0/",
            "levels inputs/2 2/a b ink/0 0 0/^0 0 1/1 0 0/1 1 1/",
            "levels inputs/2 2/a b ink/0 0 0/1 1 0/0 1 0/^1   1   0/",
            // Before the ink field is judged, empty or not.
            "levels inputs/2 2/a b ink/0 0 0/^0 0 2/",
            "levels inputs/2 2/a b ink/0 0 0/^0 0 /",
            "levels inputs/2 2/a b ink/0 0 0/^0 0    /",
            "levels inputs/2 2/a b ink/0 0 0/^0 0 ",
            "levels inputs/2 2/a b ink/0 0 0/^0 0 xyz",
            "levels inputs/2 2/a b ink/0 0 0/^0   0   ",
        ],
    );
    // But after the byte that separates the last input field from it.
    assert_refused(
        1,
        &[
            "levels inputs/2 2/a b ink/0 0 0/0 0^/",
            "levels inputs/2 2/a b ink/0 0 0/0 0^",
            "levels inputs/2 2/a b ink/0 0 0/0^/",
        ],
    );
}

// ---- compared with the strict reader

/// Returns the sheet with its spaces corrected and its rows in order, if no line starts
/// with a space: each line's fields are separated by one space, and the rows sorted.
fn set_right(sheet: &[u8]) -> Option<Vec<u8>> {
    let lines: Vec<&[u8]> = sheet.split_inclusive(|&byte| byte == b'\n').collect();
    let mut right = Vec::new();
    for line in lines {
        let line = line.strip_suffix(b"\n")?;
        if line.starts_with(b" ") {
            return None;
        }
        let fields = line.split(|&byte| byte == b' ');
        let fields: Vec<&[u8]> = fields.filter(|field| !field.is_empty()).collect();
        right.push([fields.join(&b' '), b"\n".to_vec()].concat());
    }
    if right.len() > 3 {
        right[3..].sort();
    }
    Some(right.concat())
}

/// A loose sheet is accepted exactly if its corrected form is accepted as a strict one,
/// and it tidies to that one.
fn assert_as_set_right(sheet: &[u8]) -> u8 {
    let right = set_right(sheet).filter(|right| read_table_sheet(right).is_ok());
    let answer = tidied(sheet);
    assert_eq!(answer.as_ref().ok(), right.as_ref());
    match answer {
        Ok(_) => 0,
        Err(refusal) => {
            assert_eq!(refusal.sheet, Sheet::Table);
            assert!(refusal.place as usize <= sheet.len());
            refusal.number
        }
    }
}

/// What follows the refused field and the byte after it does not matter; in a
/// repeated row, what follows its last input field and a space.
fn assert_judged_from_the_front(sheet: &[u8]) {
    let Err(refusal) = tidied(sheet) else {
        return;
    };
    let mut end = refusal.place as usize;
    let fields = if refusal.number == 20 { 2 } else { 1 };
    for _ in 0..fields {
        let space = |at: usize| sheet.get(at) == Some(&b' ');
        while space(end) && fields == 2 {
            end += 1;
        }
        let rest = &sheet[end..];
        let ends = |&byte: &u8| byte == b' ' || byte == b'\n';
        end += rest.iter().position(ends).unwrap_or(rest.len());
    }
    if end < sheet.len() {
        let front = [&sheet[..=end], b"\n\xff 12345 x\n"].concat();
        assert_eq!(tidied(&front), Err(refusal));
    }
}

#[test]
fn every_single_edit() {
    let mut answers: HashMap<u8, usize> = HashMap::new();
    for text in [
        "levels inputs/2 2/a b ink/1 0 1/0 1 0/1 1 0/0 0 1/",
        "levels  inputs /2  2/a b  ink/0 1  0/0  0 1  /1 1 0/1 0 1/",
    ] {
        for sheet in single_edits(&lines(text)) {
            *answers.entry(assert_as_set_right(&sheet)).or_default() += 1;
            assert_judged_from_the_front(&sheet);
        }
    }
    println!("answers {answers:?}");
    for number in [0, 1, 2, 3, 4, 5, 6, 20] {
        assert!(answers.contains_key(&number), "{number}");
    }
}

#[test]
fn damaged_sheets() {
    let seed = 2_022;
    println!("seed {seed}");
    let mut generator = Generator::new(seed);
    let mut answers: HashMap<u8, usize> = HashMap::new();
    for _ in 0..3_000 {
        let (m, n) = *generator
            .rng
            .pick(&[(2, 2), (2, 3), (3, 2), (4, 2), (2, 5), (9, 3)]);
        let kind = *generator.rng.pick(&TableKind::ALL);
        let strict = generator.table_sheet(m, n, kind);
        let loose = generator.loosened(&strict);
        let once = generator.loosely_damaged(&loose);
        let twice = generator.loosely_damaged(&once);
        for sheet in [once, twice] {
            *answers.entry(assert_as_set_right(&sheet)).or_default() += 1;
        }
    }
    println!("answers {answers:?}");
    for number in [0, 1, 2, 3, 4, 5, 6, 20] {
        assert!(answers.contains_key(&number), "{number}");
    }
}
