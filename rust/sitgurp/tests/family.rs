//! The family of a table's trees, held against the second implementation: every allowed size, tables with and without trees, numbers at and
//! past the count, damaged sheets, buffers of every length around each need and full of other bytes.

use crate::common::{around, due, full, got, sizes, Back, Lengths, ENOUGH};
use reference::damage::byte_damages;
use reference::generate::{Generator, TableKind};
use reference::net::Table;
use reference::sheet::{print_table_sheet, Header};
use sitgurp::{Family, Lister, MOST_CELLS, MOST_MARKS, MOST_NET_SHEET};
use std::collections::HashSet;

const SEED: u64 = 13_749_310_575;

/// Both implementations count on the same sheet and buffers: the answers and all lent bytes are equal.
fn same_count(sheet: &[u8], cells: usize, marks: usize) -> Result<u64, Back> {
    let mut ours = [full(cells), full(marks)];
    let mut theirs = ours.clone();
    let [cells, marks] = &mut ours;
    let answer = got(sitgurp::family_count(sheet, cells, marks));
    let [cells, marks] = &mut theirs;
    let expected = due(reference::family_count(sheet, cells, marks));
    let text = String::from_utf8_lossy(sheet);
    assert_eq!(answer, expected, "sheet {text:?}");
    assert!(ours == theirs, "buffers differ, sheet {text:?}");
    answer
}

/// The same of the tree of a number.
fn same_tree(sheet: &[u8], number: u64, lengths: Lengths) -> Result<usize, Back> {
    let Lengths(cells, marks, output) = lengths;
    let mut ours = [full(cells), full(marks), full(output)];
    let mut theirs = ours.clone();
    let [cells, marks, output] = &mut ours;
    let answer = got(sitgurp::family_tree(sheet, number, cells, marks, output));
    let [cells, marks, output] = &mut theirs;
    let expected = due(reference::family_tree(sheet, number, cells, marks, output));
    let text = String::from_utf8_lossy(sheet);
    assert_eq!(answer, expected, "number {number}, sheet {text:?}");
    assert!(ours == theirs, "buffers differ, {number}, sheet {text:?}");
    answer
}

/// Number 0, the last, one between, the count, and numbers past it.
fn numbers(count: u64, generator: &mut Generator) -> Vec<u64> {
    let between = generator.rng.number() % count.max(1);
    let last = count.wrapping_sub(1);
    vec![0, last, between, count, count + 1, 1 << 32, u64::MAX]
}

fn sheet_of(table: &Table) -> Vec<u8> {
    let (m, n) = (table.m, table.n);
    let names = (0..n).map(|input| vec![b'a' + input as u8]).collect();
    print_table_sheet(&Header { m, n, names }, table)
}

#[test]
fn every_size_and_kind_of_table() {
    println!("seed {SEED}");
    let mut generator = Generator::new(SEED);
    let (mut several, mut none) = (0, 0);
    for (m, n) in sizes() {
        for kind in TableKind::ALL {
            let sheet = generator.table_sheet(m, n, kind);
            let count = same_count(&sheet, MOST_CELLS, MOST_MARKS).expect("a good sheet");
            let all = numbers(count, &mut generator);
            // the second implementation is slow at the largest sizes
            let few = match n > 8 {
                true => &all[1..3],
                false => &all[..],
            };
            for &number in few {
                let tree = same_tree(&sheet, number, ENOUGH);
                match number < count {
                    true => assert!(tree.is_ok()),
                    false => assert_eq!(tree.map_err(|refusal| refusal.0), Err(17)),
                }
            }
            // number 0 is the very sheet that making writes, and there is none where making says 16
            let family = Family::of(&sheet).expect("a good sheet");
            match sitgurp::made(&sheet) {
                Ok(settled) => assert_eq!(family.tree(0), Ok(settled)),
                Err(refusal) => assert_eq!((refusal.number, count), (16, 0)),
            }
            several += usize::from(count > 1);
            none += usize::from(count == 0);
        }
    }
    println!("{several} tables have several trees, {none} none");
    assert!(several > 60 && none > 30);
}

/// 1, 3, 15, .. to the largest size: every wiring of all inputs computes their sum.
#[test]
fn sums_have_every_wiring() {
    let mut count = 1;
    for n in 2..=12 {
        count *= 2 * n as u64 - 3;
        for m in (2..=9).filter(|m: &usize| m.pow(n as u32) <= MOST_CELLS) {
            let sheet = sum(m, n);
            let family = Family::of(&sheet).expect("a good sheet");
            assert_eq!(family.size(), count);
            assert_eq!(family.tree(0), sitgurp::made(&sheet));
            // the last one takes the last-listed input to the first, then the one before it, and so on
            let last = family.tree(count - 1).expect("a number below the count");
            let lines: Vec<String> = last
                .split(|&byte| byte == b'\n')
                .skip(4)
                .map(|line| String::from_utf8_lossy(line).into_owned())
                .collect();
            for (gate, line) in lines[..n - 1].iter().enumerate() {
                let right = char::from(b'a' + (n - 1 - gate) as u8);
                let left = match gate {
                    0 => "a".to_string(),
                    _ => gate.to_string(),
                };
                assert!(line.starts_with(&format!("{left} {right} ")), "{line}");
            }
            let refusal = family.tree(count).expect_err("no such number");
            assert_eq!((refusal.number, refusal.place as u64), (17, count));
        }
    }
    assert_eq!(count, 13_749_310_575);
}

/// One wiring on two leaves, however many inputs there are.
#[test]
fn constants_have_one_wiring() {
    for (m, n) in sizes() {
        let sheet = sheet_of(&Table::of(m, n, |_| m as u8 - 1));
        assert_eq!(same_count(&sheet, MOST_CELLS, MOST_MARKS), Ok(1));
        let family = Family::of(&sheet).expect("a good sheet");
        assert_eq!(family.tree(0), sitgurp::made(&sheet));
        let net = family.tree(0).expect("a number below the count");
        let gate = Lister::start(&net).expect("a net sheet").next();
        assert!(gate.is_some_and(|line| line.starts_with(b"a b ")));
        assert_eq!(family.tree(1).map_err(|refusal| refusal.number), Err(17));
    }
}

#[test]
fn tables_of_two_levels() {
    for (n, step) in [(2, 1), (3, 1), (4, 23)] {
        for number in (0..1usize << (1 << n)).step_by(step) {
            let inks = (0..1 << n).map(|index| (number >> index & 1) as u8);
            let sheet = sheet_of(&Table {
                m: 2,
                n,
                inks: inks.collect(),
            });
            let count = same_count(&sheet, MOST_CELLS, MOST_MARKS).expect("a good sheet");
            for number in 0..=count {
                same_tree(&sheet, number, ENOUGH).ok();
            }
        }
    }
}

/// Each wiring once: all trees of a family are other sheets, of one table, and settle alike.
#[test]
fn whole_families() {
    let mut generator = Generator::new(SEED + 1);
    let mut walked = 0;
    for (m, n) in [(2, 3), (3, 3), (2, 4), (3, 4), (4, 4), (2, 5), (2, 6)] {
        for kind in TableKind::ALL {
            let sheet = generator.table_sheet(m, n, kind);
            let family = Family::of(&sheet).expect("a good sheet");
            let trees: Vec<Vec<u8>> = family.clone().collect();
            assert_eq!(trees.len() as u64, family.size());
            assert_eq!(trees.iter().collect::<HashSet<_>>().len(), trees.len());
            let settled = sitgurp::made(&sheet).ok();
            assert_eq!(trees.first(), settled.as_ref());
            for tree in &trees {
                assert_eq!(sitgurp::table_of(tree).as_ref(), Ok(&sheet));
                assert_eq!(sitgurp::settled(tree).ok(), settled);
            }
            walked += trees.len();
        }
    }
    println!("{walked} trees");
    assert!(walked > 1_000);
}

// ---- the walk over a family

fn sum(m: usize, n: usize) -> Vec<u8> {
    sheet_of(&Table::of(m, n, |levels| {
        let total: usize = levels.iter().map(|&level| usize::from(level)).sum();
        (total % m) as u8
    }))
}

#[test]
fn a_family_from_both_ends() {
    let sheet = sum(2, 4);
    let family = Family::of(&sheet).expect("a good sheet");
    assert_eq!((family.size(), family.len()), (15, 15));
    let trees: Vec<Vec<u8>> = family.clone().collect();
    for (number, tree) in (0..).zip(&trees) {
        assert_eq!(family.tree(number).as_ref(), Ok(tree));
    }
    let mut backward: Vec<Vec<u8>> = family.clone().rev().collect();
    backward.reverse();
    assert_eq!(backward, trees);

    // from both ends until they meet; then nothing is left at either, also when asked again
    let mut walk = family.clone();
    for (k, left) in (0..7).zip((0..15).rev().step_by(2)) {
        assert_eq!(walk.next().as_ref(), Some(&trees[k]));
        assert_eq!(walk.next_back().as_ref(), Some(&trees[14 - k]));
        assert_eq!(walk.size_hint(), (left - 1, Some(left - 1)));
        assert_eq!(walk.len(), left - 1);
    }
    assert_eq!(walk.next_back().as_ref(), Some(&trees[7]));
    for _ in 0..3 {
        assert_eq!((walk.next(), walk.next_back()), (None, None));
        assert_eq!((walk.nth(1), walk.nth_back(1), walk.len()), (None, None, 0));
    }
    // what was walked does not change what a number stands for
    assert_eq!(walk.size(), 15);
    assert_eq!(walk.tree(3).as_ref(), Ok(&trees[3]));
}

#[test]
fn jumps_within_a_family() {
    let sheet = sum(2, 4);
    let family = Family::of(&sheet).expect("a good sheet");
    let trees: Vec<Vec<u8>> = family.clone().collect();
    for k in 0..20 {
        assert_eq!(family.clone().nth(k).as_ref(), trees.get(k));
        assert_eq!(
            family.clone().nth_back(k).as_ref(),
            trees.iter().rev().nth(k)
        );
        let rest: Vec<Vec<u8>> = family.clone().skip(k).collect();
        assert_eq!(rest, trees[k.min(15)..]);
        assert_eq!(family.clone().skip(k).count(), 15usize.saturating_sub(k));
    }
    let every_fourth: Vec<Vec<u8>> = family.clone().step_by(4).collect();
    let due: Vec<Vec<u8>> = trees.iter().step_by(4).cloned().collect();
    assert_eq!(every_fourth, due);
    // two walks over one sheet do not disturb each other
    let (mut one, mut other) = (family.clone(), family);
    assert_eq!(one.nth(5).as_ref(), Some(&trees[5]));
    assert_eq!(other.next().as_ref(), Some(&trees[0]));
    assert_eq!(one.next().as_ref(), Some(&trees[6]));
}

/// None of these makes the trees that it passes.
#[test]
fn the_largest_family() {
    let sheet = sum(2, 12);
    let family = Family::of(&sheet).expect("a good sheet");
    assert_eq!(family.len(), 13_749_310_575);
    assert_eq!(family.clone().count(), 13_749_310_575);
    let last = family.tree(13_749_310_574).expect("the last");
    assert_eq!(family.clone().last().as_ref(), Some(&last));
    assert_eq!(family.clone().nth(13_749_310_574).as_ref(), Some(&last));
    assert_eq!(family.clone().next_back().as_ref(), Some(&last));
    assert_eq!(
        family.clone().nth_back(13_749_310_574),
        sitgurp::made(&sheet).ok()
    );
    assert_eq!(family.clone().nth(13_749_310_575), None);
    same_tree(&sheet, 13_749_310_574, ENOUGH).expect("the last");
    same_tree(&sheet, 6_874_655_287, ENOUGH).expect("one in the middle");
}

#[test]
fn an_empty_family() {
    let majority = |levels: &[u8]| u8::from(levels.iter().sum::<u8>() >= 2);
    let sheet = sheet_of(&Table::of(2, 3, majority));
    let mut family = Family::of(&sheet).expect("no tree is no refusal");
    assert_eq!((family.size(), family.len()), (0, 0));
    assert_eq!((family.next(), family.next_back()), (None, None));
    let refusal = family.tree(0).expect_err("no tree");
    assert_eq!(
        refusal.to_string(),
        "the table has no tree of this number (refusal 17 at number 0)"
    );
}

// ---- refusals

#[test]
fn every_buffer_around_its_need() {
    let mut generator = Generator::new(SEED + 2);
    for (m, n) in [(2, 2), (2, 3), (3, 3), (2, 6), (9, 3), (2, 12)] {
        let kinds = [TableKind::OfNet, TableKind::Sum, TableKind::Random];
        for kind in kinds {
            let sheet = generator.table_sheet(m, n, kind);
            let count = same_count(&sheet, MOST_CELLS, MOST_MARKS).expect("a good sheet");
            let length = same_tree(&sheet, 0, ENOUGH).unwrap_or(200);
            let lengths = match n {
                12 => |need| vec![need - 1, need],
                _ => around,
            };
            for cells in lengths(m.pow(n as u32)) {
                for marks in lengths((1 << n) / 4) {
                    same_count(&sheet, cells, marks).ok();
                    for output in lengths(length) {
                        for number in [count / 2, count] {
                            same_tree(&sheet, number, Lengths(cells, marks, output)).ok();
                        }
                    }
                }
            }
        }
    }
}

#[test]
fn every_byte_damaged() {
    let mut generator = Generator::new(SEED + 3);
    for (m, n) in [(2, 2), (3, 2), (2, 3)] {
        let sheet = generator.table_sheet(m, n, TableKind::Sum);
        for damaged in byte_damages(&sheet) {
            same_count(&damaged, MOST_CELLS, MOST_MARKS).ok();
            same_tree(&damaged, 1, ENOUGH).ok();
        }
    }
}

#[test]
fn damaged_fields_and_lines() {
    let mut generator = Generator::new(SEED + 4);
    for _ in 0..300 {
        let (m, n) = generator.size();
        let kind = *generator.rng.pick(&TableKind::ALL);
        let sheet = generator.table_sheet(m, n, kind);
        let damaged = generator.damaged(&sheet);
        let count = same_count(&damaged, MOST_CELLS, MOST_MARKS);
        assert_eq!(got(Family::of(&damaged)).map(|family| family.size()), count);
        same_tree(&damaged, u64::from(generator.rng.level(4)), ENOUGH).ok();
        same_tree(&generator.net_sheet(m, n), 0, ENOUGH).expect_err("no table sheet");
    }
}

#[test]
fn bytes_that_are_no_sheet() {
    for sheet in [
        &b""[..],
        b"\n",
        b" ",
        b"\0",
        b"\xff",
        b"levels inputs",
        b"levels inputs\n",
    ] {
        same_count(sheet, 0, 0).expect_err("no sheet");
        same_tree(sheet, u64::MAX, Lengths(0, 0, 0)).expect_err("no sheet");
        assert!(Family::of(sheet).is_err());
    }
    assert_eq!(ENOUGH.2, MOST_NET_SHEET);
}
