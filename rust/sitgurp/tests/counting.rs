//! Every group's number of classes and the fewest levels of a table sheet, held against the second implementation, and against making
//! with more levels.

use crate::common::{due, got};
use reference::generate::{most_classes_table, Generator, TableKind};
use reference::net::Table;
use reference::sheet::{print_table_sheet, Header};

const SEED: u64 = 256;

fn sheet_of(table: &Table) -> Vec<u8> {
    let (m, n) = (table.m, table.n);
    let names = (0..n).map(|input| vec![b'a' + input as u8]).collect();
    print_table_sheet(&Header { m, n, names }, table)
}

fn same_counts(sheet: &[u8]) {
    let text = String::from_utf8_lossy(sheet);
    let counts = got(sitgurp::multiplicities(sheet));
    assert_eq!(counts, due(reference::multiplicities(sheet)), "{text}");
    let fewest = got(sitgurp::fewest_levels(sheet));
    assert_eq!(fewest, due(reference::fewest_levels(sheet)), "{text}");
}

#[test]
fn every_size_and_kind_of_table() {
    println!("seed {SEED}");
    let mut generator = Generator::new(SEED);
    for (m, n) in reference::allowed_sizes() {
        for kind in TableKind::ALL {
            same_counts(&generator.table_sheet(m as usize, n as usize, kind));
        }
    }
}

fn binary_table(n: usize, number: usize) -> Table {
    let inks = (0..1 << n).map(|index| (number >> index & 1) as u8);
    let inks = inks.collect();
    Table { m: 2, n, inks }
}

#[test]
fn tables_of_two_levels() {
    for number in 0..256 {
        same_counts(&sheet_of(&binary_table(3, number)));
    }
    for number in (0..1 << 16).step_by(13) {
        same_counts(&sheet_of(&binary_table(4, number)));
    }
}

#[test]
fn the_most_classes_of_every_size() {
    let mut most = 0;
    for (m, n) in reference::allowed_sizes() {
        let (m, n) = (m as usize, n as usize);
        for size in 1..=n {
            let sheet = sheet_of(&most_classes_table(m, n, size));
            let counts = sitgurp::multiplicities(&sheet).expect("a good sheet");
            assert_eq!(Ok(&counts), reference::multiplicities(&sheet).as_ref());
            most = most.max(counts[(1 << size) - 1]);
        }
    }
    // four of five inputs of 5 levels, each of their 625 assignments another class
    assert_eq!(most, 625);
    // eight of twelve inputs, each of their 256
    let sheet = sheet_of(&most_classes_table(2, 12, 8));
    assert_eq!(sitgurp::multiplicities(&sheet).unwrap()[255], 256);
}

/// A table has a tree exactly when no more than its own levels are needed. Of each way to part the group at which it is refused, one part
/// has more classes than levels.
#[test]
fn a_table_is_made_exactly_when_its_levels_do() {
    let mut generator = Generator::new(SEED + 1);
    let (mut made, mut refused) = (0, 0);
    for (m, n) in reference::allowed_sizes() {
        let m = m as usize;
        for kind in TableKind::ALL {
            let sheet = generator.table_sheet(m, n as usize, kind);
            let fewest = sitgurp::fewest_levels(&sheet).expect("a good sheet");
            let Err(refusal) = sitgurp::made(&sheet) else {
                assert!(fewest <= m);
                made += 1;
                continue;
            };
            assert!(fewest > m);
            let counts = sitgurp::multiplicities(&sheet).expect("a good sheet");
            let place = refusal.place;
            for part in (1..place).filter(|part| part & place == *part) {
                assert!(counts[part] > m || counts[place - part] > m);
            }
            refused += 1;
        }
    }
    println!("{made} made, {refused} refused");
    assert!(made > 50 && refused > 30);
}

/// The same rule with k levels: an input above m - 1 acts as m - 1.
fn widened(table: &Table, k: usize) -> Table {
    let last = table.m as u8 - 1;
    Table::of(k, table.n, |levels| {
        let levels: Vec<u8> = levels.iter().map(|&level| level.min(last)).collect();
        table.ink(&levels)
    })
}

#[test]
fn a_widened_table_is_made_with_so_many_levels() {
    let mut generator = Generator::new(SEED + 2);
    let (mut made, mut refused) = (0, 0);
    for (m, n) in [(2, 3), (2, 4), (3, 3), (4, 3), (5, 3), (2, 5), (3, 4)] {
        for round in 0..60 {
            let table = generator.table(m, n, TableKind::ALL[round % TableKind::ALL.len()]);
            let fewest = sitgurp::fewest_levels(&sheet_of(&table)).expect("a good sheet");
            for k in (m..=9).take_while(|k| k.pow(n as u32) <= sitgurp::MOST_CELLS) {
                match sitgurp::made(&sheet_of(&widened(&table, k))) {
                    Ok(_) => assert!(fewest <= k, "{table:?} made with {k} levels"),
                    Err(refusal) => {
                        assert_eq!(refusal.number, 16);
                        assert!(fewest > k, "{table:?} refused with {k} levels");
                    }
                }
                made += usize::from(m < fewest && fewest <= k);
                refused += usize::from(k < fewest);
            }
        }
    }
    println!("{made} made with more levels, {refused} refused");
    assert!(made > 50 && refused > 50);
}

#[test]
fn refused_sheets() {
    let mut generator = Generator::new(SEED + 3);
    for (m, n) in [(2, 2), (3, 2), (2, 3), (9, 2), (2, 12)] {
        for kind in [TableKind::OfNet, TableKind::Random] {
            let sheet = generator.table_sheet(m, n, kind);
            for _ in 0..40 {
                same_counts(&generator.damaged(&sheet));
            }
        }
        same_counts(&generator.net_sheet(m, n));
    }
    for sheet in [&b""[..], b"\n", b"levels inputs\n", b"levels inputs\n2 2"] {
        same_counts(sheet);
    }
}

/// What docs/REFUSALS.md says of its examples of 16.
#[test]
fn the_numbers_of_the_document() {
    let majority = |levels: &[u8]| u8::from(levels.iter().sum::<u8>() >= 2);
    let three = Table::of(2, 3, majority);
    let four = Table::of(2, 4, |levels| majority(&levels[..3]) ^ levels[3]);
    for table in [&three, &four] {
        let counts = sitgurp::multiplicities(&sheet_of(table)).expect("a good sheet");
        assert_eq!([3, 5, 6].map(|group| counts[group]), [3, 3, 3]);
        assert_eq!(sitgurp::fewest_levels(&sheet_of(table)), Ok(3));
        assert!(sitgurp::made(&sheet_of(&widened(table, 3))).is_ok());
    }
}
