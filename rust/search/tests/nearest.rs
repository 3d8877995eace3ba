//! Changes of few rows, compared with all changes that the library judges.

use reference::generate::{Generator, TableKind};
use search::{changed, nearest, Change};
use sitgurp::Table;

fn table(m: usize, n: usize, inks: &[u8]) -> Table {
    let names: Vec<String> = (0..n).map(|k| format!("i{k}")).collect();
    let mut inks = inks.iter().copied();
    Table::from_rule(m, &names, |_| inks.next().expect("an ink")).expect("a table")
}

/// Returns every change of one row, or of two, after which the library marks the table as having a tree.
fn every(table: &Table, rows: usize) -> Vec<Vec<Change>> {
    let (m, n) = (table.levels(), table.names().len());
    let mut cells = table.inks().to_vec();
    let mut found = Vec::new();
    for index in 0..cells.len() {
        let from = cells[index];
        for to in (0..m as u8).filter(|to| *to != from) {
            cells[index] = to;
            let first = Change { index, from, to };
            if rows == 1 {
                if sitgurp::marking(m, n, &cells, &mut [0; 16]) == Ok(2) {
                    found.push(vec![first]);
                }
                continue;
            }
            for index in index + 1..cells.len() {
                let from = cells[index];
                for to in (0..m as u8).filter(|to| *to != from) {
                    cells[index] = to;
                    if sitgurp::marking(m, n, &cells, &mut [0; 16]) == Ok(2) {
                        found.push(vec![first, Change { index, from, to }]);
                    }
                }
                cells[index] = from;
            }
        }
        cells[index] = from;
    }
    found
}

/// All changes of one row are found, or all of two, and fewer changes than reported are never possible.
#[test]
fn one_row_or_two() {
    let mut generator = Generator::new(43);
    let mut ways = [0; 3];
    for round in 0..180 {
        let (m, n) = [(2, 3), (2, 4), (3, 3), (4, 3), (2, 5), (3, 3)][round % 6];
        let kind = [
            TableKind::Random,
            TableKind::OfNet,
            TableKind::OneInkChanged,
        ][round / 6 % 3];
        let mut inks = generator.table(m, n, kind).inks;
        for _ in 0..round % 4 {
            let cell = generator.rng.below(inks.len());
            inks[cell] = (inks[cell] + 1) % m as u8;
        }
        let table = table(m, n, &inks);
        let Some(nearest) = nearest(&table) else {
            assert!(table.settled().is_ok());
            continue;
        };
        let rows = nearest.ways[0].len();
        assert!(nearest.ways.iter().all(|way| way.len() == rows));
        assert!(nearest
            .ways
            .iter()
            .all(|way| changed(&table, way).settled().is_ok()));
        assert!(nearest.at_least <= rows);
        let mut due = every(&table, 1);
        if due.is_empty() && rows >= 2 {
            due = every(&table, 2);
        }
        match rows {
            1 | 2 => assert_eq!(
                (&nearest.ways, nearest.at_least, nearest.all),
                (&due, rows, true),
                "{table}"
            ),
            _ => {
                assert!(due.is_empty() && !nearest.all, "{table}");
                assert!(nearest.at_least >= 3);
            }
        }
        ways[rows.min(3) - 1] += 1;
    }
    assert!(ways.iter().all(|&count| count > 10), "{ways:?}");
}

/// If a few rows of a tree's table were changed, the search changes no more rows than these.
#[test]
fn a_few_rows() {
    let mut generator = Generator::new(9);
    for (m, n) in [(2, 6), (3, 4), (4, 4)] {
        for rows in [3, 5] {
            let mut inks = generator.table(m, n, TableKind::OfNet).inks;
            for _ in 0..rows {
                let cell = generator.rng.below(inks.len());
                inks[cell] = (inks[cell] + 1) % m as u8;
            }
            if let Some(nearest) = nearest(&table(m, n, &inks)) {
                assert!(
                    nearest.ways[0].len() <= rows,
                    "{m} {n} {rows}: {}",
                    nearest.ways[0].len()
                );
            }
        }
    }
}

#[test]
fn a_table_with_a_tree_or_open_cells() {
    assert!(nearest(&table(2, 3, &[0, 1, 1, 0, 1, 0, 0, 1])).is_none());
    assert!(nearest(&table(2, 3, &[0, 0, 0, 1, 0, 1, 1, 2])).is_none());
}
