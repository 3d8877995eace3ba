//! Trees with larger gates: they compute the table, and no smaller gates do.

use reference::generate::{Generator, TableKind};
use search::{larger, Source};
use sitgurp::Table;

fn tables() -> Vec<Table> {
    let mut generator = Generator::new(3);
    let mut tables = Vec::new();
    for round in 0..120 {
        let (m, n) = [(2, 3), (2, 4), (2, 5), (3, 3), (3, 4), (2, 6)][round % 6];
        let kind = TableKind::ALL[round / 6 % TableKind::ALL.len()];
        let table = generator.table(m, n, kind);
        let header = generator.header(m, n);
        let sheet = reference::sheet::print_table_sheet(&header, &table);
        tables.push(Table::read(&sheet).expect("a table"));
    }
    tables
}

/// Lists the ways to split a group into two or more parts.
fn partitions(group: usize) -> Vec<Vec<usize>> {
    if group == 0 {
        return vec![Vec::new()];
    }
    let first = group & group.wrapping_neg();
    let rest = group - first;
    let parts = (0..=rest)
        .filter(|part| part & !rest == 0)
        .map(|part| part | first);
    let with = |part: usize| {
        let others = partitions(group - part);
        others
            .into_iter()
            .map(move |others| [vec![part], others].concat())
    };
    parts.flat_map(with).collect()
}

/// Returns the fewest gates of `size` inputs in a tree over a group that has none larger, by trying everything.
fn fewest(table: &Table, group: usize, size: usize) -> Option<usize> {
    if group.is_power_of_two() {
        return Some(0);
    }
    if table.multiplicity(group).expect("a group") > table.levels() {
        return None;
    }
    let ways = partitions(group)
        .into_iter()
        .filter(|parts| (2..=size).contains(&parts.len()));
    let gates = ways.filter_map(|parts| {
        let below: Option<usize> = parts.iter().map(|&part| fewest(table, part, size)).sum();
        below.map(|below| below + usize::from(parts.len() == size))
    });
    gates.min()
}

#[test]
fn the_smallest_gates() {
    let mut sizes = [0; 7];
    for table in tables() {
        let tree = larger(&table).expect("a full table");
        assert_eq!(tree.differs(&table), None, "{table}");
        let used: usize = (0..table.names().len())
            .map(|input| 1 << input)
            .filter(|&one| table.multiplicity(one) != Ok(1))
            .sum();
        let size = tree.largest();
        sizes[size] += 1;
        assert_eq!(size == 2, table.settled().is_ok(), "{table}");
        if size > 2 {
            assert_eq!(fewest(&table, used, size - 1), None, "{table}");
            assert_eq!(
                fewest(&table, used, size),
                Some(tree.of_size(size)),
                "{table}"
            );
        }
        // every input and every gate is used at most once
        let sources: Vec<Source> = tree
            .gates
            .iter()
            .flat_map(|gate| gate.sources.clone())
            .collect();
        assert!(sources
            .iter()
            .enumerate()
            .all(|(k, source)| !sources[..k].contains(source)));
    }
    assert!(sizes[2..].iter().all(|&count| count > 1), "{sizes:?}");
}

/// A wrong digit is detected.
#[test]
fn a_wrong_tree_is_seen() {
    let table = Table::from_rule(2, &["a", "b", "c"], |levels| {
        u8::from(levels.iter().sum::<u8>() >= 2)
    })
    .expect("a table");
    let mut tree = larger(&table).expect("a full table");
    assert_eq!(
        (tree.gates.len(), tree.largest(), tree.differs(&table)),
        (1, 3, None)
    );
    tree.gates[0].digits[5] = 0;
    assert_eq!(tree.differs(&table), Some(5));
}
