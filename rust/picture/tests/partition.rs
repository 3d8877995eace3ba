//! A partition matrix: as many classes as the library counts, and every cell of the table in it once.

use picture::partition::Partition;
use reference::generate::{Generator, TableKind};
use sitgurp::Table;

#[test]
fn the_classes_are_those_that_the_library_counts() {
    let mut generator = Generator::new(2_301);
    for (m, n) in [(2, 2), (2, 5), (3, 3), (4, 3), (5, 2), (9, 2)] {
        for kind in [TableKind::Random, TableKind::OfNet, TableKind::Sum] {
            let table = Table::read(&generator.table_sheet(m, n, kind)).expect("a good sheet");
            for group in 1..1 << n {
                let partition = Partition::of(&table, group);
                assert_eq!(Ok(partition.classes.len()), table.multiplicity(group));
                let mut indices: Vec<usize> = Vec::new();
                for column in 0..partition.columns() {
                    for row in 0..partition.rows() {
                        indices.push(partition.index(row, column));
                        let at = |names: Vec<&str>, levels: Vec<u8>| -> Vec<(String, u8)> {
                            names.into_iter().map(String::from).zip(levels).collect()
                        };
                        let mut pairs = at(partition.member_names(), partition.column(column));
                        pairs.extend(at(partition.other_names(), partition.row(row)));
                        let level = |name: &String| {
                            pairs
                                .iter()
                                .find(|(one, _)| one == name)
                                .expect("an input")
                                .1
                        };
                        let levels: Vec<u8> = table.names().iter().map(level).collect();
                        assert_eq!(table.ink(&levels), Some(partition.ink(row, column)));
                    }
                }
                indices.sort();
                assert!(indices.into_iter().eq(0..table.inks().len()));
            }
        }
    }
}
