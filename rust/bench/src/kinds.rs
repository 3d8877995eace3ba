//! The inputs of the benchmark: the kinds of table, and some tables and sheets of each.

use reference::generate::{Generator, TableKind};

/// The largest sizes of two to nine levels, and small ones.
pub const SIZES: [(usize, usize); 11] = [
    (2, 12),
    (2, 11),
    (2, 8),
    (2, 4),
    (3, 7),
    (3, 3),
    (4, 6),
    (4, 5),
    (5, 5),
    (5, 4),
    (9, 3),
];
pub const KINDS: [(&str, TableKind); 10] = [
    ("random", TableKind::Random),
    ("tree", TableKind::OfNet),
    ("sum", TableKind::Sum),
    ("chain", TableKind::MinMaxChain),
    ("constant", TableKind::Constant),
    ("any chain", TableKind::AnyChain),
    ("few cells", TableKind::FewCells),
    ("one other", TableKind::OneInkChanged),
    ("three", TableKind::ThreeMatter),
    ("some", TableKind::OfSomeInputs),
];
/// This many tables of a kind are timed together.
pub const TABLES: usize = 5;

pub fn names() -> [&'static str; KINDS.len()] {
    KINDS.map(|(name, _)| name)
}

/// Returns the cells of this many tables.
pub fn tables(seed: u64, m: usize, n: usize, kind: TableKind, count: usize) -> Vec<Vec<u8>> {
    let mut generator = Generator::new(seed);
    (0..count)
        .map(|_| generator.table(m, n, kind).inks)
        .collect()
}

/// Returns some table sheets.
pub fn sheets(seed: u64, m: usize, n: usize, kind: TableKind) -> Vec<Vec<u8>> {
    let mut generator = Generator::new(seed);
    (0..TABLES)
        .map(|_| generator.table_sheet(m, n, kind))
        .collect()
}
