//! The two calls on bare cells, held against the second implementation: every allowed size, every refusal, every length of the
//! marks buffer around its need, and the bytes beyond it.

use crate::common::{due, full, got};
use reference::generate::{Generator, TableKind};

const SEED: u64 = 2_187;

fn same_multiplicity(m: usize, n: usize, cells: &[u8], group: usize) {
    let answer = got(sitgurp::multiplicity(m, n, cells, group)).map(|value| value as u64);
    let expected = due(reference::multiplicity(
        m as u64,
        n as u64,
        cells,
        group as u64,
    ));
    assert_eq!(answer, expected, "m {m} n {n} group {group}");
}

fn same_marking(m: usize, n: usize, cells: &[u8], length: usize) {
    let (mut ours, mut theirs) = (full(length), full(length));
    let answer = got(sitgurp::marking(m, n, cells, &mut ours)).map(|value| value as u8);
    let expected = due(reference::marking(m as u64, n as u64, cells, &mut theirs));
    assert_eq!(answer, expected, "m {m} n {n} length {length}");
    assert_eq!(ours, theirs, "m {m} n {n} length {length}");
}

/// A table of each kind at every allowed size.
fn tables() -> Vec<(usize, usize, Vec<u8>)> {
    println!("seed {SEED}");
    let mut generator = Generator::new(SEED);
    let mut tables = Vec::new();
    for (m, n) in reference::allowed_sizes() {
        let (m, n) = (m as usize, n as usize);
        for kind in TableKind::ALL {
            tables.push((m, n, generator.table(m, n, kind).inks));
        }
    }
    tables
}

#[test]
fn every_group_of_every_size() {
    for (m, n, cells) in tables() {
        for group in 0..=(1 << n) + 1 {
            same_multiplicity(m, n, &cells, group);
        }
    }
}

#[test]
fn every_marks_buffer_around_the_need() {
    for (m, n, cells) in tables() {
        let need = (1usize << n) / 4;
        for length in [0, 1, need - 1, need, need + 1, need + 70] {
            same_marking(m, n, &cells, length);
        }
    }
}

/// Two bits a group, four groups a byte.
#[test]
fn the_mark_of_every_group() {
    let mut generator = Generator::new(SEED + 1);
    for (m, n) in reference::allowed_sizes() {
        let (m, n) = (m as usize, n as usize);
        let table = generator.table(m, n, TableKind::ThreeMatter);
        let of_groups = reference::marks::marks_of(&table);
        let mut marks = full((1 << n) / 4);
        let whole = got(sitgurp::marking(m, n, &table.inks, &mut marks));
        assert_eq!(whole, Ok(usize::from(of_groups[(1 << n) - 1])));
        for (group, &mark) in of_groups.iter().enumerate() {
            assert_eq!(sitgurp::mark_of(&marks, group), mark, "group {group}");
        }
    }
}

#[test]
fn sizes_and_lengths_out_of_bounds() {
    let odd = [
        0,
        1,
        2,
        3,
        9,
        10,
        11,
        12,
        13,
        63,
        64,
        255,
        256,
        1 << 32,
        usize::MAX,
    ];
    let cells = vec![0u8; 4_100];
    for m in odd {
        for n in odd {
            for length in [0, 1, 4, 8, 9, 2_187, 4_095, 4_096, 4_097, 4_100] {
                same_multiplicity(m, n, &cells[..length], 1);
                same_marking(m, n, &cells[..length], sitgurp::MOST_MARKS);
            }
        }
    }
}

#[test]
fn the_lowest_cell_that_is_not_below_m() {
    for (m, n, cells) in tables() {
        for place in [0, 1, cells.len() / 2, cells.len() - 1] {
            let mut damaged = cells.clone();
            damaged[place] = m as u8;
            if place + 1 < damaged.len() {
                damaged[place + 1] = 255;
            }
            same_multiplicity(m, n, &damaged, 1);
            same_marking(m, n, &damaged, (1 << n) / 4);
        }
    }
}

#[test]
fn groups_out_of_bounds() {
    for (m, n, cells) in tables() {
        for group in [0, 1 << n, (1 << n) + 1, 1 << 32, usize::MAX] {
            same_multiplicity(m, n, &cells, group);
        }
    }
}
