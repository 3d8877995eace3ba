//! The two calls on bare cells: refusals 9, 10 and 11, and the count of classes.

use crate::common::*;
use reference::generate::{most_classes_table, Generator, TableKind};
use reference::{allowed_sizes, marking, multiplicity};

/// Sizes that would wrap around to a small number of cells, and all others that
/// are out of bounds.
#[test]
fn refusal_9_bare_sizes() {
    let huge = u64::MAX;
    let sizes = [
        [(0, 2), (1, 2), (10, 2), (2, 0), (2, 1), (2, 13)],
        [(3, 8), (4, 7), (5, 6), (6, 5), (7, 5), (8, 5)],
        [(9, 4), (0, 0), (1, 1), (2, 64), (2, 65), (4, 32)],
        [
            (huge, 2),
            (2, huge),
            (huge, huge),
            (1 << 32, 2),
            (9, huge),
            (1, huge),
        ],
    ];
    for (m, n) in sizes.concat() {
        let power = (m as u128).checked_pow(n.min(1 << 20) as u32);
        let full = power.filter(|&cells| cells < 10_000).unwrap_or(0) as usize;
        for length in [0, 1, full, 4_096, 8_192] {
            let cells = vec![0; length];
            let mut marks = [7; 4_096];
            assert_eq!(
                multiplicity(m, n, &cells, 1),
                Err(of_neither(9, 0)),
                "{m} {n}"
            );
            assert_eq!(
                marking(m, n, &cells, &mut marks),
                Err(of_neither(9, 0)),
                "{m} {n}"
            );
            assert_eq!(marks, [7; 4_096]);
        }
    }
}

#[test]
fn refusal_9_bare_lengths() {
    for (m, n, need) in [(2, 2, 4), (2, 12, 4_096), (3, 7, 2_187), (9, 3, 729)] {
        for length in [0, need - 1, need + 1] {
            // Not below m, group 0 and no marks: 9 is judged before them all.
            let cells = vec![200; length];
            assert_eq!(multiplicity(m, n, &cells, 0), Err(of_neither(9, 0)));
            assert_eq!(marking(m, n, &cells, &mut []), Err(of_neither(9, 0)));
        }
        assert_eq!(multiplicity(m, n, &vec![0; need], 1), Ok(1));
    }
}

/// "10 now means above m."
#[test]
fn refusal_10_the_lowest_cell_above_m() {
    for bad in [4, 9, 255] {
        for index in 0..9 {
            let mut cells = [2; 9];
            cells[index..].fill(bad);
            let refusal = of_neither(10, index as u64);
            // Before 11 and before 14.
            assert_eq!(multiplicity(3, 2, &cells, 0), Err(refusal));
            assert_eq!(multiplicity(3, 2, &cells, 1), Err(refusal));
            assert_eq!(marking(3, 2, &cells, &mut []), Err(refusal));
            let mut marks = [7; 4];
            assert_eq!(marking(3, 2, &cells, &mut marks), Err(refusal));
            assert_eq!(marks, [7; 4]);
        }
    }
}

#[test]
fn refusal_11_groups() {
    for (m, n) in [(2, 2), (2, 12), (3, 7), (9, 3)] {
        let cells = vec![1; (m as usize).pow(n as u32)];
        for group in [
            0,
            1 << n,
            (1 << n) + 1,
            1 << 32,
            (1 << 32) + 1,
            1 << 63,
            u64::MAX,
        ] {
            assert_eq!(multiplicity(m, n, &cells, group), Err(of_neither(11, 0)));
        }
        for group in [1, (1 << n) - 1] {
            assert_eq!(multiplicity(m, n, &cells, group), Ok(1));
        }
    }
}

/// "The true number of classes, however large."
#[test]
fn multiplicity_counts_all_classes() {
    for m in 2..=9 {
        for count in 1..=m * m {
            // The first input's group has at most m classes; the two together
            // have as many as there are inks.
            let inks = inks_of(m, 2, |x| (x[0] * m + x[1]).min(count - 1) % m);
            let distinct = count.min(m) as u64;
            assert_eq!(
                multiplicity(m as u64, 2, &inks, 3),
                Ok(distinct),
                "{m} {count}"
            );
        }
        // Three inputs; each pair of levels of the first two has a different column.
        let inks = inks_of(m, 3, |x| if x[2] == 0 { x[0] } else { x[1] });
        assert_eq!(multiplicity(m as u64, 3, &inks, 3), Ok((m * m) as u64));
        assert_eq!(multiplicity(m as u64, 3, &inks, 4), Ok(2));
    }
}

#[test]
fn multiplicity_of_groups_at_every_size() {
    let seed = 131;
    println!("seed {seed}");
    let mut generator = Generator::new(seed);
    let (mut few, mut many, mut most) = (0, 0, 0);
    for (m, n) in allowed_sizes() {
        for kind in TableKind::ALL {
            let inks = generator.table(m as usize, n as usize, kind).inks;
            for _ in 0..6 {
                let group = 1 + generator.rng.below((1 << n) - 1);
                let count = count_of_columns(m as usize, n as usize, &inks, group) as u64;
                let answer = multiplicity(m, n, &inks, group as u64);
                assert_eq!(answer, Ok(count), "{m} {n} {kind:?} {group}");
                few += usize::from(count <= m);
                many += usize::from(count > m + 1);
                most = most.max(count);
            }
        }
    }
    println!("{few} groups with at most m classes, {many} with more than m + 1, at most {most}");
    assert!(few > 100 && many > 100 && most > 100);
}

/// Returns how many classes a group of some size can have: no more than it has
/// assignments, and no more than there are columns of inks.
fn most_classes(m: usize, n: usize, size: usize) -> usize {
    let column = m.pow((n - size) as u32);
    let columns = (0..column).try_fold(1, |count: usize, _| count.checked_mul(m));
    m.pow(size as u32).min(columns.unwrap_or(usize::MAX))
}

#[test]
fn the_most_classes_at_every_size() {
    let mut most = Vec::new();
    for (m, n) in allowed_sizes() {
        for size in 1..=n as usize {
            let bound = most_classes(m as usize, n as usize, size);
            let inks = most_classes_table(m as usize, n as usize, size).inks;
            let group = (1 << size) - 1;
            assert_eq!(multiplicity(m, n, &inks, group), Ok(bound as u64));
            most.push((bound, m, n, size));
        }
    }
    most.sort();
    most.reverse();
    // 625 is the most that any group of any sheet has.
    assert_eq!(most[..3], [(625, 5, 5, 4), (512, 8, 4, 3), (343, 7, 4, 3)]);
}
