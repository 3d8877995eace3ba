//! The fewest levels that a tree would need, compared with trees: every wiring of a
//! table's inputs, and every filling of its gates. The library's groups and
//! marks are not used to find them.

use crate::common::*;
use reference::generate::{Generator, TableKind};
use reference::marks::fewest_levels;
use reference::net::Table;
use std::collections::{HashMap, HashSet};

fn names(n: usize) -> &'static str {
    &"a b c d e f g h i j k l"[..2 * n - 1]
}

fn fewest(m: usize, n: usize, inks: &[u8]) -> usize {
    let inks = inks.to_vec();
    fewest_levels(&Table { m, n, inks })
}

/// Returns every part of a group that contains its first-listed input, except the group
/// itself.
fn parts(group: usize) -> impl Iterator<Item = usize> {
    let first = group & group.wrapping_neg();
    (first..group).filter(move |part| part & !group == 0 && part & first != 0)
}

// ---- every wiring

/// Returns every wiring over a group, as the groups of its gates.
fn wirings(group: usize) -> Vec<Vec<usize>> {
    if group.is_power_of_two() {
        return vec![vec![]];
    }
    let mut all = Vec::new();
    for a in parts(group) {
        for left in wirings(a) {
            for right in wirings(group - a) {
                all.push([&left[..], &right, &[group]].concat());
            }
        }
    }
    all
}

/// Returns the least k for which some wiring has no gate whose group has more than k
/// classes.
fn by_wirings(m: usize, n: usize, inks: &[u8], wirings: &[Vec<usize>]) -> usize {
    let mut classes = vec![0; 1 << n];
    for &group in wirings.iter().flatten() {
        if classes[group] == 0 {
            classes[group] = count_of_columns(m, n, inks, group);
        }
    }
    let fits = |wiring: &[usize], k| wiring.iter().all(|&group| classes[group] <= k);
    (1..)
        .find(|&k| wirings.iter().any(|wiring| fits(wiring, k)))
        .expect("some k")
}

fn binary_inks(n: usize, table: usize) -> Vec<u8> {
    (0..1 << n).map(|p| (table >> p & 1) as u8).collect()
}

#[test]
fn every_table_of_two_levels_against_every_wiring() {
    // (2n - 3)!! wirings, ignoring sides
    for (n, count) in [(2, 1), (3, 3), (4, 15)] {
        let wirings = wirings((1 << n) - 1);
        assert_eq!(wirings.len(), count);
        let mut of_answers = [0; 5];
        for table in 0..1 << (1 << n) {
            let inks = binary_inks(n, table);
            let answer = fewest(2, n, &inks);
            assert_eq!(answer, by_wirings(2, n, &inks, &wirings), "{inks:?}");
            of_answers[answer] += 1;
        }
        println!("{n} inputs: tables by their answer {of_answers:?}");
        // as many have a tree as trees.rs finds by filling gates with levels
        let with_tree: usize = of_answers[..=2].iter().sum();
        assert_eq!(with_tree, [16, 152, 2_680][n - 2]);
    }
}

#[test]
fn tables_of_more_levels_against_every_wiring() {
    let seed = 256;
    println!("seed {seed}");
    let mut generator = Generator::new(seed);
    for (m, n) in [(3, 3), (4, 3), (9, 3), (3, 4), (2, 5), (2, 6), (3, 5)] {
        let wirings = wirings((1 << n) - 1);
        for kind in TableKind::ALL {
            for _ in 0..4 {
                let inks = generator.table(m, n, kind).inks;
                let by_wirings = by_wirings(m, n, &inks, &wirings);
                assert_eq!(fewest(m, n, &inks), by_wirings, "{m} {n} {inks:?}");
            }
        }
    }
}

// ---- every filling

/// What a wire carries at the index of each cell.
type Carried = Vec<usize>;

/// Numbers the pairs that two wires carry, in order of first appearance:
/// returns the number at each index, and how many there are.
fn pairs(left: &Carried, right: &Carried) -> (Vec<usize>, usize) {
    let mut numbers = HashMap::new();
    let number = |pair| {
        let next = numbers.len();
        *numbers.entry(pair).or_insert(next)
    };
    let at = left.iter().zip(right).map(number).collect();
    (at, numbers.len())
}

/// Returns every way to give this many pairs one of k values each. The next gate can
/// undo a renaming of the values, so they are named in order of appearance.
fn gates(pairs: usize, k: usize) -> Vec<Vec<usize>> {
    let mut all = vec![vec![]];
    for _ in 0..pairs {
        let mut longer = Vec::new();
        for gate in &all {
            let used = gate.iter().max().map_or(0, |most| most + 1);
            for value in 0..k.min(used + 1) {
                longer.push([&gate[..], &[value]].concat());
            }
        }
        all = longer;
    }
    all
}

/// Returns for every group except the whole one all that a wire above it can carry if
/// a gate's wire has k values.
fn all_carried(m: usize, n: usize, k: usize) -> Vec<Vec<Carried>> {
    let mut by_group: Vec<Vec<Carried>> = vec![vec![]];
    for group in 1..(1usize << n) - 1 {
        let mut carried = HashSet::new();
        if group.is_power_of_two() {
            let input = group.trailing_zeros() as usize;
            let level = |index| levels_of(index, m, n)[input];
            carried.insert((0..m.pow(n as u32)).map(level).collect());
        }
        for a in parts(group) {
            for left in &by_group[a] {
                for right in &by_group[group - a] {
                    let (at, count) = pairs(left, right);
                    let filled =
                        |gate: Vec<usize>| at.iter().map(|&pair| gate[pair]).collect::<Carried>();
                    carried.extend(gates(count, k).into_iter().map(filled));
                }
            }
        }
        by_group.push(carried.into_iter().collect());
    }
    by_group
}

/// Returns whether some last gate computes the inks from what two wires carry: its digits
/// are forced, or contradict each other.
fn last_gate(left: &Carried, right: &Carried, inks: &[u8]) -> bool {
    let width = 1 + right.iter().max().expect("some cells");
    let height = 1 + left.iter().max().expect("some cells");
    let mut digits = vec![None; width * height];
    (0..inks.len()).all(|index| {
        let digit = &mut digits[left[index] * width + right[index]];
        *digit.get_or_insert(inks[index]) == inks[index]
    })
}

/// Returns whether some filling of some tree computes the inks.
fn computes(carried: &[Vec<Carried>], inks: &[u8]) -> bool {
    let whole = carried.len();
    parts(whole).any(|a| {
        carried[a].iter().any(|left| {
            carried[whole - a]
                .iter()
                .any(|right| last_gate(left, right, inks))
        })
    })
}

/// Compares the answer with fillings whose wires below the last gate carry 1, 2,
/// ... values. The last gate gives the ink, so the answer is the larger of two
/// numbers: the fewest values below the last gate, and the number of inks.
fn assert_fillings(m: usize, n: usize, tables: &[Vec<u8>], most: usize) {
    let by_k: Vec<_> = (0..=most).map(|k| all_carried(m, n, k)).collect();
    let mut of_answers = vec![0; most + 1];
    for inks in tables {
        let below = (1..=most)
            .find(|&k| computes(&by_k[k], inks))
            .expect("with the most classes of any group every table has a tree");
        let distinct = inks.iter().collect::<HashSet<_>>().len();
        let answer = fewest(m, n, inks);
        assert_eq!(answer, below.max(distinct), "{inks:?}");
        // if there is no tree yet, the inks are too few to matter
        assert!(answer == below || answer <= m);
        of_answers[answer] += 1;
    }
    println!("{m} {n}: tables by their answer {of_answers:?}");
}

#[test]
fn two_levels_against_every_filling() {
    let every: Vec<Vec<u8>> = (0..256).map(|table| binary_inks(3, table)).collect();
    assert_fillings(2, 3, &every, 4);
    let some: Vec<Vec<u8>> = (0..1 << 16)
        .step_by(61)
        .map(|table| binary_inks(4, table))
        .collect();
    assert_fillings(2, 4, &some, 4);
}

#[test]
fn three_levels_against_every_filling() {
    let seed = 243;
    println!("seed {seed}");
    let mut generator = Generator::new(seed);
    let mut tables = Vec::new();
    for _ in 0..12 {
        for kind in TableKind::ALL {
            tables.push(generator.table(3, 3, kind).inks);
        }
        // few columns for two of the three inputs, so that every answer occurs
        let few = 1 + generator.rng.below(9);
        let columns: Vec<u8> = (0..3 * few).map(|_| generator.rng.level(3)).collect();
        let of_pair: Vec<usize> = (0..9).map(|_| generator.rng.below(few)).collect();
        tables.push(inks_of(3, 3, |x| {
            usize::from(columns[3 * of_pair[3 * x[0] + x[1]] + x[2]])
        }));
    }
    assert_fillings(3, 3, &tables, 9);
}

// ---- the use of the answer

/// Returns the same rule with more levels: an input above the old levels acts as the
/// last of them.
fn widened(m: usize, n: usize, inks: &[u8], k: usize) -> Vec<u8> {
    inks_of(k, n, |x| {
        let index = x
            .iter()
            .fold(0, |index, &level| index * m + level.min(m - 1));
        usize::from(inks[index])
    })
}

/// With k levels a widened table is made exactly if k is enough.
#[test]
fn a_widened_table_is_made_with_so_many_levels() {
    let seed = 9;
    println!("seed {seed}");
    let mut generator = Generator::new(seed);
    let (mut made_wider, mut refused) = (0, 0);
    for (m, n) in [(2, 3), (2, 4), (3, 3), (4, 3), (5, 3), (2, 5), (3, 4)] {
        for round in 0..60 {
            let kind = TableKind::ALL[round % TableKind::ALL.len()];
            let inks = generator.table(m, n, kind).inks;
            let answer = fewest(m, n, &inks);
            for k in m..=9 {
                if k.pow(n as u32) > 4_096 {
                    break;
                }
                let sheet = table_sheet(k, names(n), &widened(m, n, &inks, k));
                let is_made = made(&sheet).is_ok();
                assert_eq!(is_made, answer <= k, "{m} {n} {k} {inks:?}");
                made_wider += usize::from(m < answer && answer <= k);
                refused += usize::from(k < answer);
            }
        }
    }
    println!("{made_wider} made with more levels, {refused} refused");
    assert!(made_wider > 50 && refused > 50);
}

#[test]
fn answers_of_the_cases() {
    // Case 5 has no tree with two levels; case 6 is its rule with three.
    let two_of_three = |x: &[usize]| usize::from(x.iter().filter(|&&level| level > 0).count() >= 2);
    assert_eq!(fewest(2, 3, &inks_of(2, 3, two_of_three)), 3);
    assert_eq!(fewest(3, 3, &inks_of(3, 3, two_of_three)), 3);
    // At least five of eleven: the ones among four inputs are 0 to 4, and so are
    // those among another four; of the eight together it matters whether they
    // are at most 1, or 2, 3, 4, or at least 5. Five levels suffice, and any wiring
    // has a wire that needs them.
    let five_of_eleven = |x: &[usize]| usize::from(x.iter().sum::<usize>() >= 5);
    assert_eq!(fewest(2, 11, &inks_of(2, 11, five_of_eleven)), 5);
    assert_eq!(
        fewest(2, 11, &inks_of(2, 11, |x| x.iter().sum::<usize>() % 2)),
        2
    );
    assert_eq!(fewest(2, 11, &inks_of(2, 11, |_| 1)), 1);
}

#[test]
fn of_a_sheet() {
    let majority = table_sheet(2, "a b c", &[0, 0, 0, 1, 0, 1, 1, 1]);
    assert_eq!(reference::fewest_levels(&majority), Ok(3));
    let of_groups = vec![0, 2, 2, 3, 2, 3, 3, 2];
    assert_eq!(reference::multiplicities(&majority), Ok(of_groups));
    let damaged = b"levels inputs\n1 2\n";
    assert_eq!(reference::fewest_levels(damaged), Err(of_table(2, 14)));
    assert_eq!(reference::multiplicities(damaged), Err(of_table(2, 14)));
}
