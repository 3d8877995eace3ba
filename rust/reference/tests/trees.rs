//! 2 levels, 3 and 4 inputs: every table compared with every wiring of any of the inputs
//! and every gate.
//!
//! A table of n inputs is a number here: its bit p is the ink at index p, so that a
//! tree is filled and evaluated for all assignments at once. The library's groups
//! and marks are not used to decide what has a tree.

use crate::common::*;
use reference::marking;
use std::collections::HashSet;

/// A tree without digits over some inputs.
#[derive(Clone)]
enum Wiring {
    Leaf(usize),
    Node(Box<Wiring>, Box<Wiring>),
}

/// Returns every wiring over a set of inputs (as a sum of powers of 2), with left and right
/// distinguished.
fn wirings(inputs: usize) -> Vec<Wiring> {
    if inputs.count_ones() == 1 {
        return vec![Wiring::Leaf(inputs.trailing_zeros() as usize)];
    }
    let mut all = Vec::new();
    for left in (1..inputs).filter(|left| left & !inputs == 0) {
        for l in wirings(left) {
            for r in wirings(inputs & !left) {
                all.push(Wiring::Node(Box::new(l.clone()), Box::new(r)));
            }
        }
    }
    all
}

/// Returns the table that is an input's own level.
fn projection(input: usize, n: usize) -> u16 {
    let level = |p: usize| levels_of(p, 2, n)[input];
    (0..1 << n).fold(0, |table, p| table | (level(p) as u16) << p)
}

fn mask(n: usize) -> u16 {
    u16::MAX >> (16 - (1 << n))
}

/// Applies a gate to two tables; bit 2u + v of the gate is its digit at (u, v).
fn joined(gate: u16, left: u16, right: u16, n: usize) -> u16 {
    let mut table = 0;
    for (digit, here) in [!left & !right, !left & right, left & !right, left & right]
        .into_iter()
        .enumerate()
    {
        if gate >> digit & 1 == 1 {
            table |= here;
        }
    }
    table & mask(n)
}

/// Returns the tables of a wiring for every filling of its gates.
fn tables_of(wiring: &Wiring, n: usize) -> HashSet<u16> {
    match wiring {
        Wiring::Leaf(input) => HashSet::from([projection(*input, n)]),
        Wiring::Node(left, right) => {
            let (lefts, rights) = (tables_of(left, n), tables_of(right, n));
            let mut tables = HashSet::new();
            for &l in &lefts {
                for &r in &rights {
                    tables.extend((0..16).map(|gate| joined(gate, l, r, n)));
                }
            }
            tables
        }
    }
}

/// Returns for every set of inputs the tables that some tree over only them computes.
fn computable(n: usize) -> Vec<HashSet<u16>> {
    let mut by_inputs = vec![HashSet::new()];
    for inputs in 1..1 << n {
        let mut tables = HashSet::new();
        for wiring in wirings(inputs) {
            tables.extend(tables_of(&wiring, n));
        }
        by_inputs.push(tables);
    }
    by_inputs
}

/// Returns the classes of a set of inputs as a table, if there are at most two: at each
/// index, whether the assignment there is alike with the all-zero one.
fn class_table(table: u16, inputs: usize, n: usize) -> Option<u16> {
    // Input i is bit n - 1 - i of an index.
    let held = (0..n)
        .filter(|i| inputs >> i & 1 == 1)
        .fold(0, |held, i| held | 1 << (n - 1 - i));
    let ink = |p: usize| table >> p & 1;
    let points: Vec<usize> = (0..1 << n).collect();
    let alike = |p: usize, q: usize| {
        let mut rests = points.iter().filter(|&&rest| rest & held == 0);
        rests.all(|rest| ink(p & held | rest) == ink(q & held | rest))
    };
    let differing = points.iter().find(|&&p| !alike(p, 0));
    let Some(&second) = differing else {
        return Some(0);
    };
    let mut classes = 0;
    for &p in &points {
        if !alike(p, 0) {
            if !alike(p, second) {
                return None;
            }
            classes |= 1 << p;
        }
    }
    Some(classes)
}

/// Returns the place of refusal 16 from trees alone: a group of several members with at
/// most two classes has mark 1 if no tree over it computes its classes.
fn stuck_group(table: u16, n: usize, computable: &[HashSet<u16>]) -> Option<usize> {
    let several = |group: &usize| group.count_ones() >= 2;
    let mut groups: Vec<usize> = (1..1 << n).filter(several).collect();
    groups.sort_by_key(|group| (group.count_ones(), *group));
    groups.into_iter().find(|&group| {
        class_table(table, group, n).is_some_and(|classes| !computable[group].contains(&classes))
    })
}

/// Returns the inputs that a net sheet's gate lines refer to.
fn used_inputs(net: &[u8], names: &str) -> usize {
    let text = std::str::from_utf8(net).expect("ASCII");
    let gates = text.lines().skip(4);
    let references: Vec<&str> = gates.flat_map(|line| line.split(' ').take(2)).collect();
    let used = (0..)
        .zip(names.split(' '))
        .filter(|(_, name)| references.contains(name));
    used.map(|(input, _)| 1 << input).sum()
}

/// Compares making with the enumeration for one table; returns whether it was made. "A
/// table is refused for want of a tree exactly when none stands on those leaves",
/// which is when there is none on any leaves; and no tree has fewer gates.
fn assert_table(table: u16, n: usize, names: &str, computable: &[HashSet<u16>]) -> bool {
    let inks: Vec<u8> = (0..1 << n).map(|p| (table >> p & 1) as u8).collect();
    let sheet = table_sheet(2, names, &inks);
    let leaves = leaves(2, n, &inks);
    let several = (1..1 << n).filter(|inputs: &usize| inputs.count_ones() >= 2);
    let with_a_tree: Vec<usize> = several
        .filter(|&inputs| computable[inputs].contains(&table))
        .collect();
    let has_tree = !with_a_tree.is_empty();
    assert_eq!(has_tree, with_a_tree.contains(&leaves), "{table}");
    assert_eq!(has_tree, with_a_tree.contains(&((1 << n) - 1)), "{table}");
    match made(&sheet) {
        Ok(net) => {
            assert!(has_tree, "{table} was made and has no tree");
            assert_eq!(used_inputs(&net, names), leaves, "{table}");
            let fewest = with_a_tree
                .iter()
                .map(|inputs| inputs.count_ones() as usize - 1)
                .min();
            let gates = net.iter().filter(|&&byte| byte == b'\n').count() - 4;
            assert_eq!(Some(gates), fewest, "{table}");
            assert_eq!(table_written(&net), Ok(sheet), "{table}");
            assert_eq!(settled(&net), Ok(net), "{table}");
        }
        Err(refusal) => {
            assert!(!has_tree, "{table} was refused and has a tree");
            let place = stuck_group(table, n, computable).expect("a stuck group");
            assert_eq!(refusal, of_neither(16, place as u64), "{table}");
        }
    }
    has_tree
}

fn assert_every_table(n: usize, names: &str) -> usize {
    let computable = computable(n);
    let tables = 0..=mask(n);
    tables
        .filter(|&table| assert_table(table, n, names, &computable))
        .count()
}

#[test]
fn the_wirings_are_all_there() {
    // Ordered binary trees over n labelled leaves: (2n - 2)! / (n - 1)!.
    assert_eq!(wirings(0b111).len(), 12);
    assert_eq!(wirings(0b1111).len(), 120);
}

#[test]
fn three_inputs_every_table() {
    assert_eq!(assert_every_table(3, "a b c"), 152);
}

#[test]
fn four_inputs_every_table() {
    assert_eq!(assert_every_table(4, "a b c d"), 2_680);
}

/// "Place: the group of fewest members, then lowest number, with mark 1": two of
/// four has no tree and the lower number, two of three has none and fewer
/// members.
#[test]
fn the_place_of_16_is_the_smallest_group() {
    let at_least_two = |levels: &[usize]| usize::from(levels.iter().sum::<usize>() >= 2);
    let rule = |x: &[usize]| at_least_two(&x[..4]) ^ at_least_two(&x[4..]);
    let sheet = rule_sheet(2, "a b c d e f g", rule);
    assert_eq!(made(&sheet), Err(of_neither(16, 0b111_0000)));
    let mut marks = [9; 32];
    assert_eq!(marking(2, 7, &inks_of(2, 7, rule), &mut marks), Ok(1));
    let marks = unpacked(&marks);
    let stuck: Vec<usize> = (0..128).filter(|&group| marks[group] == 1).collect();
    assert_eq!(stuck, [0b000_1111, 0b111_0000, 0b111_1111]);
}
