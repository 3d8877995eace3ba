//! The family of a table's trees, compared with every wiring of its leaves: at small
//! sizes each one is tried, and which of them compute the table is decided without
//! the library's groups and marks. "Every wiring that computes the table turns up
//! under just one number", and "a family numbers the wirings on just these" leaves.

use crate::common::wirings::*;
use crate::common::*;
use reference::damage::byte_damages;
use reference::generate::{Generator, TableKind};
use reference::{allowed_sizes, family_count, family_tree, make};
use std::cmp::Ordering;
use std::collections::{BTreeMap, HashSet};

/// Returns every wiring over a group, ignoring sides and gate numbers: each further input
/// is attached at every place of every wiring of those before it. It is on the
/// right of what it is attached to, so the first-listed input of a gate's group is
/// always on the left.
fn all_wirings(group: usize) -> Vec<Wiring> {
    let mut inputs = (0..usize::BITS as usize).filter(|input| group >> input & 1 == 1);
    let mut all = vec![Wiring::Leaf(inputs.next().expect("an input"))];
    for input in inputs {
        all = all
            .iter()
            .flat_map(|wiring| hung_onto(wiring, input))
            .collect();
    }
    all.sort_by(order);
    all
}

/// Returns the group of n inputs.
fn whole(n: usize) -> usize {
    (1 << n) - 1
}

/// Returns the wirings with the input joined to the whole, or attached inside one of the two parts.
fn hung_onto(wiring: &Wiring, input: usize) -> Vec<Wiring> {
    let mut all = vec![Wiring::node(wiring.clone(), Wiring::Leaf(input))];
    if let Wiring::Node(left, right) = wiring {
        let lefts = hung_onto(left, input).into_iter();
        all.extend(lefts.map(|left| Wiring::node(left, (**right).clone())));
        let rights = hung_onto(right, input).into_iter();
        all.extend(rights.map(|right| Wiring::node((**left).clone(), right)));
    }
    all
}

/// "The order is by A's number, then A's tree, then B's."
fn order(one: &Wiring, other: &Wiring) -> Ordering {
    match (one, other) {
        (Wiring::Node(a, b), Wiring::Node(c, d)) => {
            let by_number = a.group().cmp(&c.group());
            by_number
                .then_with(|| order(a, c))
                .then_with(|| order(b, d))
        }
        _ => Ordering::Equal,
    }
}

#[test]
fn the_wirings_are_all_there_once() {
    // (2n - 3)!!
    for (n, count) in (2..).zip([1, 3, 15, 105, 945, 10_395]) {
        let all = all_wirings(whole(n));
        assert_eq!(all.len(), count);
        assert_eq!(all.iter().collect::<HashSet<_>>().len(), count);
        // the order distinguishes any two of them
        assert!(all
            .windows(2)
            .all(|pair| order(&pair[0], &pair[1]) == Ordering::Less));
        for joint in all.iter().flat_map(Wiring::joints) {
            assert_eq!(
                joint.left.trailing_zeros(),
                joint.group.trailing_zeros(),
                "the first-listed input is on the left"
            );
        }
    }
}

/// Compares a table's family with the wirings that compute it, in their order;
/// checks one tree in every `step`. Returns how many there are.
fn assert_family(m: usize, n: usize, inks: &[u8], computing: &[&Wiring], step: usize) -> usize {
    let sheet = table_sheet(m, names(n), inks);
    let count = computing.len() as u64;
    assert_eq!(counted(&sheet), Ok(count));
    for (number, &wiring) in (0..).zip(computing).step_by(step) {
        let net = numbered(&sheet, number).expect("a number below the count");
        assert_eq!(&Wiring::of_sheet(&net), wiring);
        assert_eq!(table_written(&net), Ok(sheet.clone()));
    }
    for number in [count, count + 1, 1 << 32, u64::MAX] {
        assert_eq!(numbered(&sheet, number), Err(of_neither(17, number)));
    }
    match made(&sheet) {
        Ok(settled) => assert_eq!(numbered(&sheet, 0), Ok(settled)),
        Err(refusal) => assert_eq!((refusal.number, count), (16, 0)),
    }
    computing.len()
}

// ---- two levels: every filling of every wiring

/// Returns for every table that has a tree on any leaves the wirings on its own leaves
/// that compute it, in their order.
fn by_filling(n: usize, wirings: &[Wiring]) -> BTreeMap<Bits, Vec<&Wiring>> {
    let mut computing: BTreeMap<Bits, Vec<&Wiring>> = BTreeMap::new();
    for wiring in wirings {
        for table in tables_of(wiring, n) {
            let these = computing.entry(table).or_default();
            if wiring.group() == leaves(2, n, &inks_of_bits(n, table)) {
                these.push(wiring);
            }
        }
    }
    computing
}

/// Returns every wiring of any of n inputs.
fn wirings_of_any(n: usize) -> Vec<Wiring> {
    all_leaves(n).flat_map(all_wirings).collect()
}

/// Checks one in every `step` of the tables that have a tree: returns how many there are,
/// and the most trees of any of them.
fn assert_trees(n: usize, step: usize) -> (usize, usize) {
    let wirings = wirings_of_any(n);
    let computing = by_filling(n, &wirings);
    let held = computing.iter().step_by(step);
    let trees = held.map(|(&table, computing)| {
        assert!(!computing.is_empty(), "one stands on the leaves");
        let inks = inks_of_bits(n, table);
        assert_family(2, n, &inks, computing, 1)
    });
    (computing.len(), trees.max().expect("some table has a tree"))
}

#[test]
fn tables_of_two_levels_against_every_filling() {
    // as many have a tree as trees.rs finds
    assert_eq!(assert_trees(2, 1), (16, 1));
    assert_eq!(assert_trees(3, 1), (152, 3));
    assert_eq!(assert_trees(4, 1), (2_680, 15));
    let (tables, most) = assert_trees(5, 23);
    assert!(tables == 68_968 && most == 105);
}

/// "A table with no tree gets count 0, never 16."
#[test]
fn a_table_without_a_tree_has_no_family() {
    for n in [3, 4] {
        let wirings = wirings_of_any(n);
        let computing = by_filling(n, &wirings);
        let without = (0..=mask(n)).filter(|table| !computing.contains_key(table));
        for table in without {
            assert_family(2, n, &inks_of_bits(n, table), &[], 1);
        }
    }
}

// ---- any levels: a wiring computes a table if its wires can carry it

#[test]
fn tables_of_more_levels_against_every_wiring() {
    let seed = 1_945;
    println!("seed {seed}");
    let mut generator = Generator::new(seed);
    let (mut trees, mut several) = (0, 0);
    for (m, n, rounds, step) in [
        (3, 3, 100, 1),
        (9, 3, 10, 1),
        (2, 4, 50, 1),
        (3, 4, 50, 1),
        (4, 4, 20, 1),
        (6, 4, 4, 1),
        (2, 5, 30, 1),
        (3, 5, 10, 1),
        (4, 5, 2, 9),
        // of three inputs each, so that both parts of a split may have several trees
        (2, 6, 2, 1),
        (3, 6, 2, 41),
        (2, 7, 2, 301),
    ] {
        for kind in TableKind::ALL {
            for _ in 0..rounds {
                let inks = generator.table(m, n, kind).inks;
                let wirings = all_wirings(leaves(m, n, &inks));
                let carried = carried(m, n, &inks);
                let computes = |wiring: &&Wiring| {
                    let joints = wiring.joints();
                    joints.iter().all(|joint| carried[joint.group])
                };
                let computing: Vec<&Wiring> = wirings.iter().filter(computes).collect();
                let count = assert_family(m, n, &inks, &computing, step);
                trees += count;
                several += usize::from(1 < count && count < wirings.len());
            }
        }
    }
    println!("{trees} trees; {several} tables have several trees and not every one");
    assert!(several > 100);
}

// ---- by hand, and at every size

fn sum_sheet(n: usize) -> Vec<u8> {
    rule_sheet(2, names(n), |x| x.iter().sum::<usize>() % 2)
}

#[test]
fn the_families_of_sums() {
    let gates = [
        "b c 0110/a 1 0110",
        "a b 0110/1 c 0110",
        "a c 0110/1 b 0110",
    ];
    assert_eq!(counted(&sum_sheet(3)), Ok(3));
    for (number, gates) in (0..).zip(gates) {
        let net = net_sheet(2, names(3), gates);
        assert_eq!(numbered(&sum_sheet(3), number), Ok(net));
    }
    // A is a; a b; a c; a b c; a d; a b d; a c d
    let wirings = [
        "c d/b 1/a 2",
        "b c/1 d/a 2",
        "b d/1 c/a 2",
        "a b/c d/1 2",
        "a c/b d/1 2",
        "b c/a 1/2 d",
        "a b/1 c/2 d",
        "a c/1 b/2 d",
        "a d/b c/1 2",
        "b d/a 1/2 c",
        "a b/1 d/2 c",
        "a d/1 b/2 c",
        "c d/a 1/2 b",
        "a c/1 d/2 b",
        "a d/1 c/2 b",
    ];
    assert_eq!(counted(&sum_sheet(4)), Ok(15));
    for (number, wiring) in (0..).zip(wirings) {
        let gates = wiring.replace('/', " 0110/") + " 0110";
        let net = net_sheet(2, names(4), &gates);
        assert_eq!(numbered(&sum_sheet(4), number), Ok(net), "{number}");
    }
    assert_eq!(numbered(&sum_sheet(4), 15), Err(of_neither(17, 15)));
}

/// Every wiring computes a sum: 1, 3, 15, .. trees, and the last of them joins the
/// last-listed input to the first, then the one before it, and so on.
#[test]
fn sums_have_every_wiring() {
    let mut count = 1;
    for n in 2..=12 {
        count *= 2 * n as u64 - 3;
        let sheet = sum_sheet(n);
        assert_eq!(counted(&sheet), Ok(count));
        assert_eq!(numbered(&sheet, 0), made(&sheet));
        assert_eq!(numbered(&sheet, count), Err(of_neither(17, count)));
        let letters: Vec<&str> = names(n).split(' ').collect();
        let mut gates = format!("a {} 0110", letters[n - 1]);
        for (gate, letter) in letters[1..n - 1].iter().rev().enumerate() {
            gates += &format!("/{} {letter} 0110", gate + 1);
        }
        let last = net_sheet(2, names(n), &gates);
        assert_eq!(numbered(&sheet, count - 1), Ok(last));
    }
    assert_eq!(count, 13_749_310_575);
}

/// The sum modulo m of all inputs, at every size: 1, 3, 15, ..
#[test]
fn sums_of_every_size() {
    let of_all_wirings = [1, 3, 15, 105, 945, 10_395, 135_135, 2_027_025];
    let of_all_wirings = [
        &of_all_wirings[..],
        &[34_459_425, 654_729_075, 13_749_310_575],
    ]
    .concat();
    for (m, n) in allowed_sizes() {
        let (m, n) = (m as usize, n as usize);
        let sheet = rule_sheet(m, names(n), |x| x.iter().sum::<usize>() % m);
        assert_eq!(counted(&sheet), Ok(of_all_wirings[n - 2]));
    }
}

/// One wiring on two leaves, however many inputs there are.
#[test]
fn constants_and_single_inputs_have_one_wiring() {
    for (m, n) in allowed_sizes() {
        let (m, n) = (m as usize, n as usize);
        let constant = rule_sheet(m, names(n), |_| 1);
        let last = rule_sheet(m, names(n), |x| x[n - 1]);
        for (sheet, other) in [
            (constant, "b"),
            (last, names(n).split(' ').next_back().expect("a name")),
        ] {
            assert_eq!(counted(&sheet), Ok(1));
            assert_eq!(numbered(&sheet, 0), made(&sheet));
            let wiring = format!("left right table\na {other} ");
            let net = String::from_utf8(made(&sheet).expect("a tree")).expect("ASCII");
            assert!(net.contains(&wiring) && net.lines().count() == 5);
            assert_eq!(numbered(&sheet, 1), Err(of_neither(17, 1)));
        }
    }
}

/// Least and greatest alternately can be wired in only one way, if each gate is of
/// a different kind from the next.
#[test]
fn a_family_of_one() {
    for n in 3..=11 {
        let chain = rule_sheet(2, names(n), |x| {
            (1..n).fold(x[0], |value, k| match k % 2 {
                0 => value.max(x[k]),
                _ => value.min(x[k]),
            })
        });
        assert_eq!(counted(&chain), Ok(1));
        assert_eq!(numbered(&chain, 1), Err(of_neither(17, 1)));
    }
}

/// Trees of every size, picked at random from the family of a random net: all
/// compute the table, number 0 is the settled net, and all settle to it. The
/// random net's own wiring is among them.
#[test]
fn trees_of_every_size() {
    let seed = 1_946;
    println!("seed {seed}");
    let mut generator = Generator::new(seed);
    for (m, n) in allowed_sizes() {
        for round in 0..4 {
            let net = generator.net_sheet(m as usize, n as usize);
            let table = table_written(&net).expect("a good net sheet");
            let count = counted(&table).expect("a good table sheet");
            assert!(count > 0);
            let number = match round {
                0 => 0,
                1 => count - 1,
                _ => generator.rng.number() % count,
            };
            let tree = numbered(&table, number).expect("a number below the count");
            assert_eq!(table_written(&tree), Ok(table.clone()));
            assert_eq!(settled(&tree), settled(&net));
            assert_eq!(numbered(&table, 0), settled(&net));
        }
    }
}

// ---- refusals

/// "Leaves what 16 leaves": making and both calls of a family on equal buffers refuse
/// with the same number and place, except for 16, and leave the same
/// bytes.
fn assert_refused_as_by_making(sheet: &[u8], number: u64, out: usize) {
    let lent = || ([9u8; CELLS], [9u8; MARKS], [9u8; NET_SHEET]);
    let (mut cells_due, mut marks_due, mut out_due) = lent();
    let due = make(sheet, &mut cells_due, &mut marks_due, &mut out_due[..out]);
    let (mut cells, mut marks, _) = lent();
    let count = family_count(sheet, &mut cells, &mut marks);
    assert!(cells == cells_due && marks == marks_due);
    let (mut cells, mut marks, mut output) = lent();
    let tree = family_tree(sheet, number, &mut cells, &mut marks, &mut output[..out]);
    assert!(cells == cells_due && marks == marks_due);
    match (count, due) {
        (Err(refusal), due) => {
            assert!(refusal.number < 15 || refusal.number == 27);
            assert_eq!((tree, due), (Err(refusal), Err(refusal)));
        }
        (Ok(count), _) if number >= count => {
            assert_eq!(tree, Err(of_neither(17, number)));
            assert!(count > 0 || due.expect_err("no tree").number == 16);
            assert_eq!(output, [9; NET_SHEET]);
        }
        // all net sheets of one header on the same leaves are equally long
        (Ok(_), due) => {
            assert_eq!(tree, due);
            assert!(due.is_ok() || output == [9; NET_SHEET]);
        }
    }
}

#[test]
fn sheets_are_refused_as_by_making() {
    let seed = 1_947;
    println!("seed {seed}");
    let mut generator = Generator::new(seed);
    for _ in 0..100 {
        let (m, n) = generator.size();
        let kind = *generator.rng.pick(&TableKind::ALL);
        let table = generator.table_sheet(m, n, kind);
        let damaged = generator.damaged(&table);
        let length = *generator.rng.pick(&[0, 60, 150, NET_SHEET]);
        for number in [0, 1, u64::MAX] {
            assert_refused_as_by_making(&table, number, length);
            assert_refused_as_by_making(&damaged, number, length);
        }
        assert_refused_as_by_making(&generator.net_sheet(m, n), 0, length);
    }
    for kind in [TableKind::Random, TableKind::Sum] {
        for sheet in byte_damages(&generator.table_sheet(2, 3, kind)) {
            assert_refused_as_by_making(&sheet, 2, NET_SHEET);
        }
    }
}
