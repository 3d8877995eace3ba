//! 3 levels, 3 and 4 inputs: samples compared with searches that do not use marks.

use crate::common::*;
use reference::generate::Generator;
use reference::rng::Rng;
use reference::{marking, multiplicity};

const M: usize = 3;

/// A function of some wires, each with its own number of values, the last wire
/// fastest.
#[derive(Clone, Debug)]
struct Function {
    radices: Vec<usize>,
    values: Vec<u8>,
}

impl Function {
    fn of_table(n: usize, inks: &[u8]) -> Function {
        Function {
            radices: vec![M; n],
            values: inks.to_vec(),
        }
    }

    /// Returns the value when wire w has the value `at(w)`.
    fn value(&self, at: impl Fn(usize) -> usize) -> u8 {
        let mut index = 0;
        for (wire, radix) in self.radices.iter().enumerate() {
            index = index * radix + at(wire);
        }
        self.values[index]
    }

    /// Returns the values with the wires of `slow` counted outside and the others
    /// inside: one row for each assignment of `slow`.
    fn rows(&self, slow: &[usize]) -> Vec<Vec<u8>> {
        let fast: Vec<usize> = (0..self.radices.len())
            .filter(|wire| !slow.contains(wire))
            .collect();
        let mut rows = Vec::new();
        for s in points(&slow.iter().map(|&w| self.radices[w]).collect::<Vec<_>>()) {
            let mut row = Vec::new();
            for f in points(&fast.iter().map(|&w| self.radices[w]).collect::<Vec<_>>()) {
                row.push(self.value(|wire| {
                    let in_slow = slow.iter().position(|&w| w == wire);
                    let in_fast = fast.iter().position(|&w| w == wire);
                    in_slow.map_or_else(|| f[in_fast.expect("a wire")], |place| s[place])
                }));
            }
            rows.push(row);
        }
        rows
    }

    /// Replaces the wires i and j by one new wire, the slowest, with one value
    /// for each different row; nothing if there are more than m of those.
    fn joined(&self, i: usize, j: usize) -> Option<Function> {
        let rows = self.rows(&[i, j]);
        let mut distinct: Vec<Vec<u8>> = Vec::new();
        for row in rows {
            if !distinct.contains(&row) {
                distinct.push(row);
            }
        }
        if distinct.len() > M {
            return None;
        }
        let rest = (0..self.radices.len()).filter(|&wire| wire != i && wire != j);
        let mut radices = vec![distinct.len()];
        radices.extend(rest.map(|wire| self.radices[wire]));
        let values = distinct.concat();
        Some(Function { radices, values })
    }

    /// Butler's second algorithm, from the inputs to the output, over every pair
    /// at every step: joins two wires by a gate and continues with what is left.
    fn has_tree(&self) -> bool {
        let wires = self.radices.len();
        if wires <= 2 {
            return true;
        }
        let pairs = (0..wires).flat_map(|i| (i + 1..wires).map(move |j| (i, j)));
        let mut joined = pairs.filter_map(|(i, j)| self.joined(i, j));
        joined.any(|function| function.has_tree())
    }

    /// Returns the classes of some wires, as a function of only these.
    fn classes(&self, wires: &[usize]) -> (Function, usize) {
        let rows = self.rows(wires);
        let mut distinct: Vec<&Vec<u8>> = Vec::new();
        let mut values = Vec::new();
        for row in &rows {
            let class = distinct.iter().position(|other| *other == row);
            values.push(class.unwrap_or(distinct.len()) as u8);
            if class.is_none() {
                distinct.push(row);
            }
        }
        let radices = wires.iter().map(|&wire| self.radices[wire]).collect();
        (Function { radices, values }, distinct.len())
    }
}

/// Returns every point of the given radices, the last fastest.
fn points(radices: &[usize]) -> Vec<Vec<usize>> {
    let mut points = vec![Vec::new()];
    for &radix in radices {
        points = points
            .iter()
            .flat_map(|front| (0..radix).map(move |level| [&front[..], &[level]].concat()))
            .collect();
    }
    points
}

fn group_members(group: usize, n: usize) -> Vec<usize> {
    (0..n).filter(|input| group & (1 << input) != 0).collect()
}

/// Returns a group's mark, found by trees: 2 if some tree over its members computes
/// its classes.
fn mark_by_search(function: &Function, group: usize) -> u8 {
    let members = group_members(group, function.radices.len());
    if members.is_empty() {
        return 0;
    }
    let (classes, count) = function.classes(&members);
    match (count <= M, classes.has_tree()) {
        (false, _) => 0,
        (true, true) => 2,
        (true, false) => 1,
    }
}

/// Compares marking and making with the search; returns whether the table has a tree.
fn assert_table(n: usize, names: &str, inks: &[u8]) -> bool {
    let function = Function::of_table(n, inks);
    let expected: Vec<u8> = (0..1 << n)
        .map(|group| mark_by_search(&function, group))
        .collect();
    let mut marks = vec![9; (1 << n) / 4];
    marking(M as u64, n as u64, inks, &mut marks).expect("good cells");
    assert_eq!(unpacked(&marks), expected, "{inks:?}");
    let sheet = table_sheet(M, names, inks);
    let result = made(&sheet);
    let has_tree = function.has_tree();
    if has_tree {
        let net = result.expect("a table with a tree is made");
        assert_eq!(table_written(&net), Ok(sheet));
        assert_eq!(settled(&net), Ok(net));
    } else {
        let mut stuck: Vec<usize> = (0..1 << n).filter(|&group| expected[group] == 1).collect();
        stuck.sort_by_key(|group| (group.count_ones(), *group));
        assert_eq!(result, Err(of_neither(16, stuck[0] as u64)), "{inks:?}");
    }
    has_tree
}

/// Returns a rule that distinguishes only two kinds of level at each input: it often has a tree
/// at 3 levels although it would have none at 2.
fn collapsed_table(rng: &mut Rng, n: usize) -> Vec<u8> {
    let maps: Vec<Vec<usize>> = (0..n)
        .map(|_| (0..M).map(|_| rng.below(2)).collect())
        .collect();
    let inks: Vec<usize> = (0..1 << n).map(|_| rng.below(M)).collect();
    inks_of(M, n, |levels| {
        let bits = levels.iter().zip(&maps).map(|(&level, map)| map[level]);
        inks[bits.fold(0, |index, bit| index * 2 + bit)]
    })
}

/// Returns a net's table with some inks changed.
fn perturbed_table(generator: &mut Generator, n: usize, changes: usize) -> Vec<u8> {
    let mut inks = generator.net(M, n).table().inks;
    for _ in 0..changes {
        let cell = generator.rng.below(inks.len());
        inks[cell] = generator.rng.level(M);
    }
    inks
}

/// Samples of every kind; both answers must occur often.
fn assert_samples(seed: u64, n: usize, names: &str, rounds: usize) {
    println!("seed {seed}");
    let mut generator = Generator::new(seed);
    let (mut with, mut without) = (0, 0);
    for round in 0..rounds {
        let inks = match round % 3 {
            0 => collapsed_table(&mut generator.rng, n),
            1 => perturbed_table(&mut generator, n, 1),
            _ => perturbed_table(&mut generator, n, 2),
        };
        if assert_table(n, names, &inks) {
            with += 1;
        } else {
            without += 1;
        }
    }
    println!("{with} with a tree, {without} without");
    assert!(with > rounds / 10 && without > rounds / 10);
}

#[test]
fn three_inputs_samples() {
    assert_samples(31, 3, "a b c", 6_000);
}

#[test]
fn four_inputs_samples() {
    assert_samples(41, 4, "a b c d", 3_000);
}

#[test]
fn five_inputs_samples() {
    assert_samples(45, 5, "a b c d e", 300);
}

#[test]
fn the_table_of_every_net_is_made() {
    let seed = 51;
    println!("seed {seed}");
    let mut generator = Generator::new(seed);
    for n in [3, 4] {
        let names = ["a b c", "a b c d"][n - 3];
        for _ in 0..1_500 {
            let inks = generator.net(M, n).table().inks;
            assert!(assert_table(n, names, &inks), "{inks:?}");
        }
    }
}

/// Returns all digits of a gate, for all 19,683 gates of 3 levels.
fn every_gate() -> Vec<Vec<usize>> {
    points(&[M; 9])
}

/// Returns whether some tree over 3 inputs computes the table, by every lower gate of
/// every pair; the last gate's digits are then forced or contradict each other.
fn has_tree_by_gates(inks: &[u8], gates: &[Vec<usize>]) -> bool {
    let levels: Vec<Vec<usize>> = (0..inks.len()).map(|p| levels_of(p, M, 3)).collect();
    [(0, 1, 2), (0, 2, 1), (1, 2, 0)].iter().any(|&(i, j, k)| {
        gates.iter().any(|gate| {
            let mut last = [None; M * M];
            levels.iter().zip(inks).all(|(x, &ink)| {
                let lower = gate[x[i] * M + x[j]];
                *last[lower * M + x[k]].get_or_insert(ink) == ink
            })
        })
    })
}

#[test]
fn three_inputs_against_every_gate() {
    let seed = 61;
    println!("seed {seed}");
    let mut generator = Generator::new(seed);
    let gates = every_gate();
    let (mut with, mut without) = (0, 0);
    for round in 0..300 {
        let inks = match round % 2 {
            0 => collapsed_table(&mut generator.rng, 3),
            _ => perturbed_table(&mut generator, 3, 1),
        };
        let has_tree = has_tree_by_gates(&inks, &gates);
        let is_made = made(&table_sheet(M, "a b c", &inks)).is_ok();
        assert_eq!(is_made, has_tree, "{inks:?}");
        if has_tree {
            with += 1;
        } else {
            without += 1;
        }
    }
    println!("{with} with a tree, {without} without");
    assert!(with > 30 && without > 30);
}

/// A table over a, b, c, d that contradicts Butler's Conjecture 3: two pairs can each be
/// joined by a gate, and only one of them leads to a tree.
const CONJECTURE: &[u8] = b"\
    111111111 111000000 111111111 \
    121000000 121000000 000000000 \
    000111111 000111111 111111111";

fn inks_of_digits(digits: &[u8]) -> Vec<u8> {
    let digits = digits.iter().filter(|byte| **byte != b' ');
    digits.map(|byte| byte - b'0').collect()
}

fn conjecture_inks() -> Vec<u8> {
    inks_of_digits(CONJECTURE)
}

/// The multiplicity of every group from 1 to 15.
const CONJECTURE_CLASSES: [usize; 15] = [3, 3, 5, 2, 5, 3, 3, 2, 4, 5, 5, 3, 6, 4, 3];

#[test]
fn conjecture_multiplicities_and_marks() {
    let inks = conjecture_inks();
    let function = Function::of_table(4, &inks);
    for (group, classes) in (1..).zip(CONJECTURE_CLASSES) {
        let (_, count) = function.classes(&group_members(group, 4));
        assert_eq!(count, classes, "group {group}");
        assert_eq!(multiplicity(3, 4, &inks, group as u64), Ok(count as u64));
    }
    let mut marks = [9; 4];
    assert_eq!(marking(3, 4, &inks, &mut marks), Ok(2));
    assert_eq!(
        unpacked(&marks),
        [0, 2, 2, 0, 2, 0, 2, 2, 2, 0, 0, 0, 2, 0, 0, 2]
    );
}

#[test]
fn conjecture_table_is_made() {
    let inks = conjecture_inks();
    assert!(assert_table(4, "a b c d", &inks));
    let gates = "b c 011022111/a 1 001211100/2 d 111000121";
    let net = net_sheet(3, "a b c d", gates);
    assert_eq!(made(&table_sheet(3, "a b c d", &inks)), Ok(net));
}

/// Joining {b, c} leaves a table over e, a, d with a tree; joining {c, d} leaves
/// one over e, a, b without. Both joined wires use all three values, so neither
/// table has a free cell.
#[test]
fn conjecture_only_one_pair_leads_to_a_tree() {
    let function = Function::of_table(4, &conjecture_inks());
    let gates = every_gate();
    let joined = |i, j| {
        let function = function.joined(i, j).expect("at most three classes");
        assert_eq!(function.radices, [3, 3, 3]);
        function.values
    };
    let bc = joined(1, 2);
    let digits = b"111121000 111000111 000000111";
    assert_eq!(bc, inks_of_digits(digits));
    assert!(has_tree_by_gates(&bc, &gates));
    let net = net_sheet(3, "e a d", "e a 012020220/1 d 111121000");
    assert_eq!(made(&table_sheet(3, "e a d", &bc)), Ok(net));
    let cd = joined(2, 3);
    let digits = b"111110001 111220001 101000111";
    assert_eq!(cd, inks_of_digits(digits));
    assert!(!has_tree_by_gates(&cd, &gates));
    let refusal = of_neither(16, 7);
    assert_eq!(made(&table_sheet(3, "e a b", &cd)), Err(refusal));
}
