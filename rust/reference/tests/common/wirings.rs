//! Wirings as trees without digits, and which of them compute a table, decided by
//! every filling of their gates, or by the columns of the table. The library's
//! groups and marks are not used.

use super::{count_of_columns, levels_of};
use std::collections::HashSet;

/// A tree without digits.
#[derive(Clone, Debug, PartialEq, Eq, Hash)]
pub enum Wiring {
    Leaf(usize),
    Node(Box<Wiring>, Box<Wiring>),
}

/// A gate of a wiring: its group, the part that goes left, and the number of gates on the
/// longest way to it from an input, including its own.
#[derive(Clone, Copy, Debug)]
pub struct Joint {
    pub group: usize,
    pub left: usize,
    pub layers: usize,
}

impl Wiring {
    pub fn node(left: Wiring, right: Wiring) -> Wiring {
        Wiring::Node(Box::new(left), Box::new(right))
    }

    pub fn group(&self) -> usize {
        match self {
            Wiring::Leaf(input) => 1 << input,
            Wiring::Node(left, right) => left.group() | right.group(),
        }
    }

    pub fn layers(&self) -> usize {
        match self {
            Wiring::Leaf(_) => 0,
            Wiring::Node(left, right) => 1 + left.layers().max(right.layers()),
        }
    }

    /// Returns left's gates, then right's, then its own.
    pub fn joints(&self) -> Vec<Joint> {
        let Wiring::Node(left, right) = self else {
            return Vec::new();
        };
        let own = Joint {
            group: self.group(),
            left: left.group(),
            layers: self.layers(),
        };
        [left.joints(), right.joints(), vec![own]].concat()
    }

    /// Returns the wiring of a net sheet whose inputs are `a`, `b` and so on.
    pub fn of_sheet(sheet: &[u8]) -> Wiring {
        let text = std::str::from_utf8(sheet).expect("ASCII");
        let mut gates: Vec<Wiring> = Vec::new();
        for line in text.lines().skip(4) {
            let of = |reference: &str| match reference.parse::<usize>() {
                Ok(number) => gates[number - 1].clone(),
                Err(_) => Wiring::Leaf(usize::from(reference.as_bytes()[0] - b'a')),
            };
            let mut references = line.split(' ').map(of);
            let mut next = || references.next().expect("a reference");
            let node = Wiring::node(next(), next());
            gates.push(node);
        }
        gates.pop().expect("a gate line")
    }
}

/// Returns every wiring over a group, ignoring sides and gate numbers: the part with the
/// first-listed input is on the left.
pub fn wirings(group: usize) -> Vec<Wiring> {
    if group.is_power_of_two() {
        return vec![Wiring::Leaf(group.trailing_zeros() as usize)];
    }
    let first = group & group.wrapping_neg();
    let mut all = Vec::new();
    for a in (1..group).filter(|a| a & !group == 0 && a & first != 0) {
        let rights = wirings(group - a);
        for left in wirings(a) {
            for right in &rights {
                all.push(Wiring::node(left.clone(), right.clone()));
            }
        }
    }
    all
}

/// Returns the groups of n inputs that a net may have as leaves: at least two inputs.
pub fn all_leaves(n: usize) -> impl Iterator<Item = usize> {
    (1..1_usize << n).filter(|group| group.count_ones() >= 2)
}

/// Returns the names `a`, `b` and so on of n inputs.
pub fn names(n: usize) -> &'static str {
    &"a b c d e f g h i j k l"[..2 * n - 1]
}

// ---- two levels: every filling of every wiring

/// A table with two levels; bit p is the ink at index p.
pub type Bits = u32;

pub fn mask(n: usize) -> Bits {
    Bits::MAX >> (32 - (1 << n))
}

pub fn inks_of_bits(n: usize, table: Bits) -> Vec<u8> {
    (0..1 << n).map(|p| (table >> p & 1) as u8).collect()
}

/// Returns the tables of a wiring for every filling of its gates.
pub fn tables_of(wiring: &Wiring, n: usize) -> HashSet<Bits> {
    match wiring {
        Wiring::Leaf(input) => {
            let level = |p: usize| levels_of(p, 2, n)[*input] as Bits;
            HashSet::from([(0..1 << n).fold(0, |table, p| table | level(p) << p)])
        }
        Wiring::Node(left, right) => {
            let (lefts, rights) = (tables_of(left, n), tables_of(right, n));
            let mut tables = HashSet::new();
            for &l in &lefts {
                for &r in &rights {
                    let places = [!l & !r, !l & r, l & !r, l & r];
                    for gate in 0..16 {
                        let ones = (0..4).filter(|digit| gate >> digit & 1 == 1);
                        let table = ones.fold(0, |table, digit| table | places[digit]);
                        tables.insert(table & mask(n));
                    }
                }
            }
            tables
        }
    }
}

// ---- any levels: a wiring computes a table if its wires can carry it

/// Returns for every group whether one wire can carry it: it has at most m columns.
pub fn carried(m: usize, n: usize, inks: &[u8]) -> Vec<bool> {
    (0..1 << n)
        .map(|group| count_of_columns(m, n, inks, group) <= m)
        .collect()
}
