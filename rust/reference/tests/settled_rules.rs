//! Every sentence of "The settled net", checked on the settled sheet itself at
//! every size: the leaves, the wiring, the order of the gate lines, the digits. And
//! the same for the shallow net and for the other trees of the family, which differ
//! only in their wiring.

use crate::common::*;
use reference::generate::{Generator, TableKind};
use reference::{allowed_sizes, family_count, family_tree, make, make_shallow, marking};

/// A gate line of the sheet, with the group of inputs below it.
struct Line {
    left: String,
    right: String,
    digits: Vec<usize>,
    left_group: usize,
    right_group: usize,
}

/// Which of a table's trees is made.
#[derive(Clone, Copy, PartialEq, Eq)]
enum Choice {
    Settled,
    Shallow,
    /// The last of the family.
    Last,
    /// One from the middle of the family.
    Middle,
}

struct Made {
    choice: Choice,
    m: usize,
    n: usize,
    names: Vec<String>,
    inks: Vec<u8>,
    marks: Vec<u8>,
    gates: Vec<Line>,
}

impl Made {
    /// Makes the table; returns nothing if it has no tree.
    fn from(choice: Choice, m: usize, n: usize, inks: Vec<u8>) -> Option<Made> {
        // The first-listed name is not the first in the alphabet.
        let names: Vec<String> = (0..n).map(|input| format!("z{}", n - input)).collect();
        let mut marks = vec![9; (1 << n) / 4];
        marking(m as u64, n as u64, &inks, &mut marks).expect("good cells");
        let marks = unpacked(&marks);
        let sheet = table_sheet(m, &names.join(" "), &inks);
        let (mut cells, mut k, mut out) = ([7; CELLS], [7; MARKS], [7; NET_SHEET]);
        let (length, layers) = match choice {
            Choice::Settled => (make(&sheet, &mut cells, &mut k, &mut out).ok()?, None),
            Choice::Shallow => {
                let answer = make_shallow(&sheet, &mut cells, &mut k, &mut out).ok()?;
                (answer.length, Some(answer.layers))
            }
            Choice::Last | Choice::Middle => {
                let count = family_count(&sheet, &mut cells, &mut k).expect("good cells");
                let number = match choice {
                    Choice::Last => count.checked_sub(1)?,
                    _ => count / 2,
                };
                let length = family_tree(&sheet, number, &mut cells, &mut k, &mut out).ok()?;
                (length, None)
            }
        };
        let text = String::from_utf8(out[..length].to_vec()).expect("ASCII");
        let mut made = Made {
            choice,
            m,
            n,
            names,
            inks,
            marks,
            gates: Vec::new(),
        };
        text.lines().skip(4).for_each(|line| made.add(line));
        let output = made.gates.len().to_string();
        assert!(layers.is_none_or(|layers| layers == made.layers(&output)));
        Some(made)
    }

    fn add(&mut self, line: &str) {
        let [left, right, digits] = line.split(' ').collect::<Vec<_>>()[..] else {
            panic!("three fields");
        };
        let digits = digits.bytes().map(|byte| usize::from(byte - b'0'));
        self.gates.push(Line {
            left_group: self.group(left),
            right_group: self.group(right),
            left: left.to_string(),
            right: right.to_string(),
            digits: digits.collect(),
        });
    }

    /// Returns the inputs below a reference.
    fn group(&self, reference: &str) -> usize {
        match self.gate(reference) {
            Some(gate) => gate.left_group | gate.right_group,
            None => {
                1 << self
                    .names
                    .iter()
                    .position(|n| n == reference)
                    .expect("an input")
            }
        }
    }

    fn gate(&self, reference: &str) -> Option<&Line> {
        let number: usize = reference.parse().ok()?;
        Some(&self.gates[number - 1])
    }

    fn value(&self, reference: &str, levels: &[usize]) -> usize {
        match self.gate(reference) {
            Some(gate) => {
                let left = self.value(&gate.left, levels);
                let right = self.value(&gate.right, levels);
                gate.digits[left * self.m + right]
            }
            None => {
                levels[self
                    .names
                    .iter()
                    .position(|n| n == reference)
                    .expect("an input")]
            }
        }
    }

    /// "A's, then B's, then the group's own": the numbers of the gates below a
    /// reference in that order.
    fn due_order(&self, reference: &str) -> Vec<usize> {
        let Some(gate) = self.gate(reference) else {
            return Vec::new();
        };
        let own = reference.parse().expect("a gate's number");
        let (left, right) = (self.due_order(&gate.left), self.due_order(&gate.right));
        [left, right, vec![own]].concat()
    }

    /// Returns the number of gates on the longest way from an input to a reference.
    fn layers(&self, reference: &str) -> usize {
        let gate = self.gate(reference);
        gate.map_or(0, |gate| {
            1 + self.layers(&gate.left).max(self.layers(&gate.right))
        })
    }

    /// Returns the parts of a group that have mark 2 and leave a group of mark 2.
    fn parts(&self, group: usize) -> impl Iterator<Item = usize> + '_ {
        let parts = (1..group).filter(move |part| part & !group == 0);
        parts.filter(move |part| self.marks[*part] == 2 && self.marks[group - part] == 2)
    }

    /// Returns the fewest layers of each group of mark 2, over all its parts.
    fn fewest(&self) -> Vec<usize> {
        let mut fewest: Vec<usize> = Vec::new();
        for group in 0..1 << self.n {
            let of_parts = self
                .parts(group)
                .map(|part| fewest[part].max(fewest[group - part]) + 1);
            fewest.push(of_parts.min().unwrap_or(0));
        }
        fewest
    }

    /// "A holding its first-listed input, A of lowest number", both of mark 2; for
    /// a shallow net "the part A of lowest number that keeps its own group
    /// shallowest"; in the last tree of a family A of highest number.
    fn assert_split(&self, gate: &Line, fewest: &[usize]) {
        let group = gate.left_group | gate.right_group;
        let first = 1 << group.trailing_zeros();
        let shallowest = |a: &usize| fewest[*a].max(fewest[group - a]) < fewest[group];
        let mut parts = self.parts(group).filter(|a| a & first != 0);
        let due = match self.choice {
            Choice::Settled => parts.next(),
            Choice::Shallow => parts.find(shallowest),
            Choice::Last => parts.last(),
            Choice::Middle => parts.find(|&a| a == gate.left_group),
        };
        assert_eq!(due, Some(gate.left_group));
    }

    /// Returns every assignment of all inputs in which the inputs outside the group
    /// are 0; index order counts the group, first-listed slowest.
    fn assignments(&self, group: usize) -> Vec<Vec<usize>> {
        let all = (0..self.inks.len()).map(|index| levels_of(index, self.m, self.n));
        let outside_at_0 =
            |levels: &Vec<usize>| (0..self.n).all(|i| levels[i] == 0 || group & (1 << i) != 0);
        all.filter(outside_at_0).collect()
    }

    /// "A gate below the last gives its group's classes, numbered from 0 in the
    /// order in which they first appear."
    fn assert_classes(&self, number: usize) {
        let reference = number.to_string();
        let group = self.group(&reference);
        let others = self.assignments((1 << self.n) - 1 - group);
        let mut columns: Vec<Vec<u8>> = Vec::new();
        for levels in self.assignments(group) {
            let column: Vec<u8> = others
                .iter()
                .map(|rest| self.inks[self.index_of_sum(&levels, rest)])
                .collect();
            if !columns.contains(&column) {
                columns.push(column.clone());
            }
            let value = self.value(&reference, &levels);
            assert_eq!(columns.get(value), Some(&column));
        }
    }

    /// Returns the index of an assignment given in two parts.
    fn index_of_sum(&self, one: &[usize], other: &[usize]) -> usize {
        let levels = one.iter().zip(other).map(|(a, b)| a + b);
        levels.fold(0, |index, level| index * self.m + level)
    }

    /// "A digit that no assignment reaches is 0." Returns how many there are.
    fn assert_free_digits(&self, gate: &Line) -> usize {
        let mut reached = vec![false; self.m * self.m];
        for levels in self.assignments(gate.left_group | gate.right_group) {
            let left = self.value(&gate.left, &levels);
            let right = self.value(&gate.right, &levels);
            reached[left * self.m + right] = true;
        }
        for (digit, reached) in gate.digits.iter().zip(&reached) {
            assert!(*reached || *digit == 0);
        }
        reached.iter().filter(|reached| !**reached).count()
    }

    /// Checks all of it; returns the number of free digits.
    fn assert_rules(&self) -> usize {
        let output = self.gates.len().to_string();
        assert_eq!(self.group(&output), leaves(self.m, self.n, &self.inks));
        let numbers: Vec<usize> = (1..=self.gates.len()).collect();
        assert_eq!(self.due_order(&output), numbers);
        for (index, &ink) in self.inks.iter().enumerate() {
            let levels = levels_of(index, self.m, self.n);
            assert_eq!(self.value(&output, &levels), usize::from(ink));
        }
        for number in 1..self.gates.len() {
            self.assert_classes(number);
        }
        let fewest = self.fewest();
        for gate in &self.gates {
            self.assert_split(gate, &fewest);
        }
        let free = self.gates.iter().map(|gate| self.assert_free_digits(gate));
        free.sum()
    }
}

/// Counts the sheets and their free digits.
fn assert_every_size(choice: Choice, seed: u64) -> (usize, usize) {
    println!("seed {seed}");
    let mut generator = Generator::new(seed);
    let (mut sheets, mut free) = (0, 0);
    for (m, n) in allowed_sizes() {
        let (m, n) = (m as usize, n as usize);
        let rounds = (4_000 / m.pow(n as u32)).clamp(4, 60);
        for round in 0..rounds {
            let kind = match round % 8 {
                0 => TableKind::OfSomeInputs,
                1 => TableKind::MinMaxChain,
                2 => TableKind::OneInkChanged,
                3 => TableKind::TwoMatter,
                4 => TableKind::Constant,
                _ => TableKind::OfNet,
            };
            let inks = generator.table(m, n, kind).inks;
            if let Some(made) = Made::from(choice, m, n, inks) {
                free += made.assert_rules();
                sheets += 1;
            }
        }
    }
    println!("{sheets} sheets, {free} free digits");
    (sheets, free)
}

#[test]
fn every_settled_sheet_keeps_the_rules() {
    let (sheets, free) = assert_every_size(Choice::Settled, 141);
    assert!(sheets > 500 && free > 100);
}

#[test]
fn every_shallow_sheet_keeps_the_rules() {
    let (sheets, free) = assert_every_size(Choice::Shallow, 142);
    assert!(sheets > 500 && free > 100);
}

#[test]
fn other_trees_of_the_family_keep_the_rules() {
    for (choice, seed) in [(Choice::Last, 143), (Choice::Middle, 144)] {
        let (sheets, free) = assert_every_size(choice, seed);
        assert!(sheets > 500 && free > 100);
    }
}
