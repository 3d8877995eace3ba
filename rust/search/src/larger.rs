//! A tree with larger gates, for a table without a tree of two-input gates: among all trees one whose largest gate has the fewest inputs, and among
//! these one with the fewest gates of that size. Every wire is a group with at most as many classes as there are levels; the library counts them.

use crate::counts::{offsets, subsets};
use sitgurp::{Refusal, Table};

/// A tree of gates with two inputs or more. It is not a net sheet: a net's gates have two inputs.
#[derive(Clone, Debug, PartialEq, Eq)]
pub struct Larger {
    pub levels: usize,
    pub names: Vec<String>,
    /// The gates, each after those that it refers to; the last is the output.
    pub gates: Vec<LargerGate>,
}

/// A gate with any number of inputs.
#[derive(Clone, Debug, PartialEq, Eq)]
pub struct LargerGate {
    pub sources: Vec<Source>,
    /// A digit for each assignment of the sources; the first source changes slowest.
    pub digits: Vec<u8>,
}

#[derive(Clone, Copy, Debug, PartialEq, Eq)]
pub enum Source {
    /// By its place among the names.
    Input(usize),
    /// By its place among the gates.
    Gate(usize),
}

/// The number of gates of the largest size, then the number of digits of all gates.
type Cost = (usize, usize);

/// Returns the tree with the smallest largest gate, on the inputs that matter. A table with a tree of two-input gates gives such a tree.
/// Refuses with 27 if a cell is open.
///
/// ```
/// let majority = |levels: &[u8]| u8::from(levels[..3].iter().sum::<u8>() >= 2);
/// let table = sitgurp::Table::from_rule(2, &["a", "b", "c", "d"], |levels| majority(levels) ^ levels[3])?;
/// let tree = search::larger(&table)?;
/// assert_eq!((tree.gates.len(), tree.largest(), tree.differs(&table)), (2, 3, None));
/// assert_eq!(tree.gates[0].digits, [0, 0, 0, 1, 0, 1, 1, 1]);
/// # Ok::<(), sitgurp::Refusal>(())
/// ```
pub fn larger(table: &Table) -> Result<Larger, Refusal> {
    let mut classes = vec![0];
    for group in 1..1 << table.names().len() {
        classes.push(table.multiplicity(group)?);
    }
    let used = used_inputs(table, &classes);
    let is_wire: Vec<bool> = classes
        .iter()
        .map(|&count| count <= table.levels())
        .collect();
    let all = used.iter().map(|input| 1 << input).sum();
    let most = used.len();
    let tree = (2..=most).find_map(|size| Sizes::of(table.levels(), size, all, &is_wire).tree(all));
    // one gate on all inputs is always a tree
    let parts = tree.expect("a gate on all inputs");
    Ok(Gates::of(table).with(&parts))
}

/// Returns the inputs that matter; if there are fewer than two, the first-listed others are added.
fn used_inputs(table: &Table, classes: &[usize]) -> Vec<usize> {
    let inputs = 0..table.names().len();
    let (mut used, idle): (Vec<usize>, Vec<usize>) =
        inputs.partition(|&input| classes[1 << input] > 1);
    let missing = 2_usize.saturating_sub(used.len());
    used.extend(idle.into_iter().take(missing));
    used.sort();
    used
}

/// The best trees of all groups with gates of at most this many inputs.
struct Sizes {
    /// `best[k][group]`: the cost of the group as k wires, or as one wire for k = 1. Each with the first of the wires.
    best: Vec<Vec<Option<(Cost, usize)>>>,
}

/// A group, and the groups that its gate joins.
struct Parts {
    group: usize,
    parts: Vec<Parts>,
}

impl Sizes {
    fn of(levels: usize, size: usize, all: usize, is_wire: &[bool]) -> Sizes {
        let mut sizes = Sizes {
            best: vec![vec![None; all + 1]; size + 1],
        };
        for group in subsets(all).skip(1) {
            for count in 2..=size {
                sizes.best[count][group] = sizes.parted(group, count);
            }
            let gate = |count: usize| {
                let ((largest, digits), _) = sizes.best[count][group]?;
                let own = (
                    usize::from(count == size && size > 2),
                    levels.pow(count as u32),
                );
                Some(((largest + own.0, digits + own.1), count))
            };
            sizes.best[1][group] = match group.is_power_of_two() {
                true => Some(((0, 0), 0)),
                false if is_wire[group] => (2..=size).filter_map(gate).min(),
                false => None,
            };
        }
        sizes
    }

    /// Returns the cost of the best way to split a group into this many wires, and its first wire.
    fn parted(&self, group: usize, count: usize) -> Option<(Cost, usize)> {
        let first = group & group.wrapping_neg();
        let rest = group - first;
        let ways = subsets(rest)
            .filter(|part| *part != rest)
            .filter_map(|part| {
                let ((largest, digits), _) = self.best[1][first | part]?;
                let ((others, more), _) = self.best[count - 1][rest - part]?;
                Some(((largest + others, digits + more), first | part))
            });
        ways.min()
    }

    fn tree(&self, group: usize) -> Option<Parts> {
        let (_, count) = self.best[1][group]?;
        let mut parts = Vec::new();
        let mut left = group;
        for count in (1..=count).rev() {
            let part = if count == 1 {
                left
            } else {
                self.best[count][left]?.1
            };
            parts.push(self.tree(part)?);
            left -= part;
        }
        Some(Parts { group, parts })
    }
}

/// The gates so far, with the value of each wire in every cell.
struct Gates<'a> {
    table: &'a Table,
    tree: Larger,
}

impl<'a> Gates<'a> {
    fn of(table: &'a Table) -> Gates<'a> {
        let tree = Larger {
            levels: table.levels(),
            names: table.names().to_vec(),
            gates: Vec::new(),
        };
        Gates { table, tree }
    }

    fn with(mut self, parts: &Parts) -> Larger {
        let inks = self.table.inks().to_vec();
        self.gate(parts, &inks);
        self.tree
    }

    /// Adds a gate after those below it. `values` is the gate's value in every cell.
    fn gate(&mut self, parts: &Parts, values: &[u8]) -> Source {
        let mut sources = Vec::new();
        let mut rows = vec![0; values.len()];
        for part in &parts.parts {
            let own = self.classes(part.group);
            sources.push(match part.parts.is_empty() {
                true => Source::Input(part.group.trailing_zeros() as usize),
                false => self.gate(part, &own),
            });
            for (row, value) in rows.iter_mut().zip(own) {
                *row = *row * self.tree.levels + usize::from(value);
            }
        }
        let mut digits = vec![0; self.tree.levels.pow(sources.len() as u32)];
        for (row, &value) in rows.into_iter().zip(values) {
            digits[row] = value;
        }
        self.tree.gates.push(LargerGate { sources, digits });
        Source::Gate(self.tree.gates.len() - 1)
    }

    /// Returns the class of a group's assignment in every cell, numbered in order of appearance; for a single input its own level.
    fn classes(&self, group: usize) -> Vec<u8> {
        let (m, n, inks) = (
            self.table.levels(),
            self.table.names().len(),
            self.table.inks(),
        );
        let columns = offsets(m, n, group);
        let rows = offsets(m, n, (1 << n) - 1 - group);
        let mut values = vec![0; inks.len()];
        let mut known: Vec<usize> = Vec::new();
        for (k, &column) in columns.iter().enumerate() {
            let same = |&other: &usize| {
                rows.iter()
                    .all(|row| inks[column + row] == inks[other + row])
            };
            let class = match known.iter().position(same) {
                _ if group.is_power_of_two() => k,
                Some(class) => class,
                None => {
                    known.push(column);
                    known.len() - 1
                }
            };
            for row in &rows {
                values[column + row] = class as u8;
            }
        }
        values
    }
}

impl Larger {
    /// Returns the number of inputs of the largest gate.
    pub fn largest(&self) -> usize {
        self.gates
            .iter()
            .map(|gate| gate.sources.len())
            .max()
            .unwrap_or(0)
    }

    /// Returns how many gates have this many inputs.
    pub fn of_size(&self, inputs: usize) -> usize {
        self.gates
            .iter()
            .filter(|gate| gate.sources.len() == inputs)
            .count()
    }

    /// Returns the tree's ink for the levels of all inputs, gate by gate.
    pub fn value(&self, levels: &[u8]) -> u8 {
        let mut values: Vec<u8> = Vec::with_capacity(self.gates.len());
        for gate in &self.gates {
            let value = |source: &Source| match *source {
                Source::Input(input) => levels[input],
                Source::Gate(gate) => values[gate],
            };
            let row = gate.sources.iter().fold(0, |row, source| {
                row * self.levels + usize::from(value(source))
            });
            values.push(gate.digits[row]);
        }
        values.pop().unwrap_or(0)
    }

    /// Evaluates the tree on every row of a table, and returns the first index at which it differs.
    pub fn differs(&self, table: &Table) -> Option<usize> {
        table
            .rows()
            .position(|row| self.value(&row.levels) != row.ink)
    }
}
