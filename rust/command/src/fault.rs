//! Why a table has no tree: the group at fault, every way to part it, and assignments of a part that no gate can keep apart.

use picture::partition::Partition;
use sitgurp::{Kind, Refusal, Table};

/// A table without a tree, and where it fails.
pub struct Fault<'a> {
    pub table: &'a Table,
    pub refusal: Refusal,
    /// The ways to part the group at fault, the one that needs fewest levels first.
    pub splits: Vec<Split>,
    /// The fewest levels that the wires between gates would need.
    pub fewest: usize,
}

/// A way to part a group in two, with the number of classes of each part.
#[derive(Clone, Copy)]
pub struct Split {
    pub parts: [usize; 2],
    pub classes: [usize; 2],
}

impl Split {
    /// The levels that a gate over its larger part would need.
    pub fn needs(&self) -> usize {
        self.classes[0].max(self.classes[1])
    }

    /// The part with more classes.
    pub fn worse(&self) -> usize {
        let second = self.classes[1] > self.classes[0];
        self.parts[usize::from(second)]
    }
}

/// Two assignments of a part that must be told apart, and where they first differ.
pub struct Apart {
    pub first: Vec<u8>,
    pub second: Vec<u8>,
    /// The other inputs' levels there.
    pub others: Vec<u8>,
    pub inks: [u8; 2],
}

impl<'a> Fault<'a> {
    /// None where the table has a tree, or is no full table.
    pub fn of(table: &'a Table) -> Option<Fault<'a>> {
        let no_tree = |refusal: &Refusal| refusal.kind() == Kind::NoTree;
        let refusal = table.settled().err().filter(no_tree)?;
        let mut splits: Vec<Split> = parts(refusal.place)
            .map(|part| split(table, [part, refusal.place - part]))
            .collect();
        splits.sort_by_key(|split| (split.needs(), split.parts[0]));
        Some(Fault {
            table,
            splits,
            fewest: table.fewest_levels().expect("a full table"),
            refusal,
        })
    }

    /// The group at fault.
    pub fn group(&self) -> usize {
        self.refusal.place
    }

    /// The names of a group's inputs.
    pub fn names(&self, group: usize) -> Vec<&str> {
        let names = self.table.names().iter().enumerate();
        let names = names.filter(|(input, _)| group >> input & 1 == 1);
        names.map(|(_, name)| name.as_str()).collect()
    }

    /// The part of the best split that has too many classes.
    pub fn part(&self) -> usize {
        self.splits[0].worse()
    }

    /// Assignments of that part that must all be told apart, one more than a wire has levels, by pairs.
    pub fn apart(&self) -> Vec<Apart> {
        let partition = Partition::of(self.table, self.part());
        let first = partition.classes.iter().map(|class| class[0]);
        let columns: Vec<usize> = first.take(self.table.levels() + 1).collect();
        let mut pairs = Vec::new();
        for (k, &second) in columns.iter().enumerate() {
            for &first in &columns[..k] {
                let row = partition
                    .first_apart(first, second)
                    .expect("two classes differ");
                pairs.push(Apart {
                    first: partition.column(first),
                    second: partition.column(second),
                    others: partition.row(row),
                    inks: [partition.ink(row, first), partition.ink(row, second)],
                });
            }
        }
        pairs
    }
}

fn split(table: &Table, parts: [usize; 2]) -> Split {
    let classes = parts.map(|part| table.multiplicity(part).expect("a group of the table"));
    Split { parts, classes }
}

/// The parts of a group that hold its first input, without the group itself: one for each way to part it in two.
fn parts(group: usize) -> impl Iterator<Item = usize> {
    let first = group & group.wrapping_neg();
    (1..group).filter(move |part| part & !group == 0 && part & first != 0)
}
