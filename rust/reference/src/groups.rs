//! "Groups": which assignments of a group are alike.
//!
//! A group's assignment corresponds to a column of Butler's partition matrix: the
//! inks at that assignment over all assignments of the other inputs. Two
//! assignments are alike exactly when their columns are equal.

use crate::net::Table;
use std::collections::HashMap;

/// The classes of a group's assignments.
pub struct Classes {
    /// How many classes there are: the multiplicity.
    pub count: usize,
    /// The class of each assignment, in counting order, the first-listed member
    /// slowest. Classes are numbered from 0 as they first
    /// appear in that order.
    pub of: Vec<usize>,
}

/// "Numbered by the sum of 2 to the power i over its members, where i is the
/// place in line 3 from 0."
pub fn is_member(group: usize, input: usize) -> bool {
    (group >> input) & 1 == 1
}

/// Returns the members of a group, first-listed first.
pub fn members(group: usize, n: usize) -> Vec<usize> {
    (0..n).filter(|&input| is_member(group, input)).collect()
}

/// Returns the inputs outside a group, first-listed first.
pub fn others(group: usize, n: usize) -> Vec<usize> {
    (0..n).filter(|&input| !is_member(group, input)).collect()
}

/// Returns the number of the group of the listed inputs.
pub fn group_of(listed: &[usize]) -> usize {
    listed.iter().map(|&input| 1 << input).sum()
}

/// Returns the number of the group of all inputs.
pub fn whole(n: usize) -> usize {
    (1 << n) - 1
}

/// Returns the index of each assignment of the listed inputs, in counting order, the
/// first-listed slowest, with all other inputs at 0. The weight of an input's level is
/// the number of assignments of the inputs after it in line 3. So the index of a
/// whole assignment is the sum of a group's part and the others' part.
pub fn indices(table: &Table, listed: &[usize]) -> Vec<usize> {
    let mut all = vec![0];
    for &input in listed {
        let weight = table.m.pow((table.n - 1 - input) as u32);
        let with = |&index: &usize| (0..table.m).map(move |level| index + level * weight);
        all = all.iter().flat_map(with).collect();
    }
    all
}

/// Returns the classes of a group.
pub fn classes(table: &Table, group: usize) -> Classes {
    let others = indices(table, &others(group, table.n));
    let mut seen: HashMap<Vec<u8>, usize> = HashMap::new();
    let mut of = Vec::new();
    for own in indices(table, &members(group, table.n)) {
        let column = others.iter().map(|other| table.inks[own + other]);
        let next = seen.len();
        of.push(*seen.entry(column.collect()).or_insert(next));
    }
    let count = seen.len();
    Classes { count, of }
}

/// "The group's multiplicity is the number of classes", "the true number of
/// classes, however large".
pub fn multiplicity(table: &Table, group: usize) -> usize {
    classes(table, group).count
}

/// Returns the multiplicity of every group, at the group's number. The empty group has
/// none; its entry is 0.
pub fn multiplicities(table: &Table) -> Vec<usize> {
    let groups = 1..=whole(table.n);
    let counts = groups.map(|group| multiplicity(table, group));
    std::iter::once(0).chain(counts).collect()
}
