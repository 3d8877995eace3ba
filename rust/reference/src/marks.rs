//! "Marks": which groups have few enough classes, and which of them can be
//! built from inputs.

use crate::groups::{is_member, members, multiplicities, multiplicity};
use crate::leaves::leaves;
use crate::net::Table;

/// "0 if it is empty or its multiplicity is over m."
pub const NONE: u8 = 0;
/// "1 otherwise": few enough classes, but no split into two of mark 2.
pub const STUCK: u8 = 1;
/// "2 if it has one member, or its multiplicity is at most m and it parts into
/// two non-empty groups that both have mark 2."
pub const TREE: u8 = 2;

/// Returns the mark of every group, at the group's number.
pub fn marks_of(table: &Table) -> Vec<u8> {
    marks_with(&multiplicities(table), table.n, table.m)
}

/// Returns the mark of one group, from the marks of the groups with lower numbers: a part of
/// a group has a lower number.
pub fn mark_of(table: &Table, lower: &[u8], group: usize) -> u8 {
    mark_with(multiplicity(table, group), lower, group, table.n, table.m)
}

/// Returns the marks of groups with these multiplicities, with `most` instead of
/// m.
fn marks_with(multiplicities: &[usize], n: usize, most: usize) -> Vec<u8> {
    let mut marks = Vec::new();
    for (group, &multiplicity) in multiplicities.iter().enumerate() {
        marks.push(mark_with(multiplicity, &marks, group, n, most));
    }
    marks
}

/// Returns the mark of one group in the same way. A single input has mark 2 for any `most`:
/// it is a leaf, and no gate computes it.
fn mark_with(multiplicity: usize, lower: &[u8], group: usize, n: usize, most: usize) -> u8 {
    match members(group, n).len() {
        0 => NONE,
        1 => TREE,
        _ if multiplicity > most => NONE,
        _ if split(lower, group, n).is_some() => TREE,
        _ => STUCK,
    }
}

/// Returns the least k for which the leaves have mark 2 with k instead of m: how many
/// levels the gates' wires would have to carry for a tree to exist. The output is
/// such a wire, so k is not below the number of distinct inks.
pub fn fewest_levels(table: &Table) -> usize {
    let multiplicities = multiplicities(table);
    let leaves = leaves(table);
    (1..)
        .find(|&most| marks_with(&multiplicities, table.n, most)[leaves] == TREE)
        .expect("with as many as the largest multiplicity every group has mark 2")
}

/// Returns the splits of a group into (A, B), both of mark 2, A containing its first-listed
/// input, by increasing number of A. One of the two parts of any split contains the
/// first-listed input, so the group has a split exactly when it has one of
/// these.
pub fn splits(marks: &[u8], group: usize, n: usize) -> impl Iterator<Item = (usize, usize)> + '_ {
    let first = members(group, n).first().copied();
    let holds_first = move |a| first.is_some_and(|first| is_member(a, first));
    let parts = (1..group).filter(move |&a| a & group == a && holds_first(a));
    let splits = parts.map(move |a| (a, group - a));
    splits.filter(|&(a, b)| marks[a] == TREE && marks[b] == TREE)
}

/// Returns the split of the settled net: "A holding its first-listed input, A of lowest
/// number".
pub fn split(marks: &[u8], group: usize, n: usize) -> Option<(usize, usize)> {
    splits(marks, group, n).next()
}

/// Returns the place of refusal 16: "the group of fewest members, then lowest number,
/// with mark 1".
pub fn first_stuck(marks: &[u8], n: usize) -> Option<usize> {
    (0..marks.len())
        .filter(|&group| marks[group] == STUCK)
        .min_by_key(|&group| (members(group, n).len(), group))
}

// How marks are stored in a buffer: "packed four to a byte, group 0 in the lowest
// two bits of byte 0". Only the three functions below know it.

/// "The length needed is 2 to the n, divided by 4", which is a whole number, since n is 2 or
/// more.
pub fn needed(n: usize) -> usize {
    (1 << n) / 4
}

/// Writes the marks to the front of a buffer that has the needed length.
pub fn store(marks: &[u8], buffer: &mut [u8]) {
    for (byte, four) in buffer.iter_mut().zip(marks.chunks(4)) {
        *byte = four[0] + 4 * four[1] + 16 * four[2] + 64 * four[3];
    }
}

/// Returns the mark of a group in a buffer that marks were stored in.
pub fn stored(buffer: &[u8], group: usize) -> u8 {
    let shifted = match group % 4 {
        0 => 1,
        1 => 4,
        2 => 16,
        _ => 64,
    };
    buffer[group / 4] / shifted % 4
}
