//! "The whole family of trees": every wiring of a table on its leaves, by
//! number.

use crate::groups::members;
use crate::leaves::leaves;
use crate::marks::{splits, TREE};
use crate::net::{Net, Table};
use crate::settled::net_by;
use std::collections::HashMap;

/// Returns how many trees each group has, at the group's number. "A group's count comes
/// from its splits, and a split's count from its two groups. A split is counted
/// once, with the first-listed input on the left." A single input is wired in
/// one way, and a group whose mark is not 2 in none.
pub fn counts(marks: &[u8], n: usize) -> Vec<u64> {
    let mut counts = Vec::new();
    for group in 0..marks.len() {
        // A part of a group has a lower number, so its count is already there.
        let count = match members(group, n).len() {
            1 => 1,
            _ if marks[group] != TREE => 0,
            _ => splits(marks, group, n)
                .map(|split| count_of(split, &counts))
                .sum(),
        };
        counts.push(count);
    }
    counts
}

fn count_of((a, b): (usize, usize), counts: &[u64]) -> u64 {
    counts[a] * counts[b]
}

/// "The count of the trees" of a table with these marks: "a family numbers the
/// wirings on just these" leaves.
pub fn count(table: &Table, marks: &[u8]) -> u64 {
    counts(marks, table.n)[leaves(table)]
}

/// Returns the tree of a table with an order number, "from 0", or nothing if the number is
/// not below the count.
pub fn family_net(table: &Table, marks: &[u8], number: u64) -> Option<Net> {
    let n = table.n;
    let leaves = leaves(table);
    let counts = counts(marks, n);
    if number >= counts[leaves] {
        return None;
    }
    let mut chosen = HashMap::new();
    let mut left = vec![(leaves, number)];
    while let Some((group, number)) = left.pop() {
        if members(group, n).len() > 1 {
            let ((a, b), rest) = split_of_number(splits(marks, group, n), &counts, number);
            chosen.insert(group, (a, b));
            left.extend([(a, rest / counts[b]), (b, rest % counts[b])]);
        }
    }
    net_by(table, marks, &|group| chosen.get(&group).copied())
}

/// "The order is by A's number, then A's tree, then B's": the split that the
/// tree of this number has, and the tree's place among the trees of that split,
/// in which B's tree changes fastest.
fn split_of_number(
    splits: impl Iterator<Item = (usize, usize)>,
    counts: &[u64],
    number: u64,
) -> ((usize, usize), u64) {
    let mut rest = number;
    for split in splits {
        let trees = count_of(split, counts);
        if rest < trees {
            return (split, rest);
        }
        rest -= trees;
    }
    unreachable!("the number is below the sum of the splits' counts")
}
