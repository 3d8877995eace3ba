//! "Shallow nets": among a table's trees "the tree with the fewest layers".

use crate::groups::members;
use crate::marks::{splits, TREE};
use crate::net::{Net, Table};
use crate::settled::net_by;

/// Returns the shallow net of a table with these marks, on the leaves of the settled net,
/// or nothing if the leaves' mark is not 2.
///
/// "Among equally shallow trees each group takes the part A of lowest number
/// that keeps its own group shallowest": so a group is as shallow as possible
/// even if the whole net would allow more layers.
pub fn shallow_net(table: &Table, marks: &[u8]) -> Option<Net> {
    let fewest = fewest_layers(marks, table.n);
    net_by(table, marks, &|group| {
        splits(marks, group, table.n).find(|&split| layers_of(split, &fewest) == fewest[group])
    })
}

/// Returns the fewest layers of a tree over each group, at the group's number; 0 for a
/// group of one member, which has no gate, and for a group without a tree.
pub fn fewest_layers(marks: &[u8], n: usize) -> Vec<usize> {
    let mut fewest = Vec::new();
    for group in 0..marks.len() {
        // A part of a group has a lower number, so its layers are already there.
        let layers = match members(group, n).len() {
            0 | 1 => Some(0),
            _ if marks[group] != TREE => Some(0),
            _ => splits(marks, group, n)
                .map(|split| layers_of(split, &fewest))
                .min(),
        };
        fewest.push(layers.expect("a group of mark 2 with several members has a split"));
    }
    fewest
}

/// Returns the layers of a group with this split, both parts as shallow as
/// possible: a path goes through the gates of one part and then through the group's
/// own gate.
fn layers_of((a, b): (usize, usize), fewest: &[usize]) -> usize {
    1 + fewest[a].max(fewest[b])
}
