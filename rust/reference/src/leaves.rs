//! "Inputs that never matter": which inputs the trees of a table have as leaves.

use crate::groups::{group_of, others};
use crate::net::{all_inputs, count_up, Table};

/// The fewest leaves of a tree: a gate refers to two.
const FEWEST_LEAVES: usize = 2;

/// "An input matters when some two assignments differing only there differ in
/// ink."
pub fn matters(table: &Table, input: usize) -> bool {
    let others = others(group_of(&[input]), table.n);
    let mut levels = vec![0; table.n];
    loop {
        let mut inks = (0..table.m as u8).map(|level| {
            levels[input] = level;
            table.ink(&levels)
        });
        let first = inks.next();
        if inks.any(|ink| Some(ink) != first) {
            return true;
        }
        if !count_up(&mut levels, &others, table.m) {
            return false;
        }
    }
}

/// Returns the group of the leaves: "just the inputs that matter [..]; if fewer than two
/// do, the first-listed others make up two".
pub fn leaves(table: &Table) -> usize {
    let inputs = all_inputs(table.n).into_iter();
    let (mut leaves, others): (Vec<usize>, Vec<usize>) =
        inputs.partition(|&input| matters(table, input));
    let missing = FEWEST_LEAVES.saturating_sub(leaves.len());
    leaves.extend(others.into_iter().take(missing));
    group_of(&leaves)
}
