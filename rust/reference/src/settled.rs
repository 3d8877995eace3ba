//! "The settled net": the one net that document 01 defines for a table, on the leaves
//! that document 02 gives it; and how the gates of a tree are written and filled,
//! for any way of splitting its groups.

use crate::groups::{classes, indices, members};
use crate::leaves::leaves;
use crate::marks::{split, TREE};
use crate::net::{count_up, place_in_count, Gate, Net, Table, Wire};

/// Returns the settled net of a table with these marks, or nothing if the leaves' mark is
/// not 2.
pub fn settled_net(table: &Table, marks: &[u8]) -> Option<Net> {
    net_by(table, marks, &|group| split(marks, group, table.n))
}

/// How a group of mark 2 with several members is split, as (A, B).
type Splitting<'a> = &'a dyn Fn(usize) -> Option<(usize, usize)>;

/// Returns the net of a table with these marks whose groups are split in this way. "A table is
/// refused for want of a tree exactly when none stands on those leaves": nothing if
/// the leaves' mark is not 2.
pub fn net_by(table: &Table, marks: &[u8], splitting: Splitting) -> Option<Net> {
    let leaves = leaves(table);
    if marks[leaves] != TREE {
        return None;
    }
    let output = Output {
        table,
        group: leaves,
    };
    let mut gates = Vec::new();
    add_gates(&output, splitting, leaves, &mut gates);
    Some(Net {
        m: table.m,
        n: table.n,
        gates,
    })
}

/// A table, and the group of the inputs that the last gate depends on: every input
/// that matters is in it.
pub struct Output<'a> {
    pub table: &'a Table,
    pub group: usize,
}

/// "A goes left. Gate lines: A's, then B's, then the group's own. A single input
/// is wired by name." Returns the wire that carries the group.
fn add_gates(output: &Output, splitting: Splitting, group: usize, gates: &mut Vec<Gate>) -> Wire {
    if let [input] = members(group, output.table.n)[..] {
        return Wire::Input(input);
    }
    let (a, b) = splitting(group).expect("a group of mark 2 with several members has a split");
    let left = add_gates(output, splitting, a, gates);
    let right = add_gates(output, splitting, b, gates);
    let digits = digits(output, group, a, b);
    gates.push(Gate {
        left,
        right,
        digits,
    });
    Wire::Gate(gates.len())
}

/// Returns the digits of the gate that joins the parts a and b of a group: at the values
/// of the two parts, the value of the group. "A digit that no assignment reaches
/// is 0."
pub fn digits(output: &Output, group: usize, a: usize, b: usize) -> Vec<u8> {
    let table = output.table;
    let own = carried_by(output, group);
    let left = carried_by(output, a);
    let right = carried_by(output, b);
    let [group, a, b] = [group, a, b].map(|group| members(group, table.n));
    let mut digits = vec![0; table.m * table.m];
    let mut levels = vec![0; table.n];
    loop {
        let u = left[place_in_count(&levels, &a, table.m)];
        let v = right[place_in_count(&levels, &b, table.m)];
        let here = place_in_count(&levels, &group, table.m);
        digits[usize::from(u) * table.m + usize::from(v)] = own[here];
        if !count_up(&mut levels, &group, table.m) {
            return digits;
        }
    }
}

/// Returns what a group's wire carries at each of its assignments, in counting order:
/// a single input its level, the last gate the ink, any other its class.
fn carried_by(output: &Output, group: usize) -> Vec<u8> {
    let table = output.table;
    let members = members(group, table.n);
    if members.len() == 1 {
        return (0..table.m as u8).collect();
    }
    if group == output.group {
        // no other input matters, so they can be 0
        let indices = indices(table, &members).into_iter();
        return indices.map(|index| table.inks[index]).collect();
    }
    let classes = classes(table, group).of;
    classes.iter().map(|&class| class as u8).collect()
}
