//! "Keep my wiring": the gates of a given net, refilled for another table.

use crate::groups::{group_of, multiplicity};
use crate::leaves::matters;
use crate::net::{Gate, Net, Table, Wire};
use crate::settled::{digits, Output};

/// Returns the net with "the gates anew by the settled net's class rule over the given
/// wiring": sides, line order and numbers stay. If the wiring leaves out an input
/// that matters, or some gate's group has more than m classes, no filling of it
/// computes the table; then 0, or the number of the first such gate.
pub fn refilled(net: &Net, table: &Table) -> Result<Net, usize> {
    if leaves_out(net, table) {
        return Err(0);
    }
    let output = Output {
        table,
        group: group_of(&net.used_inputs()),
    };
    let mut groups: Vec<usize> = Vec::new();
    let mut gates = Vec::new();
    for (number, gate) in (1..).zip(&net.gates) {
        let a = group_below(gate.left, &groups);
        let b = group_below(gate.right, &groups);
        let group = a + b;
        if multiplicity(table, group) > table.m {
            return Err(number);
        }
        groups.push(group);
        gates.push(Gate {
            digits: digits(&output, group, a, b),
            ..gate.clone()
        });
    }
    Ok(Net {
        gates,
        ..net.clone()
    })
}

/// Returns whether the wiring "leaves out an input that matters".
fn leaves_out(net: &Net, table: &Table) -> bool {
    let mut unused = (0..net.n).filter(|&input| !net.uses(Wire::Input(input)));
    unused.any(|input| matters(table, input))
}

/// Returns the group of inputs that a wire depends on, given the earlier gates' groups.
fn group_below(wire: Wire, groups: &[usize]) -> usize {
    match wire {
        Wire::Input(input) => 1 << input,
        Wire::Gate(number) => groups[number - 1],
    }
}

/// "The set of the gates whose table field differs from the old one, as the sum of
/// 2 to the power of each one's number."
pub fn changed(old: &Net, new: &Net) -> u64 {
    let mut set = 0;
    for (number, (old, new)) in (1..).zip(old.gates.iter().zip(&new.gates)) {
        if old.digits != new.digits {
            set += 2_u64.pow(number);
        }
    }
    set
}
