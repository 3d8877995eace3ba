//! What a good engineer writes in an afternoon: offset lists for each group, an early exit at the first difference, splits by
//! subset enumeration. This is not the second implementation, which is simple rather than fast.

use crate::plain_sheets::read_table;
use reference::net::{Gate, Net, Wire};
use reference::sheet::print_net_sheet;

/// Lists the offsets of a group's assignments into the cells; the first-listed member changes slowest.
fn offsets(m: usize, n: usize, group: usize, out: &mut Vec<usize>) {
    out.clear();
    out.push(0);
    let mut weight = 1;
    for input in (0..n).rev() {
        if group >> input & 1 == 1 {
            let count = out.len();
            for level in 1..m {
                for k in 0..count {
                    out.push(out[k] + level * weight);
                }
            }
        }
        weight *= m;
    }
}

/// Lists the first row of each class, and stops after m classes. Returns the number of classes, or m + 1 if there are more than m.
fn classes(
    m: usize,
    cells: &[u8],
    rows: &[usize],
    columns: &[usize],
    firsts: &mut Vec<usize>,
) -> usize {
    firsts.clear();
    for &row in rows {
        let alike = |&first: &usize| {
            columns
                .iter()
                .all(|&column| cells[row + column] == cells[first + column])
        };
        if !firsts.iter().any(alike) {
            if firsts.len() == m {
                return m + 1;
            }
            firsts.push(row);
        }
    }
    firsts.len()
}

/// Returns a part that contains the first-listed input, if it and the rest have mark 2.
pub fn split(marks: &[u8], group: usize) -> Option<usize> {
    let first = group & group.wrapping_neg();
    let rest = group ^ first;
    let mut part = 0;
    while part != rest {
        let a = first | part;
        if marks[a] == 2 && marks[group ^ a] == 2 {
            return Some(a);
        }
        part = (part.wrapping_sub(rest)) & rest;
    }
    None
}

pub fn marking(m: usize, n: usize, cells: &[u8], marks: &mut [u8]) -> u8 {
    let whole = (1 << n) - 1;
    let (mut rows, mut columns, mut firsts) = (Vec::new(), Vec::new(), Vec::new());
    marks[0] = 0;
    for group in 1..=whole {
        marks[group] = if group & (group - 1) == 0 {
            2
        } else {
            offsets(m, n, group, &mut rows);
            offsets(m, n, whole ^ group, &mut columns);
            if classes(m, cells, &rows, &columns, &mut firsts) > m {
                0
            } else if split(marks, group).is_some() {
                2
            } else {
                1
            }
        };
    }
    marks[whole]
}

/// Returns each row's class, in the order of the rows.
fn row_classes(m: usize, n: usize, cells: &[u8], group: usize) -> (Vec<usize>, Vec<u8>) {
    let (mut rows, mut columns, mut firsts) = (Vec::new(), Vec::new(), Vec::new());
    offsets(m, n, group, &mut rows);
    offsets(m, n, ((1 << n) - 1) ^ group, &mut columns);
    classes(m, cells, &rows, &columns, &mut firsts);
    let same = |a: usize, b: usize| {
        columns
            .iter()
            .all(|&column| cells[a + column] == cells[b + column])
    };
    let class = |&row: &usize| {
        firsts
            .iter()
            .position(|&first| same(row, first))
            .expect("a class") as u8
    };
    let of_rows = rows.iter().map(class).collect();
    (rows, of_rows)
}

/// Returns the inputs that matter; if there are fewer than two, the first-listed others are added.
fn leaves(m: usize, n: usize, cells: &[u8]) -> usize {
    let mut leaves: usize = 0;
    let mut weight = 1;
    for input in (0..n).rev() {
        let mut blocks = cells.chunks_exact(weight * m);
        if !blocks.all(|block| block[weight..] == block[..weight * (m - 1)]) {
            leaves |= 1 << input;
        }
        weight *= m;
    }
    for input in 0..n {
        if leaves.count_ones() < 2 {
            leaves |= 1 << input;
        }
    }
    leaves
}

/// Returns what a group's wire carries at each of its rows: a single input its level, the last gate the ink, any other its class.
fn carried(table: &Table, group: usize) -> (Vec<usize>, Vec<u8>) {
    let &Table { m, n, cells, .. } = table;
    let mut rows = Vec::new();
    if group & (group - 1) == 0 {
        offsets(m, n, group, &mut rows);
        return (rows, (0..m as u8).collect());
    }
    if group == table.leaves {
        offsets(m, n, group, &mut rows);
        let inks = rows.iter().map(|&row| cells[row]).collect();
        return (rows, inks);
    }
    row_classes(m, n, cells, group)
}

/// A table with its marks and its leaves.
struct Table<'a> {
    m: usize,
    n: usize,
    cells: &'a [u8],
    marks: &'a [u8],
    leaves: usize,
}

/// Adds the gates of a group with several members: those of A, those of B, and its own. Returns its wire.
fn add_gates(table: &Table, group: usize, gates: &mut Vec<Gate>) -> Wire {
    let Some(a) = split(table.marks, group) else {
        return Wire::Input(group.trailing_zeros() as usize);
    };
    let left = add_gates(table, a, gates);
    let right = add_gates(table, group ^ a, gates);
    let (a_rows, a_values) = carried(table, a);
    let (b_rows, b_values) = carried(table, group ^ a);
    let (rows, values) = carried(table, group);
    let m = table.m;
    let mut own = vec![0; table.cells.len()];
    rows.iter()
        .zip(&values)
        .for_each(|(&row, &value)| own[row] = value);
    let mut digits = vec![0; m * m];
    for (p, u) in a_rows.iter().zip(&a_values) {
        for (q, v) in b_rows.iter().zip(&b_values) {
            digits[usize::from(*u) * m + usize::from(*v)] = own[p + q];
        }
    }
    gates.push(Gate {
        left,
        right,
        digits,
    });
    Wire::Gate(gates.len())
}

/// Returns a table sheet's settled net sheet, or nothing if there is no tree or a cell is open.
pub fn making(sheet: &[u8]) -> Option<Vec<u8>> {
    let (header, inks) = read_table(sheet)?;
    let (m, n) = (header.m, header.n);
    if inks.iter().any(|&ink| usize::from(ink) == m) {
        return None;
    }
    let mut marks = vec![0; 1 << n];
    if marking(m, n, &inks, &mut marks) != 2 {
        return None;
    }
    let leaves = leaves(m, n, &inks);
    let table = Table {
        m,
        n,
        cells: &inks,
        marks: &marks,
        leaves,
    };
    let mut gates = Vec::new();
    add_gates(&table, leaves, &mut gates);
    Some(print_net_sheet(&header, &Net { m, n, gates }))
}
