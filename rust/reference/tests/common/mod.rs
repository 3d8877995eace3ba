//! Sheets written out, and the calls with buffers that are long enough. The
//! sheets are written here without the library's printers, so that those are
//! tested too.
#![allow(dead_code)] // every test file uses its own part of this one

pub mod wirings;

use reference::limits::{MOST_CELLS, MOST_INPUTS, MOST_NET_SHEET_BYTES};
use reference::{
    family_count, family_tree, keep, make, make_shallow, settle, settle_shallow, tidy, write_table,
    Refusal, Sheet,
};
use std::collections::{HashMap, HashSet};

/// Longer than any need of any allowed size: cells, marks, a net sheet, a table
/// sheet.
pub const CELLS: usize = MOST_CELLS as usize + 20;
pub const MARKS: usize = (1 << MOST_INPUTS) / 4 + 20;
pub const NET_SHEET: usize = MOST_NET_SHEET_BYTES + 20;
pub const TABLE_SHEET: usize = 150_000;

/// Document 01 separates lines by `/`.
pub fn lines(text: &str) -> Vec<u8> {
    text.replace('/', "\n").into_bytes()
}

/// Returns a net sheet from m, the names separated by spaces, and gate lines separated by `/`.
pub fn net_sheet(m: usize, names: &str, gates: &str) -> Vec<u8> {
    let n = names.split(' ').count();
    lines(&format!(
        "levels inputs/{m} {n}/{names}/left right table/{gates}/"
    ))
}

/// Returns the levels of the cell with this index.
pub fn levels_of(index: usize, m: usize, n: usize) -> Vec<usize> {
    let mut rest = index;
    let mut levels = vec![0; n];
    for input in (0..n).rev() {
        levels[input] = rest % m;
        rest /= m;
    }
    levels
}

/// Returns the inks of a rule, in index order.
pub fn inks_of(m: usize, n: usize, rule: impl Fn(&[usize]) -> usize) -> Vec<u8> {
    (0..m.pow(n as u32))
        .map(|index| rule(&levels_of(index, m, n)) as u8)
        .collect()
}

/// Returns the number of different columns: the cells are grouped by the levels of the
/// group's members.
pub fn count_of_columns(m: usize, n: usize, inks: &[u8], group: usize) -> usize {
    let mut columns: HashMap<Vec<usize>, Vec<u8>> = HashMap::new();
    for (index, &ink) in inks.iter().enumerate() {
        let levels = levels_of(index, m, n);
        let members = (0..n).filter(|input| group & (1 << input) != 0);
        let column = members.map(|input| levels[input]).collect();
        columns.entry(column).or_default().push(ink);
    }
    columns.into_values().collect::<HashSet<_>>().len()
}

/// Returns the inputs that matter, as a group: some two cells that differ only at this
/// input differ in ink.
pub fn mattering(m: usize, n: usize, inks: &[u8]) -> usize {
    let matters = |input: &usize| {
        let weight = m.pow((n - 1 - input) as u32);
        (0..inks.len()).any(|index| inks[index] != inks[index - index / weight % m * weight])
    };
    (0..n).filter(matters).map(|input| 1 << input).sum()
}

/// Returns the leaves, as a group: "the inputs that matter [..]; if fewer than two do, the
/// first-listed others make up two".
pub fn leaves(m: usize, n: usize, inks: &[u8]) -> usize {
    let mut leaves = mattering(m, n, inks);
    for input in 0..n {
        if leaves.count_ones() < 2 {
            leaves |= 1 << input;
        }
    }
    leaves
}

/// Returns a table sheet from m, the names separated by spaces, and the inks; m is the ink of
/// an open cell.
pub fn table_sheet(m: usize, names: &str, inks: &[u8]) -> Vec<u8> {
    let n = names.split(' ').count();
    let mut text = format!("levels inputs\n{m} {n}\n{names} ink\n");
    for (index, ink) in inks.iter().enumerate() {
        for level in levels_of(index, m, n) {
            text += &format!("{level} ");
        }
        match usize::from(*ink) == m {
            true => text += "-\n",
            false => text += &format!("{ink}\n"),
        }
    }
    text.into_bytes()
}

/// Returns a table sheet from a rule.
pub fn rule_sheet(m: usize, names: &str, rule: impl Fn(&[usize]) -> usize) -> Vec<u8> {
    let n = names.split(' ').count();
    table_sheet(m, names, &inks_of(m, n, rule))
}

/// Returns marks as a call writes them, from the mark of every group: four digits of base
/// four per byte, the lowest first.
pub fn packed(of_groups: &[u8]) -> Vec<u8> {
    let byte = |four: &[u8]| four.iter().rev().fold(0, |byte, mark| 4 * byte + mark);
    of_groups.chunks(4).map(byte).collect()
}

/// Returns the mark of every group, from the bytes that a call wrote.
pub fn unpacked(marks: &[u8]) -> Vec<u8> {
    let four = |&byte: &u8| [0, 2, 4, 6].map(|low| (byte >> low) & 3);
    marks.iter().flat_map(four).collect()
}

pub fn settled(sheet: &[u8]) -> Result<Vec<u8>, Refusal> {
    let (mut cells, mut marks, mut out) = ([7; CELLS], [7; MARKS], [7; NET_SHEET]);
    let length = settle(sheet, &mut cells, &mut marks, &mut out)?;
    Ok(out[..length].to_vec())
}

pub fn made(sheet: &[u8]) -> Result<Vec<u8>, Refusal> {
    let (mut cells, mut marks, mut out) = ([7; CELLS], [7; MARKS], [7; NET_SHEET]);
    let length = make(sheet, &mut cells, &mut marks, &mut out)?;
    Ok(out[..length].to_vec())
}

/// Returns the shallow net sheet of a net sheet, and its layers.
pub fn settled_shallow(sheet: &[u8]) -> Result<(Vec<u8>, usize), Refusal> {
    let (mut cells, mut marks, mut out) = ([7; CELLS], [7; MARKS], [7; NET_SHEET]);
    let answer = settle_shallow(sheet, &mut cells, &mut marks, &mut out)?;
    Ok((out[..answer.length].to_vec(), answer.layers))
}

/// Returns the shallow net sheet of a table sheet, and its layers.
pub fn made_shallow(sheet: &[u8]) -> Result<(Vec<u8>, usize), Refusal> {
    let (mut cells, mut marks, mut out) = ([7; CELLS], [7; MARKS], [7; NET_SHEET]);
    let answer = make_shallow(sheet, &mut cells, &mut marks, &mut out)?;
    Ok((out[..answer.length].to_vec(), answer.layers))
}

/// Returns the number of a table sheet's trees.
pub fn counted(sheet: &[u8]) -> Result<u64, Refusal> {
    family_count(sheet, &mut [7; CELLS], &mut [7; MARKS])
}

/// Returns the net sheet of a table sheet's tree with this number.
pub fn numbered(sheet: &[u8], number: u64) -> Result<Vec<u8>, Refusal> {
    let (mut cells, mut marks, mut out) = ([7; CELLS], [7; MARKS], [7; NET_SHEET]);
    let length = family_tree(sheet, number, &mut cells, &mut marks, &mut out)?;
    Ok(out[..length].to_vec())
}

/// Returns the net sheet with its wiring kept and its gates filled for a table sheet, and
/// the set of the changed gates.
pub fn kept(net: &[u8], table: &[u8]) -> Result<(Vec<u8>, u64), Refusal> {
    let (mut cells, mut out) = ([7; CELLS], [7; NET_SHEET]);
    let answer = keep(net, table, &mut cells, &mut out)?;
    Ok((out[..answer.length].to_vec(), answer.changed))
}

/// Returns the table sheet that tidying a loose sheet gives.
pub fn tidied(sheet: &[u8]) -> Result<Vec<u8>, Refusal> {
    let (mut cells, mut out) = ([7; CELLS], vec![7; TABLE_SHEET]);
    let length = tidy(sheet, &mut cells, &mut out)?;
    Ok(out[..length].to_vec())
}

pub fn table_written(sheet: &[u8]) -> Result<Vec<u8>, Refusal> {
    let mut out = vec![7; TABLE_SHEET];
    let length = write_table(sheet, &mut out)?;
    Ok(out[..length].to_vec())
}

pub fn of_net(number: u8, place: u64) -> Refusal {
    Refusal {
        number,
        place,
        sheet: Sheet::Net,
    }
}

pub fn of_table(number: u8, place: u64) -> Refusal {
    Refusal {
        number,
        place,
        sheet: Sheet::Table,
    }
}

pub fn of_neither(number: u8, place: u64) -> Refusal {
    Refusal {
        number,
        place,
        sheet: Sheet::Neither,
    }
}
