//! For the designer of a refused table: how many classes each group has, and how many levels would do.

use crate::{make, multiplicity, tidy, Kind, Refusal, MOST_CELLS, MOST_MARKS};

/// Levels, inputs and inks of a table sheet.
struct Bare {
    m: usize,
    n: usize,
    cells: Vec<u8>,
}

/// Reads a full table sheet by making it with no output. An accepted sheet is then refused with 16 or 15, and both leave the cells written;
/// any other refusal is the sheet's.
fn bare(sheet: &[u8]) -> Result<Bare, Refusal> {
    let mut cells = vec![0; MOST_CELLS];
    if let Err(refusal) = make(sheet, &mut cells, &mut [0; MOST_MARKS], &mut []) {
        if !matches!(refusal.kind(), Kind::OutputShort | Kind::NoTree) {
            return Err(refusal);
        }
    }
    let (m, n) = size(sheet);
    cells.truncate(m.pow(n as u32));
    Ok(Bare { m, n, cells })
}

/// Levels and inputs, from line 2 of an accepted sheet.
fn size(sheet: &[u8]) -> (usize, usize) {
    let line = sheet.split(|&byte| byte == b'\n').nth(1).unwrap_or(&[]);
    let mut values = line.split(|&byte| byte == b' ').map(decimal);
    let mut next = || {
        values
            .next()
            .expect("an accepted sheet has two values here")
    };
    (next(), next())
}

fn decimal(field: &[u8]) -> usize {
    let digits = field.iter().map(|digit| usize::from(digit - b'0'));
    digits.fold(0, |value, digit| value * 10 + digit)
}

/// The inks of a table sheet, in the order of its rows, m for an open cell. Refusals are the sheet's, 1 to 6.
pub(crate) fn inks_of(sheet: &[u8]) -> Result<Vec<u8>, Refusal> {
    match bare(sheet) {
        Err(refusal) if refusal.kind() == Kind::OpenCell => Ok(open_inks(sheet)),
        bare => bare.map(|bare| bare.cells),
    }
}

/// The inks of an accepted sheet with open cells: tidied with no output it is refused with 15, which leaves the cells written.
fn open_inks(sheet: &[u8]) -> Vec<u8> {
    let mut cells = vec![0; MOST_CELLS];
    let refusal = tidy(sheet, &mut cells, &mut []).expect_err("no output");
    debug_assert_eq!(refusal.kind(), Kind::OutputShort);
    let (m, n) = size(sheet);
    cells.truncate(m.pow(n as u32));
    cells
}

/// Every group's number of classes, of a table sheet: entry g is the [`multiplicity`] of group g. The empty group has none (the call
/// refuses it with 11), and entry 0 is 0.
///
/// A gate that joins just the inputs of a group has to tell its classes apart, so entry g is the fewest levels that the gate's wire
/// must carry. Refusals are the sheet's, 1 to 6 and 27.
///
/// ```
/// // 2 levels, ink 1 when at least two of three inputs are 1: any two of them need a wire of three levels
/// let sheet = b"levels inputs\n2 3\na b c ink\n0 0 0 0\n0 0 1 0\n0 1 0 0\n0 1 1 1\n1 0 0 0\n1 0 1 1\n1 1 0 1\n1 1 1 1\n";
/// assert_eq!(sitgurp::multiplicities(sheet).unwrap(), [0, 2, 2, 3, 2, 3, 3, 2]);
/// assert_eq!(sitgurp::fewest_levels(sheet).unwrap(), 3);
/// ```
pub fn multiplicities(sheet: &[u8]) -> Result<Vec<usize>, Refusal> {
    let Bare { m, n, cells } = bare(sheet)?;
    let counts = (1..1 << n).map(|group| multiplicity(m, n, &cells, group));
    std::iter::once(Ok(0)).chain(counts).collect()
}

/// The fewest levels that the gates' wires would have to carry for a tree to compute a table sheet's table, its inputs and inks as they
/// are: at most m where there is a tree, and above m where the table is refused with 16.
///
/// It is the least k for which the whole group has mark 2 when k stands in place of m in the rule for marks, an input being a leaf
/// whatever k is. The output is one of the wires, so k is not below the number of distinct inks. Where there is no tree that makes no
/// difference, since the inks are at most m: each way to wire the inputs then has a wire below the last gate that must carry k levels
/// or more, and one way has none that must carry more than k. Inputs that never matter may be wired or left out: k stays the same.
///
/// If a sheet may have k levels with so many inputs, the tree is had as a sheet too: the same rule with k levels, where an input above
/// m - 1 acts as m - 1, is made. Refusals are the sheet's, 1 to 6 and 27.
pub fn fewest_levels(sheet: &[u8]) -> Result<usize, Refusal> {
    let counts = multiplicities(sheet)?;
    // of each group the fewest that a tree over it needs; a part has a lower number, so it is there already
    let mut fewest: Vec<usize> = Vec::with_capacity(counts.len());
    for (group, &count) in counts.iter().enumerate() {
        let of_splits = parts(group).map(|part| fewest[part].max(fewest[group - part]));
        fewest.push(match of_splits.min() {
            Some(split) => count.max(split),
            // a single input is a leaf
            None => 0,
        });
    }
    Ok(fewest.pop().unwrap_or(0))
}

/// The parts of a group that hold its first-listed input, without the group itself: one for each way to part it in two.
fn parts(group: usize) -> impl Iterator<Item = usize> {
    let first = group & group.wrapping_neg();
    let rest = group - first;
    // counts through the subsets of the rest, from none upward
    let next = move |part: &usize| Some(part.wrapping_sub(rest) & rest);
    std::iter::successors(Some(0), next)
        .take_while(move |&part| part != rest)
        .map(move |part| first + part)
}
