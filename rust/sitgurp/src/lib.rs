//! Safe Rust over the proved Sitgurp library: tables of shades, and the trees of two-input gates that compute them.
//!
//! Every call is the library's; nothing here decides what the library decides. [`Table`] and [`Net`] are sheets that the library has accepted, and
//! most programs need no more than these two:
//!
//! ```
//! use sitgurp::Table;
//!
//! fn main() -> Result<(), sitgurp::Refusal> {
//!     let table = Table::from_rule(3, &["day", "near", "weight"], |levels| *levels.iter().max().unwrap())?;
//!     let net = table.settled()?;
//!     assert_eq!(net.value(&[0, 2, 1]), Some(2));
//!     println!("{net}");
//!     Ok(())
//! }
//! ```
//!
//! Below them are the calls on bytes, in buffers that the caller lends; [`settled`], [`made`] and [`table_of`] lend buffers of the sizes that
//! always suffice. [`settled_shallow`] and [`made_shallow`] give the
//! tree of fewest layers in place of the settled one, and [`Family`] walks every tree that computes a table. [`multiplicities`] and
//! [`fewest_levels`] put together what calls of the library answer about a table without a tree. [`arrivals`] says when a net's output settles. [`tidied`]
//! makes a
//! table sheet of one that a spreadsheet exported.
//! [`Job`] marks a table one group a step, so that its caller can do other things in between.
//! [`kept`] keeps a net's wiring, and fills its gates anew for another table.
//! [`glyph`] prints a picture by a net. A [`Graymap`] becomes such a picture.
//!
//! ```
//! let sheet = b"levels inputs\n2 3\na b c\nleft right table\na b 0110\n1 c 0110\n";
//! let settled = sitgurp::settled(sheet).unwrap();
//! assert_eq!(settled, b"levels inputs\n2 3\na b c\nleft right table\nb c 0110\na 1 0110\n");
//!
//! let refusal = sitgurp::settled(b"levels inputs\n1 2\n").unwrap_err();
//! assert_eq!((refusal.number, refusal.place), (2, 14));
//! assert_eq!(
//!     refusal.to_string(),
//!     "net sheet: levels is not one digit from 2 to 9 (refusal 2 at byte 14, line 2, column 1)"
//! );
//! ```
//!
//! ```
//! // 2 levels, ink 1 when at least two of three inputs are 1: no tree
//! let cells = [0, 0, 0, 1, 0, 1, 1, 1];
//! let mut marks = [0; 2];
//! assert_eq!(sitgurp::marking(2, 3, &cells, &mut marks), Ok(1));
//! assert_eq!(marks, [0x28, 0x42]);
//! let of_each_group: Vec<u8> = (0..8).map(|group| sitgurp::mark_of(&marks, group)).collect();
//! assert_eq!(of_each_group, [0, 2, 2, 0, 2, 0, 0, 1]);
//! ```

// what can panic says when
#![warn(clippy::missing_panics_doc)]

// tables and nets as types
mod header;
mod kind;
mod net;
mod table;

pub use kind::Kind;
pub use net::{Gate, Net, Wire};
pub use table::{Row, Shallow, Table, Trees};

// the calls on bytes
mod arrivals;
mod counting;
mod family;
mod ffi;
mod glyph;
mod graymap;
mod job;
mod keep;
mod lister;
mod picture;
mod refusal;
mod shallow;
mod tidying;

pub use arrivals::{arrivals, Settling};
pub use counting::{fewest_levels, multiplicities};
pub use family::{family_count, family_tree, Family};
pub use glyph::{glyph, glyph_of};
pub use graymap::{Graymap, GraymapFault};
pub use job::{Job, Passing};
pub use keep::{keep, kept, Kept};
pub use lister::{gate_line, line_at, Lister};
pub use picture::Picture;
pub use refusal::{Named, Refusal};
pub use shallow::{
    made_shallow, make_shallow, settle_shallow, settled_shallow, shallower, Layered,
};
pub use tidying::{tidied, tidy};

/// The most cells that a table has, and so the cells buffer that always suffices.
pub const MOST_CELLS: usize = 4_096;
/// The marks buffer that always suffices: one byte for every four groups of 12 inputs.
pub const MOST_MARKS: usize = (1 << 12) / 4;
/// The output that always suffices for a net sheet.
pub const MOST_NET_SHEET: usize = 512;
/// The output that always suffices for a table sheet: 2 levels with 12 inputs, all names 8 bytes long.
pub const MOST_TABLE_SHEET: usize = 106_627;
/// The output that always suffices for a picture.
pub const MOST_PICTURE: usize = 64 * 64;

/// Returns the version of the proved library as one number, with two digits each for minor and patch: 203 is 0.2.3.
pub fn version() -> u32 {
    // SAFETY: the call takes nothing and writes nothing.
    unsafe { ffi::sitgurp_version() }
}

/// What checking says of a net and a table under the same header.
#[derive(Clone, Copy, Debug, PartialEq, Eq)]
pub enum Verdict {
    Agree,
    /// The lowest index at which they differ.
    Differ(usize),
}

/// The answer of a call that takes one sheet or none. A refusal with a place in the sheet is that sheet's, and so is one of an open cell.
fn answered(answer: ffi::Answer, named: Named, sheet: &[u8]) -> Result<usize, Refusal> {
    if answer.number == 0 {
        return Ok(answer.value);
    }
    let kind = Kind::of(answer.number);
    let is_named = kind.is_in_a_sheet() || kind == Kind::OpenCell;
    let named = if is_named { named } else { Named::Neither };
    Err(Refusal::new(answer.number, answer.value, named, sheet))
}

/// The number of classes of a group of a table given as bare cells, however large. A cell of m is open, and refused with 27.
pub fn multiplicity(m: usize, n: usize, cells: &[u8], group: usize) -> Result<usize, Refusal> {
    // SAFETY: each pointer is that of a slice borrowed here, with its length.
    let answer = unsafe { ffi::sitgurp_multiplicity(m, n, cells.as_ptr(), cells.len(), group) };
    answered(answer, Named::Neither, &[])
}

/// Writes every group's mark to the front of `marks`, four to a byte ([`mark_of`] reads them), and answers the whole group's.
pub fn marking(m: usize, n: usize, cells: &[u8], marks: &mut [u8]) -> Result<usize, Refusal> {
    // SAFETY: each pointer is that of a slice borrowed here, with its length, and borrowed buffers do not overlap.
    let answer = unsafe {
        ffi::sitgurp_marking(
            m,
            n,
            cells.as_ptr(),
            cells.len(),
            marks.as_mut_ptr(),
            marks.len(),
        )
    };
    answered(answer, Named::Neither, &[])
}

/// The mark of a group in a marks buffer that a call wrote: two bits, group 0's the lowest of the first byte.
///
/// ```
/// assert_eq!(sitgurp::mark_of(&[0x28, 0x42], 7), 1);
/// ```
///
/// # Panics
///
/// Where the buffer is too short to hold the group's mark.
pub fn mark_of(marks: &[u8], group: usize) -> u8 {
    marks[group / 4] >> (group % 4 * 2) & 3
}

/// Settles a net sheet: its table into `cells`, its marks into `marks`, the settled net sheet into `output`. Answers the sheet's
/// length. The settled net uses just the inputs that matter; where fewer than two do, the first-listed others make up two.
pub fn settle(
    sheet: &[u8],
    cells: &mut [u8],
    marks: &mut [u8],
    output: &mut [u8],
) -> Result<usize, Refusal> {
    let answer = lent(ffi::sitgurp_settle, sheet, cells, marks, output);
    answered(answer, Named::Net, sheet)
}

/// Makes the settled net of a table sheet, with the same buffers as [`settle`]. A table with open cells is refused with 27.
pub fn make(
    sheet: &[u8],
    cells: &mut [u8],
    marks: &mut [u8],
    output: &mut [u8],
) -> Result<usize, Refusal> {
    let answer = lent(ffi::sitgurp_make, sheet, cells, marks, output);
    answered(answer, Named::Table, sheet)
}

fn lent<A>(
    call: ffi::SheetCall<A>,
    sheet: &[u8],
    cells: &mut [u8],
    marks: &mut [u8],
    output: &mut [u8],
) -> A {
    // SAFETY: each pointer is that of a slice borrowed here, with its length, and borrowed buffers do not overlap.
    unsafe {
        call(
            sheet.as_ptr(),
            sheet.len(),
            cells.as_mut_ptr(),
            cells.len(),
            marks.as_mut_ptr(),
            marks.len(),
            output.as_mut_ptr(),
            output.len(),
        )
    }
}

/// Checks a net sheet against a table sheet, and puts the table sheet's inks in `cells`. Open cells, which hold m there, are passed over.
pub fn check(net_sheet: &[u8], table_sheet: &[u8], cells: &mut [u8]) -> Result<Verdict, Refusal> {
    // SAFETY: each pointer is that of a slice borrowed here, with its length, and borrowed buffers do not overlap.
    let verdict = unsafe {
        ffi::sitgurp_check(
            net_sheet.as_ptr(),
            net_sheet.len(),
            table_sheet.as_ptr(),
            table_sheet.len(),
            cells.as_mut_ptr(),
            cells.len(),
        )
    };
    let refused = |named, sheet| Err(Refusal::new(verdict.number, verdict.value, named, sheet));
    match (verdict.kind, verdict.named) {
        (0, _) => Ok(Verdict::Agree),
        (1, _) => Ok(Verdict::Differ(verdict.value)),
        (_, 1) => refused(Named::Net, net_sheet),
        (_, 2) => refused(Named::Table, table_sheet),
        _ => refused(Named::Neither, &[]),
    }
}

/// Writes the table sheet of a net sheet to the front of `output`. Answers its length.
pub fn write_table(sheet: &[u8], output: &mut [u8]) -> Result<usize, Refusal> {
    // SAFETY: each pointer is that of a slice borrowed here, with its length, and borrowed buffers do not overlap.
    let answer = unsafe {
        ffi::sitgurp_write_table(
            sheet.as_ptr(),
            sheet.len(),
            output.as_mut_ptr(),
            output.len(),
        )
    };
    answered(answer, Named::Net, sheet)
}

/// The settled sheet of a net sheet.
pub fn settled(sheet: &[u8]) -> Result<Vec<u8>, Refusal> {
    with_buffers(|cells, marks, output| settle(sheet, cells, marks, output))
}

/// The settled net sheet of a table sheet.
pub fn made(sheet: &[u8]) -> Result<Vec<u8>, Refusal> {
    with_buffers(|cells, marks, output| make(sheet, cells, marks, output))
}

/// The table sheet of a net sheet.
pub fn table_of(sheet: &[u8]) -> Result<Vec<u8>, Refusal> {
    let mut output = vec![0; MOST_TABLE_SHEET];
    let length = write_table(sheet, &mut output)?;
    output.truncate(length);
    Ok(output)
}

fn with_buffers(
    call: impl FnOnce(&mut [u8], &mut [u8], &mut [u8]) -> Result<usize, Refusal>,
) -> Result<Vec<u8>, Refusal> {
    let mut output = vec![0; MOST_NET_SHEET];
    let length = call(&mut [0; MOST_CELLS], &mut [0; MOST_MARKS], &mut output)?;
    output.truncate(length);
    Ok(output)
}
