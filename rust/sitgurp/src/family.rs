//! The family of a table's trees: every wiring that computes the table and has the inputs of the settled net as leaves, each under just one number. Nets that
//! differ only in which side is left, in gate numbers or in gate tables are one wiring.

use crate::{answered, ffi, with_buffers, Named, Refusal, MOST_CELLS, MOST_MARKS};
use std::iter::FusedIterator;
use std::ops::Range;

/// How many trees compute a table sheet's table; 0 where there is none, and never refusal 16. Its inks go into `cells` and its marks into
/// `marks`, as in [`make`](crate::make).
pub fn family_count(sheet: &[u8], cells: &mut [u8], marks: &mut [u8]) -> Result<u64, Refusal> {
    // SAFETY: each pointer is that of a slice borrowed here, with its length, and borrowed buffers do not overlap.
    let answer = unsafe {
        ffi::sitgurp_family_count(
            sheet.as_ptr(),
            sheet.len(),
            cells.as_mut_ptr(),
            cells.len(),
            marks.as_mut_ptr(),
            marks.len(),
        )
    };
    answered(answer, Named::Table, sheet).map(|count| count as u64)
}

/// Writes the tree of a number, from 0, with the buffers of [`make`](crate::make), and answers the sheet's length. Number 0 is the settled
/// net. A number that is not below the count is refused with 17, in the place of 16.
pub fn family_tree(
    sheet: &[u8],
    number: u64,
    cells: &mut [u8],
    marks: &mut [u8],
    output: &mut [u8],
) -> Result<usize, Refusal> {
    // SAFETY: each pointer is that of a slice borrowed here, with its length, and borrowed buffers do not overlap.
    let answer = unsafe {
        ffi::sitgurp_family_tree(
            sheet.as_ptr(),
            sheet.len(),
            number,
            cells.as_mut_ptr(),
            cells.len(),
            marks.as_mut_ptr(),
            marks.len(),
            output.as_mut_ptr(),
            output.len(),
        )
    };
    answered(answer, Named::Table, sheet)
}

/// Walks the family of a table sheet's trees in the order of their numbers, from either end: by the number of the part A that goes left at
/// the last gate, then by A's tree, then by the other part's. Each item is a net sheet.
///
/// A sheet is made when it is asked for, and none on the way to it: [`nth`](Iterator::nth), [`last`](Iterator::last) and
/// [`count`](Iterator::count) are as quick in a family of 13,749,310,575, the largest there is.
///
/// ```
/// // the sum of three inputs, which may be wired in any way
/// let sheet = b"levels inputs\n2 3\na b c ink\n0 0 0 0\n0 0 1 1\n0 1 0 1\n0 1 1 0\n1 0 0 1\n1 0 1 0\n1 1 0 0\n1 1 1 1\n";
/// let mut family = sitgurp::Family::of(sheet).unwrap();
/// assert_eq!(family.size(), 3);
/// assert_eq!(family.next(), sitgurp::made(sheet).ok());
/// assert_eq!(family.next().unwrap(), b"levels inputs\n2 3\na b c\nleft right table\na b 0110\n1 c 0110\n");
/// assert_eq!(family.next().unwrap(), b"levels inputs\n2 3\na b c\nleft right table\na c 0110\n1 b 0110\n");
/// assert_eq!(family.next(), None);
/// ```
#[derive(Clone, Debug)]
pub struct Family<'a> {
    sheet: &'a [u8],
    size: u64,
    /// The numbers that are still to come.
    left: Range<u64>,
}

impl<'a> Family<'a> {
    /// The family of a table sheet, from number 0. Refusals are the sheet's, 1 to 6 and 27; a table without a tree has an empty family.
    pub fn of(sheet: &'a [u8]) -> Result<Family<'a>, Refusal> {
        let size = family_count(sheet, &mut [0; MOST_CELLS], &mut [0; MOST_MARKS])?;
        let left = 0..size;
        Ok(Family { sheet, size, left })
    }

    /// How many trees there are, however many have been walked.
    pub fn size(&self) -> u64 {
        self.size
    }

    /// The net sheet of the tree of a number, whatever has been walked; 17 where the number is not below [`size`](Family::size).
    pub fn tree(&self, number: u64) -> Result<Vec<u8>, Refusal> {
        with_buffers(|cells, marks, output| family_tree(self.sheet, number, cells, marks, output))
    }

    /// A tree of a number that was still to come: the sheet is accepted, and the buffers suffice.
    fn below_the_size(&self, number: u64) -> Vec<u8> {
        self.tree(number).expect("a number below the count")
    }
}

impl Iterator for Family<'_> {
    type Item = Vec<u8>;

    fn next(&mut self) -> Option<Vec<u8>> {
        let number = self.left.next()?;
        Some(self.below_the_size(number))
    }

    fn nth(&mut self, k: usize) -> Option<Vec<u8>> {
        let number = self.left.nth(k)?;
        Some(self.below_the_size(number))
    }

    fn last(mut self) -> Option<Vec<u8>> {
        self.next_back()
    }

    fn count(self) -> usize {
        self.left.count()
    }

    fn size_hint(&self) -> (usize, Option<usize>) {
        self.left.size_hint()
    }
}

impl DoubleEndedIterator for Family<'_> {
    fn next_back(&mut self) -> Option<Vec<u8>> {
        let number = self.left.next_back()?;
        Some(self.below_the_size(number))
    }

    fn nth_back(&mut self, k: usize) -> Option<Vec<u8>> {
        let number = self.left.nth_back(k)?;
        Some(self.below_the_size(number))
    }
}

// a count fits in 64 bits
#[cfg(target_pointer_width = "64")]
impl ExactSizeIterator for Family<'_> {}

impl FusedIterator for Family<'_> {}
