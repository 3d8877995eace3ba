//! Tidying: from a loosely laid table sheet, as a spreadsheet exports it, to the table sheet with the same rows.

use crate::{answered, ffi, Named, Refusal, MOST_CELLS, MOST_TABLE_SHEET};

/// Tidies a loose table sheet: its inks into `cells`, in index order, and its table sheet into `output`. Answers that sheet's length.
///
/// In a loose sheet fields are parted by one or more spaces, spaces may stand before a line feed, and the rows may stand in any order; every
/// assignment has just one row. The sign of an open cell is carried over, and its cell holds m. Needed: as many cells as the table has, and the table sheet's
/// length. A short output leaves the cells written; every
/// other refusal changes no buffer.
///
/// ```
/// let loose = b"levels inputs\n2 2\na b   ink  \n1 1   1\n0 1   0\n1 0   0\n0 0   0\n";
/// let (mut cells, mut output) = ([9; 4], [0; 64]);
/// let length = sitgurp::tidy(loose, &mut cells, &mut output).unwrap();
/// assert_eq!(cells, [0, 0, 0, 1]);
/// assert_eq!(&output[..length], b"levels inputs\n2 2\na b ink\n0 0 0\n0 1 0\n1 0 0\n1 1 1\n");
///
/// let refusal = sitgurp::tidied(b"levels inputs\n2 2\na b ink\n1 1 1\n1 1 1\n").unwrap_err();
/// assert_eq!(
///     refusal.to_string(),
///     "table sheet: a row's assignment was given in an earlier row (refusal 20 at byte 32, line 5, column 1)"
/// );
/// ```
pub fn tidy(sheet: &[u8], cells: &mut [u8], output: &mut [u8]) -> Result<usize, Refusal> {
    // SAFETY: each pointer is that of a slice borrowed here, with its length, and borrowed buffers do not overlap.
    let answer = unsafe {
        ffi::sitgurp_tidy(
            sheet.as_ptr(),
            sheet.len(),
            cells.as_mut_ptr(),
            cells.len(),
            output.as_mut_ptr(),
            output.len(),
        )
    };
    answered(answer, Named::Table, sheet)
}

/// The table sheet of a loose table sheet.
pub fn tidied(sheet: &[u8]) -> Result<Vec<u8>, Refusal> {
    let mut output = vec![0; MOST_TABLE_SHEET];
    let length = tidy(sheet, &mut [0; MOST_CELLS], &mut output)?;
    output.truncate(length);
    Ok(output)
}
