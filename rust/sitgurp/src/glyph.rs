//! The glyph that a net prints from a picture.

use crate::{answered, ffi, Named, Picture, Refusal};

/// Writes the glyph that a net prints from a picture to the front of `output`. Answers how many cells it has, `width` times `height`.
///
/// A picture has one byte a cell, a level below the net's levels, row by row, and 1 to 64 cells a side. For each input there are two offsets,
/// across and down, -2 to 2 each. Each cell of the new picture is the net's value with every input read from the old cell at its offset; outside
/// the picture the level is 0. The net sheet is judged first, then the picture (24), the offsets (25) and the output (15).
///
/// ```
/// // an edge is where a cell differs from the one to its left
/// let net = b"levels inputs\n2 2\nown left\nleft right table\nown left 0110\n";
/// let mut output = [9; 7];
/// let answer = sitgurp::glyph(net, 3, 2, &[0, 1, 1, 1, 0, 1], &[0, 0, -1, 0], &mut output);
/// assert_eq!(answer, Ok(6));
/// assert_eq!(output, [0, 1, 0, 1, 1, 1, 9]);
///
/// let refusal = sitgurp::glyph(net, 3, 2, &[0, 1, 1, 1, 0, 1], &[0, 0, -3, 0], &mut output);
/// assert_eq!(
///     refusal.unwrap_err().to_string(),
///     "there are not two offsets for each input, or one is not from -2 to 2 (refusal 25)"
/// );
/// ```
pub fn glyph(
    net_sheet: &[u8],
    width: usize,
    height: usize,
    picture: &[u8],
    offsets: &[i8],
    output: &mut [u8],
) -> Result<usize, Refusal> {
    // SAFETY: each pointer is that of a slice borrowed here, with its length, and borrowed buffers do not overlap.
    let answer = unsafe {
        ffi::sitgurp_glyph(
            net_sheet.as_ptr(),
            net_sheet.len(),
            width,
            height,
            picture.as_ptr(),
            picture.len(),
            offsets.as_ptr(),
            offsets.len(),
            output.as_mut_ptr(),
            output.len(),
        )
    };
    answered(answer, Named::Net, net_sheet)
}

/// The glyph that a net prints from a picture.
pub fn glyph_of(net_sheet: &[u8], picture: &Picture, offsets: &[i8]) -> Result<Picture, Refusal> {
    let (width, height) = (picture.width, picture.height);
    let mut cells = vec![0; crate::MOST_PICTURE];
    let count = glyph(
        net_sheet,
        width,
        height,
        &picture.cells,
        offsets,
        &mut cells,
    )?;
    cells.truncate(count);
    Ok(Picture {
        width,
        height,
        cells,
    })
}
