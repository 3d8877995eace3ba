//! A net's wiring kept, and its gates filled anew for a table.

use crate::{ffi, Named, Refusal, MOST_CELLS, MOST_NET_SHEET};

/// What [`keep`] wrote: the sheet's length, and the set of the gates whose tables changed, as the sum of 2 to the power of each one's number.
#[derive(Clone, Copy, Debug, PartialEq, Eq)]
pub struct Kept {
    pub length: usize,
    pub changed: usize,
}

impl Kept {
    /// The numbers of the gates whose tables changed, from 1.
    pub fn gates(&self) -> Vec<usize> {
        let bits = 0..usize::BITS as usize;
        bits.filter(|gate| self.changed >> gate & 1 == 1).collect()
    }
}

/// Fills the gates of a net sheet anew, so that the net has the table of a table sheet under the same header, and writes the net sheet to the front of
/// `output`. Which gate joins what, on which side and in which line stays as it is. The inks go to `cells`.
///
/// Judged are the net sheet, the table sheet, 12, 27 where a cell of the table is open, 13, then 23 where no gate tables whatever give this wiring that
/// table, then 15. The place of 23 is 0 where
/// the wiring leaves out an input that matters, and otherwise the number of the first gate whose group has more than `levels` classes. 23 and 15 leave the
/// cells written and the output as it was.
pub fn keep(
    net_sheet: &[u8],
    table_sheet: &[u8],
    cells: &mut [u8],
    output: &mut [u8],
) -> Result<Kept, Refusal> {
    // SAFETY: each pointer is that of a slice borrowed here, with its length, and borrowed buffers do not overlap.
    let kept = unsafe {
        ffi::sitgurp_keep(
            net_sheet.as_ptr(),
            net_sheet.len(),
            table_sheet.as_ptr(),
            table_sheet.len(),
            cells.as_mut_ptr(),
            cells.len(),
            output.as_mut_ptr(),
            output.len(),
        )
    };
    let refused = |named, sheet| Err(Refusal::new(kept.number, kept.value, named, sheet));
    match (kept.number, kept.named) {
        (0, _) => Ok(Kept {
            length: kept.value,
            changed: kept.changed,
        }),
        (_, 1) => refused(Named::Net, net_sheet),
        (_, 2) => refused(Named::Table, table_sheet),
        _ => refused(Named::Neither, &[]),
    }
}

/// The net sheet that [`keep`] writes, and the numbers of the gates whose tables changed.
///
/// ```
/// let net = b"levels inputs\n2 3\na b c\nleft right table\nc b 0001\n1 a 0110\n";
/// let table = b"levels inputs\n2 3\na b c ink\n0 0 0 0\n0 0 1 1\n0 1 0 1\n0 1 1 0\n1 0 0 1\n1 0 1 0\n1 1 0 0\n1 1 1 1\n";
/// let (kept, changed) = sitgurp::kept(net, table).unwrap();
/// assert_eq!(kept, b"levels inputs\n2 3\na b c\nleft right table\nc b 0110\n1 a 0110\n");
/// assert_eq!(changed, [1]);
/// ```
pub fn kept(net_sheet: &[u8], table_sheet: &[u8]) -> Result<(Vec<u8>, Vec<usize>), Refusal> {
    let mut output = vec![0; MOST_NET_SHEET];
    let kept = keep(net_sheet, table_sheet, &mut [0; MOST_CELLS], &mut output)?;
    output.truncate(kept.length);
    Ok((output, kept.gates()))
}
