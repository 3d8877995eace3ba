//! Shallow nets: of a table's trees the one of fewest layers, and of two net sheets the shallower. The layers of a net are the most gates
//! on a way from an input to the output.

use crate::{answered, ffi, lent, with_buffers, Named, Refusal};

/// The length of the net sheet that a call has written, and the layers of that net.
#[derive(Clone, Copy, Debug, PartialEq, Eq)]
pub struct Layered {
    pub length: usize,
    pub layers: usize,
}

fn layered(answer: ffi::Shallow, named: Named, sheet: &[u8]) -> Result<Layered, Refusal> {
    let ffi::Shallow {
        number,
        value,
        layers,
    } = answer;
    let length = answered(ffi::Answer { number, value }, named, sheet)?;
    Ok(Layered { length, layers })
}

/// Like [`settle`](crate::settle), with the same buffers and refusals; the sheet written is that of the table's shallow net.
pub fn settle_shallow(
    sheet: &[u8],
    cells: &mut [u8],
    marks: &mut [u8],
    output: &mut [u8],
) -> Result<Layered, Refusal> {
    let answer = lent(ffi::sitgurp_settle_shallow, sheet, cells, marks, output);
    layered(answer, Named::Net, sheet)
}

/// Like [`make`](crate::make), with the same buffers and refusals; the sheet written is that of the table's shallow net.
pub fn make_shallow(
    sheet: &[u8],
    cells: &mut [u8],
    marks: &mut [u8],
    output: &mut [u8],
) -> Result<Layered, Refusal> {
    let answer = lent(ffi::sitgurp_make_shallow, sheet, cells, marks, output);
    layered(answer, Named::Table, sheet)
}

/// The sheet of a net's shallow net, and its layers: no net with the same table has fewer.
///
/// ```
/// let chain = b"levels inputs\n2 4\na b c d\nleft right table\na b 0110\n1 c 0110\n2 d 0110\n";
/// let (sheet, layers) = sitgurp::settled_shallow(chain).unwrap();
/// assert_eq!(sheet, b"levels inputs\n2 4\na b c d\nleft right table\na b 0110\nc d 0110\n1 2 0110\n");
/// assert_eq!(layers, 2);
/// assert_eq!(sitgurp::shallower(chain, &sheet), sheet);
/// ```
pub fn settled_shallow(sheet: &[u8]) -> Result<(Vec<u8>, usize), Refusal> {
    with_layers(|cells, marks, output| settle_shallow(sheet, cells, marks, output))
}

/// The sheet of a table's shallow net, and its layers: no net with that table has fewer.
pub fn made_shallow(sheet: &[u8]) -> Result<(Vec<u8>, usize), Refusal> {
    with_layers(|cells, marks, output| make_shallow(sheet, cells, marks, output))
}

fn with_layers(
    call: impl FnOnce(&mut [u8], &mut [u8], &mut [u8]) -> Result<Layered, Refusal>,
) -> Result<(Vec<u8>, usize), Refusal> {
    let mut layers = 0;
    let sheet = with_buffers(|cells, marks, output| {
        let answer = call(cells, marks, output)?;
        layers = answer.layers;
        Ok(answer.length)
    })?;
    Ok((sheet, layers))
}

/// The one of two net sheets whose net has fewer layers, as it is wired, and the first when level: the sheet itself, nothing is copied. Their
/// levels, inputs and names need not be the same. A sheet that is not accepted loses to one that is; of two such, an empty part of
/// the first.
pub fn shallower<'a>(first: &'a [u8], second: &'a [u8]) -> &'a [u8] {
    // SAFETY: each pointer is that of a slice borrowed here, with its length.
    let chosen = unsafe {
        ffi::sitgurp_shallower(first.as_ptr(), first.len(), second.as_ptr(), second.len())
    };
    match chosen.which {
        2 => &second[..chosen.length],
        _ => &first[..chosen.length],
    }
}
