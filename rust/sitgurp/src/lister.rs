//! The gate lister: one gate line at each turn, as the part of the sheet that holds it.

use crate::{answered, ffi, Named, Refusal};

/// Walks the gate lines of an accepted net sheet. The sheet is read once, at the start.
///
/// ```
/// let sheet = b"levels inputs\n2 3\na b c\nleft right table\na b 0110\n1 c 0110\n";
/// let lines: Vec<&[u8]> = sitgurp::Lister::start(sheet).unwrap().collect();
/// assert_eq!(lines, [&b"a b 0110"[..], b"1 c 0110"]);
/// ```
#[derive(Clone, Debug)]
pub struct Lister<'a> {
    sheet: &'a [u8],
    at: usize,
}

impl<'a> Lister<'a> {
    /// Starts on an accepted sheet, and gives the refusal of any other.
    pub fn start(sheet: &'a [u8]) -> Result<Lister<'a>, Refusal> {
        // SAFETY: the pointer is good for the slice's length, and the call writes nothing.
        let opened = unsafe { ffi::sitgurp_lister_open(sheet.as_ptr(), sheet.len()) };
        let at = answered(opened, Named::Net, sheet)?;
        Ok(Lister { sheet, at })
    }
}

impl<'a> Iterator for Lister<'a> {
    type Item = &'a [u8];

    fn next(&mut self) -> Option<&'a [u8]> {
        let (line, next) = line_at(self.sheet, self.at);
        self.at = next;
        line
    }
}

/// Returns the line that starts at byte `at` of any bytes, without its line feed, or `None` at their end and past it; and the position of the next line.
/// It judges nothing: [`Lister`] starts only on an accepted net sheet.
///
/// ```
/// assert_eq!(sitgurp::line_at(b"one\ntwo\n", 1), (Some(&b"ne"[..]), 4));
/// assert_eq!(sitgurp::line_at(b"one\ntwo\n", 8), (None, 8));
/// ```
pub fn line_at(sheet: &[u8], at: usize) -> (Option<&[u8]>, usize) {
    // SAFETY: the pointer is good for the slice's length, and the call writes nothing.
    let line = unsafe { ffi::sitgurp_lister_next(sheet.as_ptr(), sheet.len(), at) };
    let part = (line.kind == 1).then(|| &sheet[line.start..line.start + line.length]);
    (part, line.next)
}

/// Returns turn `k` of the lister by itself, from 0: a gate line, or `None` after the last. It reads the sheet each time; [`Lister`] reads it once.
pub fn gate_line(sheet: &[u8], k: usize) -> Result<Option<&[u8]>, Refusal> {
    // SAFETY: the pointer is good for the slice's length, and the call writes nothing.
    let turn = unsafe { ffi::sitgurp_gate_line(sheet.as_ptr(), sheet.len(), k) };
    match turn.kind {
        2 => Err(Refusal::new(turn.first, turn.second, Named::Net, sheet)),
        1 => Ok(Some(&sheet[turn.first..turn.first + turn.second])),
        _ => Ok(None),
    }
}
