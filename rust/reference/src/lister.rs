//! "Listing": the gate lister walks a net sheet it has borrowed.

use crate::refusal::Refusal;
use crate::sheet::read_net_sheet;

/// The lines before the first gate line of a net sheet.
const LINES_BEFORE_GATES: usize = 4;

/// An accepted net sheet and how far in it the lister has walked.
#[derive(Clone, Debug)]
pub struct Lister<'a> {
    sheet: &'a [u8],
    at: usize,
}

impl<'a> Lister<'a> {
    /// "it starts only on an accepted sheet, gives the refusal of any other"
    pub fn start(sheet: &'a [u8]) -> Result<Lister<'a>, Refusal> {
        read_net_sheet(sheet)?;
        let mut lister = Lister { sheet, at: 0 };
        for _ in 0..LINES_BEFORE_GATES {
            lister.next();
        }
        Ok(lister)
    }
}

impl<'a> Iterator for Lister<'a> {
    type Item = &'a [u8];

    /// "gives one gate line at each turn, as the part of the sheet that holds it
    /// without its line feed", and "after the last line answers that none is left", at
    /// every further turn too, since the place stays at the sheet's end.
    fn next(&mut self) -> Option<&'a [u8]> {
        let rest = &self.sheet[self.at..];
        let length = rest.iter().position(|&byte| byte == b'\n')?;
        self.at += length + 1;
        Some(&rest[..length])
    }
}
