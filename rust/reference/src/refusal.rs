//! Refusals: document 01's number and place.

/// The sheet that a refusal names.
///
/// "A call that refuses either of two sheets judges the net first, and names
/// the sheet it refuses; 12 names neither." Numbers 1 to 8 are about a sheet
/// and name it, in the calls with one sheet too; 18 and 19 are about an arrival
/// sheet and name it, 20 is about a table sheet, 26 about a net sheet, 27 about a
/// table sheet or about bare cells; 9 to 17 and 21 to 25 name neither.
#[derive(Clone, Copy, Debug, PartialEq, Eq)]
pub enum Sheet {
    Net,
    Table,
    Arrivals,
    Neither,
}

#[derive(Clone, Copy, Debug, PartialEq, Eq)]
pub struct Refusal {
    pub number: u8,
    pub place: u64,
    pub sheet: Sheet,
}

// The numbers of document 01's two tables, and those that document 02 adds.
pub const LAYOUT: u8 = 1;
pub const LEVELS: u8 = 2;
pub const INPUTS: u8 = 3;
pub const NAME: u8 = 4;
pub const COUNT: u8 = 5;
pub const DIGITS: u8 = 6;
pub const NO_REFERENT: u8 = 7;
pub const USED_BEFORE: u8 = 8;
pub const BARE_SIZE: u8 = 9;
pub const BARE_CELL: u8 = 10;
pub const GROUP: u8 = 11;
pub const UNLIKE_SHEETS: u8 = 12;
pub const CELLS_SHORT: u8 = 13;
pub const MARKS_SHORT: u8 = 14;
pub const OUTPUT_SHORT: u8 = 15;
pub const NO_TREE: u8 = 16;
pub const ORDER_NUMBER: u8 = 17;
pub const NEXT_INPUT: u8 = 18;
pub const TIME: u8 = 19;
pub const REPEATED_ROW: u8 = 20;
pub const JOB_DONE: u8 = 21;
pub const JOB_UNFINISHED: u8 = 22;
pub const WIRING: u8 = 23;
pub const PICTURE: u8 = 24;
pub const OFFSETS: u8 = 25;
pub const UNUSED_GATE: u8 = 26;
pub const OPEN_CELL: u8 = 27;

impl Refusal {
    /// Returns a refusal that names no sheet (yet).
    pub fn new(number: u8, place: u64) -> Refusal {
        Refusal {
            number,
            place,
            sheet: Sheet::Neither,
        }
    }

    /// Returns the same refusal, naming the sheet it is about.
    pub fn naming(self, sheet: Sheet) -> Refusal {
        Refusal { sheet, ..self }
    }
}

/// "The place of 13 to 15 is the length needed."
pub fn require(number: u8, lent: usize, needed: usize) -> Result<(), Refusal> {
    if lent < needed {
        return Err(Refusal::new(number, needed as u64));
    }
    Ok(())
}
