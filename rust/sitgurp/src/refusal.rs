//! A refusal: its number and place, and what they say in words.

use crate::Kind;
use std::fmt;

/// The sheet that a refusal names.
#[derive(Clone, Copy, Debug, PartialEq, Eq)]
pub enum Named {
    Net,
    Table,
    Arrivals,
    Neither,
}

/// Why a call was turned back, and where.
///
/// What `Display` says is what `Debug` says, so that `fn main() -> Result<(), Refusal>` ends in words:
///
/// ```
/// let refusal = sitgurp::made(b"levels inputs\n2 1\n").unwrap_err();
/// assert_eq!(format!("{refusal:?}"), refusal.to_string());
/// ```
#[derive(Clone, PartialEq, Eq)]
pub struct Refusal {
    pub number: usize,
    pub place: usize,
    pub named: Named,
    /// Line and column of the place in the sheet, from 1, where the refusal is a sheet's.
    pub position: Option<(usize, usize)>,
    /// The names of the group's inputs, where the table has no tree.
    pub inputs: Vec<String>,
}

impl Refusal {
    pub(crate) fn new(number: usize, place: usize, named: Named, sheet: &[u8]) -> Refusal {
        let kind = Kind::of(number);
        let position = kind.is_in_a_sheet().then(|| position(sheet, place));
        let inputs = match kind {
            Kind::NoTree => names_of(sheet, place),
            _ => Vec::new(),
        };
        Refusal {
            number,
            place,
            named,
            position,
            inputs,
        }
    }

    /// What it is about.
    pub fn kind(&self) -> Kind {
        Kind::of(self.number)
    }

    /// What is wrong, in words.
    pub fn words(&self) -> &'static str {
        match self.kind() {
            Kind::Layout => "a fixed word or a separator is missing, the sheet ends too early, or bytes follow its last line",
            Kind::Levels => "levels is not one digit from 2 to 9",
            Kind::Inputs => "inputs is not a number from 2 to 12, or there are over 4,096 cells",
            Kind::Name => "a name is malformed, is `ink`, or is repeated",
            Kind::Row => "a row's input level is not the next in the count, or in a loose sheet no digit below levels",
            Kind::Digits => "an ink is no digit below levels and not `-`, or a gate's table is not made of digits below levels",
            Kind::UnknownReference => "a reference is to no input and to no earlier gate",
            Kind::UsedReference => "a reference was used before",
            Kind::BareSize => "levels, inputs or the number of cells is out of bounds, or the cells are not levels to the power inputs",
            Kind::BareCell => "a cell is above levels",
            Kind::Group => "the group is empty, or no group of these inputs",
            Kind::HeadersDiffer => "the two sheets differ in levels, inputs or names",
            Kind::CellsShort => "the cells buffer is too short",
            Kind::MarksShort => "the marks buffer is too short",
            Kind::OutputShort => "the output is too short",
            Kind::NoTree => "no tree of two-input gates computes this table",
            Kind::NoSuchTree => "the table has no tree of this number",
            Kind::ArrivalName => "a name is not the next input",
            Kind::ArrivalTime => "a time is not a number from 0 to 65,535, or `to` is below `from`",
            Kind::RepeatedRow => "a row's assignment was given in an earlier row",
            Kind::JobDone => "the job is done",
            Kind::JobUnfinished => "the job is not done",
            Kind::Wiring => "no gate tables give this wiring the table",
            Kind::Picture => "a side is not 1 to 64, the cells are not width times height, or a cell's level is not below levels",
            Kind::Offsets => "there are not two offsets for each input, or one is not from -2 to 2",
            Kind::UnusedGate => "an earlier gate is never used",
            Kind::OpenCell => "a cell is left open, and a full table is needed",
            Kind::Unknown => "unknown refusal",
        }
    }
}

/// Line and column of a byte, both from 1.
fn position(sheet: &[u8], place: usize) -> (usize, usize) {
    let before = &sheet[..place.min(sheet.len())];
    let line = 1 + before.iter().filter(|&&byte| byte == b'\n').count();
    let column = 1 + before
        .iter()
        .rev()
        .take_while(|&&byte| byte != b'\n')
        .count();
    (line, column)
}

/// The names of a group's inputs, from line 3 of an accepted sheet.
fn names_of(sheet: &[u8], group: usize) -> Vec<String> {
    let line = sheet.split(|&byte| byte == b'\n').nth(2).unwrap_or(&[]);
    line.split(|&byte| byte == b' ')
        .enumerate()
        .filter(|(i, _)| group >> i & 1 == 1)
        .map(|(_, name)| String::from_utf8_lossy(name).into_owned())
        .collect()
}

impl fmt::Display for Refusal {
    fn fmt(&self, f: &mut fmt::Formatter<'_>) -> fmt::Result {
        let sheet = match self.named {
            Named::Net => "net sheet: ",
            Named::Table => "table sheet: ",
            Named::Arrivals => "arrival sheet: ",
            Named::Neither => "",
        };
        write!(f, "{sheet}{} (refusal {}", self.words(), self.number)?;
        match (self.kind(), self.position) {
            (_, Some((line, column))) => {
                write!(f, " at byte {}, line {line}, column {column})", self.place)
            }
            (Kind::BareCell | Kind::OpenCell, _) => write!(f, " at index {})", self.place),
            (Kind::CellsShort | Kind::MarksShort | Kind::OutputShort, _) => match self.place {
                1 => write!(f, "; 1 byte is needed)"),
                bytes => write!(f, "; {bytes} bytes are needed)"),
            },
            (Kind::NoTree, _) => write!(f, " at group {}: {})", self.place, self.inputs.join(", ")),
            (Kind::NoSuchTree, _) => write!(f, " at number {})", self.place),
            (Kind::JobUnfinished, _) => write!(f, "; {} groups are still to go)", self.place),
            (Kind::Wiring, _) if self.place == 0 => {
                write!(f, "; it leaves out an input that matters)")
            }
            (Kind::Wiring, _) => write!(f, " at gate {})", self.place),
            _ => write!(f, ")"),
        }
    }
}

impl fmt::Debug for Refusal {
    fn fmt(&self, f: &mut fmt::Formatter<'_>) -> fmt::Result {
        fmt::Display::fmt(self, f)
    }
}

impl std::error::Error for Refusal {}
