//! A table that is only ever an accepted table sheet.

use crate::header::{text_of, Header};
use crate::net::Net;
use crate::{counting, made, made_shallow, Family, Refusal, MOST_CELLS};
use std::fmt;
use std::iter::FusedIterator;
use std::str::FromStr;

/// A table sheet that the library has accepted: levels, input names, and an ink for every assignment. Cells may be left open, for assignments that cannot
/// occur: `-` on the sheet, and the ink is then [`levels`](Table::levels). A check passes over them; whatever makes trees needs a full table.
///
/// ```
/// use sitgurp::{Kind, Table};
///
/// // the heavier of two strokes, four shades
/// let table = Table::from_rule(4, &["weight", "near"], |levels| levels[0].max(levels[1]))?;
/// assert_eq!(table.ink(&[1, 3]), Some(3));
/// let net = table.settled()?;
/// assert_eq!(net.gates().len(), 1);
/// assert_eq!(net.check(&table)?, sitgurp::Verdict::Agree);
///
/// // near 0 and near 1 do not occur
/// let open = Table::from_rule(4, &["weight", "near"], |levels| if levels[1] < 2 { 4 } else { levels[0] })?;
/// assert_eq!((open.open().len(), open.ink(&[1, 0])), (8, Some(4)));
/// assert_eq!(net.check(&open)?, sitgurp::Verdict::Differ(2));
/// assert_eq!(open.settled().unwrap_err().kind(), Kind::OpenCell);
///
/// // a sheet is the library's to judge
/// let refusal = "levels inputs\n2 2\na b ink\n0 0 5\n".parse::<Table>().unwrap_err();
/// assert_eq!(refusal.kind(), Kind::Digits);
/// # Ok::<(), sitgurp::Refusal>(())
/// ```
#[derive(Clone, PartialEq, Eq, Hash)]
pub struct Table {
    sheet: String,
    header: Header,
    inks: Vec<u8>,
}

/// One row of a table: a level for each input, and the ink, which is the number of levels where the cell is open.
#[derive(Clone, Debug, PartialEq, Eq, Hash)]
pub struct Row {
    pub levels: Vec<u8>,
    pub ink: u8,
}

/// Of a table's trees one of fewest layers, and how many these are.
#[derive(Clone, Debug, PartialEq, Eq)]
pub struct Shallow {
    pub net: Net,
    pub layers: usize,
}

impl Table {
    /// Reads a table sheet. Refusals are the sheet's, 1 to 6.
    pub fn read(sheet: &[u8]) -> Result<Table, Refusal> {
        let inks = counting::inks_of(sheet)?;
        let sheet = text_of(sheet.to_vec());
        let header = Header::of(&sheet);
        Ok(Table {
            sheet,
            header,
            inks,
        })
    }

    /// The table of a rule, which is asked for the ink of every assignment; `levels` leaves the cell open. Levels, names and inks are the library's to judge:
    /// refusals are those of the sheet that has this table.
    ///
    /// # Panics
    ///
    /// Where the rule does.
    pub fn from_rule<N: AsRef<str>>(
        levels: usize,
        names: &[N],
        mut rule: impl FnMut(&[u8]) -> u8,
    ) -> Result<Table, Refusal> {
        let names: Vec<String> = names.iter().map(|name| name.as_ref().to_string()).collect();
        let inputs = names.len();
        let mut sheet = format!("levels inputs\n{levels} {inputs}\n");
        for name in &names {
            sheet += &format!("{name} ");
        }
        sheet += "ink\n";
        // a size that no sheet has is refused by the header alone
        let cells = levels.checked_pow(inputs as u32).unwrap_or(usize::MAX);
        if levels >= 2 && cells <= MOST_CELLS {
            let header = Header { levels, names };
            for index in 0..cells {
                let assignment = header.assignment(index);
                let ink = rule(&assignment);
                for level in assignment {
                    sheet += &format!("{level} ");
                }
                match usize::from(ink) == header.levels {
                    true => sheet += "-\n",
                    false => sheet += &format!("{ink}\n"),
                }
            }
        }
        Table::read(sheet.as_bytes())
    }

    /// The table sheet that the library has written of a net: its inks are read off its rows.
    pub(crate) fn written(sheet: Vec<u8>) -> Table {
        let sheet = text_of(sheet);
        let header = Header::of(&sheet);
        let ink = |row: &str| row.as_bytes()[row.len() - 1] - b'0';
        let inks = sheet.lines().skip(3).map(ink).collect();
        Table {
            sheet,
            header,
            inks,
        }
    }

    pub fn levels(&self) -> usize {
        self.header.levels
    }

    /// The inputs' names, in their order.
    pub fn names(&self) -> &[String] {
        &self.header.names
    }

    /// The inks, in the order of the rows; [`levels`](Table::levels) for an open cell.
    pub fn inks(&self) -> &[u8] {
        &self.inks
    }

    /// The sheet itself.
    pub fn as_str(&self) -> &str {
        &self.sheet
    }

    /// The indices of the open cells.
    pub fn open(&self) -> Vec<usize> {
        let is_open = |&index: &usize| usize::from(self.inks[index]) == self.levels();
        (0..self.inks.len()).filter(is_open).collect()
    }

    /// Whether no cell is open.
    pub fn is_full(&self) -> bool {
        self.open().is_empty()
    }

    /// The ink of an assignment, [`levels`](Table::levels) for an open cell; None where that has not one level below [`levels`](Table::levels) for each input.
    pub fn ink(&self, assignment: &[u8]) -> Option<u8> {
        self.header
            .index_of(assignment)
            .map(|index| self.inks[index])
    }

    /// The row of an index, from 0.
    pub fn row(&self, index: usize) -> Option<Row> {
        let ink = *self.inks.get(index)?;
        let levels = self.header.assignment(index);
        Some(Row { levels, ink })
    }

    /// The rows, in their order: the last input changes fastest.
    ///
    /// # Panics
    ///
    /// Never: only rows of the table are asked for.
    pub fn rows(&self) -> impl DoubleEndedIterator<Item = Row> + ExactSizeIterator + '_ {
        (0..self.inks.len()).map(|index| self.row(index).expect("an index below the count"))
    }

    /// The settled net, or refusal 16 where no tree computes the table, or 27 where a cell is open. It uses just the inputs that matter; where fewer than two
    /// do, the first-listed
    /// others make up two.
    pub fn settled(&self) -> Result<Net, Refusal> {
        made(self.sheet.as_bytes()).map(Net::written)
    }

    /// A tree of fewest layers, or refusal 16 or 27.
    pub fn shallow(&self) -> Result<Shallow, Refusal> {
        let (sheet, layers) = made_shallow(self.sheet.as_bytes())?;
        let net = Net::written(sheet);
        Ok(Shallow { net, layers })
    }

    /// Every tree on the inputs of the settled net that computes the table, each wiring once, from number 0, the settled net; none where there is no tree.
    /// Refusal 27 where a cell is open.
    ///
    /// ```
    /// let sum = sitgurp::Table::from_rule(2, &["a", "b", "c"], |levels| levels.iter().sum::<u8>() % 2)?;
    /// assert_eq!(sum.family()?.size(), 3);
    /// assert_eq!(sum.family()?.next(), Some(sum.settled()?));
    /// assert!(sum.family()?.all(|net| net.table() == sum));
    /// # Ok::<(), sitgurp::Refusal>(())
    /// ```
    pub fn family(&self) -> Result<Trees<'_>, Refusal> {
        Family::of(self.sheet.as_bytes()).map(Trees)
    }

    /// The number of classes of a group of inputs: bit i of its number is input i. Refusal 27 where a cell is open, 11 where it is no group.
    pub fn multiplicity(&self, group: usize) -> Result<usize, Refusal> {
        crate::multiplicity(self.levels(), self.names().len(), &self.inks, group)
    }

    /// The fewest levels that the wires between gates would have to carry for a tree to compute the table: see [`fewest_levels`](crate::fewest_levels).
    /// Refusal 27 where a cell is open.
    pub fn fewest_levels(&self) -> Result<usize, Refusal> {
        crate::fewest_levels(self.sheet.as_bytes())
    }
}

impl FromStr for Table {
    type Err = Refusal;

    fn from_str(sheet: &str) -> Result<Table, Refusal> {
        Table::read(sheet.as_bytes())
    }
}

impl TryFrom<&[u8]> for Table {
    type Error = Refusal;

    fn try_from(sheet: &[u8]) -> Result<Table, Refusal> {
        Table::read(sheet)
    }
}

impl AsRef<[u8]> for Table {
    fn as_ref(&self) -> &[u8] {
        self.sheet.as_bytes()
    }
}

/// The sheet.
impl fmt::Display for Table {
    fn fmt(&self, f: &mut fmt::Formatter<'_>) -> fmt::Result {
        f.write_str(&self.sheet)
    }
}

impl fmt::Debug for Table {
    fn fmt(&self, f: &mut fmt::Formatter<'_>) -> fmt::Result {
        write!(
            f,
            "Table({} levels, inputs {})",
            self.levels(),
            self.names().join(" ")
        )
    }
}

/// The trees of a table, in the order of their numbers; see [`Table::family`]. A net is made when it is asked for, and none on the way to it.
#[derive(Clone, Debug)]
pub struct Trees<'a>(Family<'a>);

impl Trees<'_> {
    /// How many trees there are, however many have been walked.
    pub fn size(&self) -> u64 {
        self.0.size()
    }

    /// The tree of a number, whatever has been walked; refusal 17 where the number is not below [`size`](Trees::size).
    pub fn tree(&self, number: u64) -> Result<Net, Refusal> {
        self.0.tree(number).map(Net::written)
    }
}

impl Iterator for Trees<'_> {
    type Item = Net;

    fn next(&mut self) -> Option<Net> {
        self.0.next().map(Net::written)
    }

    fn nth(&mut self, k: usize) -> Option<Net> {
        self.0.nth(k).map(Net::written)
    }

    fn size_hint(&self) -> (usize, Option<usize>) {
        self.0.size_hint()
    }
}

impl DoubleEndedIterator for Trees<'_> {
    fn next_back(&mut self) -> Option<Net> {
        self.0.next_back().map(Net::written)
    }
}

impl FusedIterator for Trees<'_> {}
