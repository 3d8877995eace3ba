//! A net that is only ever an accepted net sheet.

use crate::header::{fields, text_of, Header};
use crate::table::{Shallow, Table};
use crate::{
    arrivals, check, settled, settled_shallow, table_of, Lister, Refusal, Settling, Verdict,
    MOST_CELLS,
};
use std::fmt;
use std::str::FromStr;

/// What a gate's left or right is wired to.
#[derive(Clone, Copy, Debug, PartialEq, Eq, Hash)]
pub enum Wire {
    /// An input, by its place in [`Net::names`].
    Input(usize),
    /// An earlier gate, by its place in [`Net::gates`]: one below its number on the sheet.
    Gate(usize),
}

/// A gate: its two wires and its table.
#[derive(Clone, Debug, PartialEq, Eq, Hash)]
pub struct Gate {
    pub left: Wire,
    pub right: Wire,
    /// levels · levels digits, left's level slowest.
    pub digits: Vec<u8>,
}

/// A net sheet that the library has accepted: a tree of two-input gates, the last of which is the output. Of n inputs it has 1 to n − 1 gates, and inputs
/// may stay unused.
///
/// ```
/// use sitgurp::{Net, Wire};
///
/// let net: Net = "levels inputs\n2 3\na b c\nleft right table\na b 0110\n1 c 0110\n".parse()?;
/// assert_eq!(net.gates()[1].left, Wire::Gate(0));
/// assert_eq!(net.gates()[1].digits, [0, 1, 1, 0]);
/// assert_eq!(net.value(&[1, 0, 1]), Some(0));
/// assert_eq!(net.layers(), 2);
/// assert_eq!(net.settled().to_string(), "levels inputs\n2 3\na b c\nleft right table\nb c 0110\na 1 0110\n");
///
/// let pair: Net = "levels inputs\n2 3\na b c\nleft right table\nc a 0001\n".parse()?;
/// assert_eq!((pair.gates().len(), pair.unused()), (1, vec![1]));
/// # Ok::<(), sitgurp::Refusal>(())
/// ```
#[derive(Clone, PartialEq, Eq, Hash)]
pub struct Net {
    sheet: String,
    header: Header,
    gates: Vec<Gate>,
    table: Table,
}

impl Net {
    /// Reads a net sheet. Refusals are the sheet's, 1 to 4, 6 to 8 and 26.
    pub fn read(sheet: &[u8]) -> Result<Net, Refusal> {
        let lines = Lister::start(sheet)?;
        let table = Table::written(table_of(sheet)?);
        let sheet_text = text_of(sheet.to_vec());
        let header = Header::of(&sheet_text);
        let gates = lines.map(|line| gate_of(line, &header.names)).collect();
        Ok(Net {
            sheet: sheet_text,
            header,
            gates,
            table,
        })
    }

    /// A net sheet that the library has written, and so accepts.
    pub(crate) fn written(sheet: Vec<u8>) -> Net {
        Net::read(&sheet).expect("a sheet that the library has written")
    }

    pub fn levels(&self) -> usize {
        self.header.levels
    }

    /// The inputs' names, in their order.
    pub fn names(&self) -> &[String] {
        &self.header.names
    }

    /// The gates, in the order of their lines; the last is the output.
    pub fn gates(&self) -> &[Gate] {
        &self.gates
    }

    /// The inputs that no gate refers to, by their places in [`names`](Net::names).
    pub fn unused(&self) -> Vec<usize> {
        let reads = |wire| move |gate: &Gate| gate.left == wire || gate.right == wire;
        let is_unused = |&input: &usize| !self.gates.iter().any(reads(Wire::Input(input)));
        (0..self.names().len()).filter(is_unused).collect()
    }

    /// The sheet itself.
    pub fn as_str(&self) -> &str {
        &self.sheet
    }

    /// The net's value for an assignment; None where that has not one level below [`levels`](Net::levels) for each input.
    pub fn value(&self, assignment: &[u8]) -> Option<u8> {
        self.table.ink(assignment)
    }

    /// The table that the net computes.
    pub fn table(&self) -> Table {
        self.table.clone()
    }

    /// The settled net of the same table, on the inputs that matter. Two nets with the same header settle to the same sheet exactly when they have the same
    /// table.
    ///
    /// # Panics
    ///
    /// Never: a `Net` is an accepted sheet, and the library settles each of them.
    pub fn settled(&self) -> Net {
        Net::written(settled(self.sheet.as_bytes()).expect("an accepted sheet"))
    }

    /// A net of the same table that has fewest layers.
    ///
    /// # Panics
    ///
    /// Never, as [`settled`](Net::settled).
    pub fn shallow(&self) -> Shallow {
        let (sheet, layers) = settled_shallow(self.sheet.as_bytes()).expect("an accepted sheet");
        let net = Net::written(sheet);
        Shallow { net, layers }
    }

    /// The most gates on a way from an input to the output: when the output settles if every input is there at 0 and a gate takes a microsecond.
    ///
    /// # Panics
    ///
    /// Never: the arrival sheet has the names of the net.
    pub fn layers(&self) -> usize {
        let mut sheet = String::from("name from to\n");
        for name in self.names() {
            sheet += &format!("{name} 0 0\n");
        }
        let settling = self.settling(sheet.as_bytes(), 4);
        settling.expect("an arrival sheet of these inputs").latest as usize
    }

    /// Checks the net against a table. The only refusal is 12, where levels, inputs or names differ.
    pub fn check(&self, table: &Table) -> Result<Verdict, Refusal> {
        check(self.sheet.as_bytes(), table.as_ref(), &mut [0; MOST_CELLS])
    }

    /// When the output settles, from an arrival sheet and the delay of every gate: see [`arrivals`].
    pub fn settling(&self, arrival_sheet: &[u8], delay: u8) -> Result<Settling, Refusal> {
        arrivals(self.sheet.as_bytes(), arrival_sheet, delay)
    }
}

/// A gate line of an accepted sheet.
fn gate_of(line: &[u8], names: &[String]) -> Gate {
    let line = std::str::from_utf8(line).expect("an accepted sheet is ASCII");
    let mut fields = fields(line);
    let mut field = || fields.next().expect("a gate line has three fields");
    Gate {
        left: wire_of(field(), names),
        right: wire_of(field(), names),
        digits: field().bytes().map(|digit| digit - b'0').collect(),
    }
}

/// A reference that is no input's name is an earlier gate's number, from 1.
fn wire_of(reference: &str, names: &[String]) -> Wire {
    match names.iter().position(|name| name == reference) {
        Some(input) => Wire::Input(input),
        None => {
            let number: usize = reference.parse().expect("a gate's number");
            Wire::Gate(number - 1)
        }
    }
}

impl FromStr for Net {
    type Err = Refusal;

    fn from_str(sheet: &str) -> Result<Net, Refusal> {
        Net::read(sheet.as_bytes())
    }
}

impl TryFrom<&[u8]> for Net {
    type Error = Refusal;

    fn try_from(sheet: &[u8]) -> Result<Net, Refusal> {
        Net::read(sheet)
    }
}

impl AsRef<[u8]> for Net {
    fn as_ref(&self) -> &[u8] {
        self.sheet.as_bytes()
    }
}

/// The sheet.
impl fmt::Display for Net {
    fn fmt(&self, f: &mut fmt::Formatter<'_>) -> fmt::Result {
        f.write_str(&self.sheet)
    }
}

impl fmt::Debug for Net {
    fn fmt(&self, f: &mut fmt::Formatter<'_>) -> fmt::Result {
        let lines = self.sheet.lines().skip(4).collect::<Vec<_>>();
        write!(f, "Net({})", lines.join(" / "))
    }
}
