//! "Sheets": reading them, with the number and place of what is wrong, and
//! printing them.
//!
//! "Sheets are judged from the front, field by field. An empty field is 1.
//! Otherwise the field is judged, then the byte after it."

use crate::arrivals::Arrival;
use crate::fields::{
    count_field, digit, digits_field, fixed_word, ink_byte, ink_field, inputs_field, level_field,
    levels_field, name_field, next_input_field, reference_field, time_field, Judged,
};
use crate::net::{all_inputs, count_up, place_in_count, Gate, Net, Table, Wire};
use crate::refusal::{self, Refusal, Sheet};

const SPACE: u8 = b' ';
const LINE_FEED: u8 = b'\n';

/// The first three lines of a sheet, without `ink`. Two headers are equal if m,
/// n and the names in their order are.
#[derive(Clone, Debug, PartialEq, Eq)]
pub struct Header {
    pub m: usize,
    pub n: usize,
    pub names: Vec<Vec<u8>>,
}

/// What may be between one field and the next.
#[derive(Clone, Copy, Debug, PartialEq, Eq)]
enum Spacing {
    /// "Fields are parted by exactly one space."
    Strict,
    /// "One or more spaces between fields, spaces before a line feed."
    Loose,
}

struct Reader<'a> {
    sheet: &'a [u8],
    at: usize,
    spacing: Spacing,
}

impl<'a> Reader<'a> {
    fn new(sheet: &'a [u8], spacing: Spacing) -> Reader<'a> {
        let at = 0;
        Reader { sheet, at, spacing }
    }

    /// "A field is a longest run of bytes other than space (32) and line
    /// feed": the run that starts here, possibly up to the sheet's end.
    fn run(&self) -> &'a [u8] {
        let rest = &self.sheet[self.at..];
        let ends = |&byte: &u8| byte == SPACE || byte == LINE_FEED;
        let length = rest.iter().position(ends).unwrap_or(rest.len());
        &rest[..length]
    }

    /// Reads one field and the separator required after it. "The place is the field's first
    /// byte, or the byte where the separator should stand".
    fn field<T>(
        &mut self,
        judge: impl FnOnce(&'a [u8]) -> Judged<T>,
        separator: u8,
    ) -> Result<T, Refusal> {
        let field = self.run();
        if field.is_empty() {
            return Err(self.refuse(refusal::LAYOUT));
        }
        let value = judge(field).map_err(|number| self.refuse(number))?;
        self.at += field.len();
        self.separator(separator)?;
        Ok(value)
    }

    /// Reads the byte required after a field, with the spaces that a loose sheet may have
    /// before a line feed or after a space. There "1 is placed after any spaces
    /// passed"; but no space is skipped at a line's start, where it is 1.
    fn separator(&mut self, due: u8) -> Result<(), Refusal> {
        if due == LINE_FEED && self.spacing == Spacing::Loose {
            self.pass_spaces();
        }
        if self.sheet.get(self.at) != Some(&due) {
            return Err(self.refuse(refusal::LAYOUT));
        }
        self.at += 1;
        if due == SPACE && self.spacing == Spacing::Loose {
            self.pass_spaces();
        }
        Ok(())
    }

    fn pass_spaces(&mut self) {
        while self.sheet.get(self.at) == Some(&SPACE) {
            self.at += 1;
        }
    }

    /// "nothing after its last line"; otherwise 1 at "the first byte after
    /// the last line".
    fn end(&self) -> Result<(), Refusal> {
        if self.at < self.sheet.len() {
            return Err(self.refuse(refusal::LAYOUT));
        }
        Ok(())
    }

    fn refuse(&self, number: u8) -> Refusal {
        Refusal::new(number, self.at as u64)
    }

    /// Reads the first two lines: m and n.
    fn size(&mut self) -> Result<(usize, usize), Refusal> {
        self.field(|field| fixed_word(field, b"levels"), SPACE)?;
        self.field(|field| fixed_word(field, b"inputs"), LINE_FEED)?;
        let m = self.field(levels_field, SPACE)?;
        let n = self.field(|field| inputs_field(field, m), LINE_FEED)?;
        Ok((m as usize, n as usize))
    }

    /// Reads n names, the last with the given byte after it.
    fn names(&mut self, n: usize, after_last: u8) -> Result<Vec<Vec<u8>>, Refusal> {
        let mut names: Vec<Vec<u8>> = Vec::new();
        for input in 0..n {
            let separator = if input + 1 < n { SPACE } else { after_last };
            let name = self.field(|field| name_field(field, &names), separator)?;
            names.push(name.to_vec());
        }
        Ok(names)
    }

    /// Reads the first three lines of a table sheet: "line 3 has the n input names and
    /// then `ink`".
    fn table_header(&mut self) -> Result<Header, Refusal> {
        let (m, n) = self.size()?;
        let names = self.names(n, SPACE)?;
        self.field(|field| fixed_word(field, b"ink"), LINE_FEED)?;
        Ok(Header { m, n, names })
    }

    /// Reads the gate lines: "from 1 to n − 1 [..], and the sheet's end closes it".
    fn gates(&mut self, header: &Header) -> Result<Vec<Gate>, Refusal> {
        let mut used: Vec<Wire> = Vec::new();
        let mut gates = Vec::new();
        for number in 1..header.n {
            let left = self.reference(header, number, &mut used)?;
            let right = self.reference(header, number, &mut used)?;
            let digits = self.field(|field| digits_field(field, header.m), LINE_FEED)?;
            gates.push(Gate {
                left,
                right,
                digits,
            });
            if self.at == self.sheet.len() {
                break;
            }
        }
        Ok(gates)
    }

    /// Reads one of the references of the gate line with this number.
    fn reference(
        &mut self,
        header: &Header,
        number: usize,
        used: &mut Vec<Wire>,
    ) -> Result<Wire, Refusal> {
        let wire = self.field(|field| reference_field(field, header, number, used), SPACE)?;
        used.push(wire);
        Ok(wire)
    }

    /// "Then one line for each cell: n input levels and the ink level. The input
    /// levels count upward from all zeros, last input fastest."
    fn inks(&mut self, header: &Header) -> Result<Vec<u8>, Refusal> {
        let inputs = all_inputs(header.n);
        let mut levels = vec![0; header.n];
        let mut inks = Vec::new();
        loop {
            for &level in &levels {
                self.field(|field| count_field(field, level), SPACE)?;
            }
            inks.push(self.field(|field| ink_field(field, header.m), LINE_FEED)?);
            if !count_up(&mut levels, &inputs, header.m) {
                return Ok(inks);
            }
        }
    }

    /// "Rows in any order": as many as there are cells, and each names another
    /// assignment, so every assignment is named. Returns the inks in index order.
    fn inks_in_any_order(&mut self, header: &Header) -> Result<Vec<u8>, Refusal> {
        let inputs = all_inputs(header.n);
        let cells = header.m.pow(header.n as u32);
        let mut inks: Vec<Option<u8>> = vec![None; cells];
        for _ in 0..cells {
            let row = self.at;
            let mut levels = Vec::new();
            for _ in 0..header.n {
                levels.push(self.field(|field| level_field(field, header.m), SPACE)?);
            }
            let index = place_in_count(&levels, &inputs, header.m);
            if inks[index].is_some() {
                // "Placed at the row's first field, judged just before its ink
                // field, even an empty one."
                return Err(Refusal::new(refusal::REPEATED_ROW, row as u64));
            }
            inks[index] = Some(self.field(|field| ink_field(field, header.m), LINE_FEED)?);
        }
        let named = inks.into_iter().map(|ink| ink.expect("named by some row"));
        Ok(named.collect())
    }

    /// "One line an input in order": its name, `from` and `to`.
    fn arrivals(&mut self, names: &[Vec<u8>]) -> Result<Vec<Arrival>, Refusal> {
        let mut arrivals = Vec::new();
        for name in names {
            self.field(|field| next_input_field(field, name), SPACE)?;
            let from = self.field(|field| time_field(field, 0), SPACE)?;
            let to = self.field(|field| time_field(field, from), LINE_FEED)?;
            arrivals.push(Arrival::of(from, to));
        }
        Ok(arrivals)
    }
}

/// Reads a net sheet; a refusal names it.
pub fn read_net_sheet(sheet: &[u8]) -> Result<(Header, Net), Refusal> {
    read_net(sheet).map_err(|refusal| refusal.naming(Sheet::Net))
}

fn read_net(sheet: &[u8]) -> Result<(Header, Net), Refusal> {
    let mut reader = Reader::new(sheet, Spacing::Strict);
    let (m, n) = reader.size()?;
    let names = reader.names(n, LINE_FEED)?;
    let header = Header { m, n, names };
    reader.field(|field| fixed_word(field, b"left"), SPACE)?;
    reader.field(|field| fixed_word(field, b"right"), SPACE)?;
    reader.field(|field| fixed_word(field, b"table"), LINE_FEED)?;
    let gates = reader.gates(&header)?;
    reader.end()?;
    let net = Net { m, n, gates };
    if !earlier_gates_used(&net) {
        // "place the sheet's length, judged last in the net sheet"
        return Err(reader.refuse(refusal::UNUSED_GATE));
    }
    Ok((header, net))
}

/// "Inputs may stay unused, earlier gates may not."
fn earlier_gates_used(net: &Net) -> bool {
    (1..net.gates.len()).all(|number| net.uses(Wire::Gate(number)))
}

/// Reads a table sheet; a refusal names it.
pub fn read_table_sheet(sheet: &[u8]) -> Result<(Header, Table), Refusal> {
    read_table(sheet).map_err(|refusal| refusal.naming(Sheet::Table))
}

fn read_table(sheet: &[u8]) -> Result<(Header, Table), Refusal> {
    let mut reader = Reader::new(sheet, Spacing::Strict);
    let header = reader.table_header()?;
    let inks = reader.inks(&header)?;
    reader.end()?;
    let (m, n) = (header.m, header.n);
    Ok((header, Table { m, n, inks }))
}

/// Reads a loose table sheet: "one or more spaces between fields, spaces
/// before a line feed, rows in any order". A refusal names it.
pub fn read_loose_table_sheet(sheet: &[u8]) -> Result<(Header, Table), Refusal> {
    read_loose_table(sheet).map_err(|refusal| refusal.naming(Sheet::Table))
}

fn read_loose_table(sheet: &[u8]) -> Result<(Header, Table), Refusal> {
    let mut reader = Reader::new(sheet, Spacing::Loose);
    let header = reader.table_header()?;
    let inks = reader.inks_in_any_order(&header)?;
    reader.end()?;
    let (m, n) = (header.m, header.n);
    Ok((header, Table { m, n, inks }))
}

/// Reads an arrival sheet for the inputs of a net: "the line `name from to`, then
/// one line an input in order". A refusal names it.
pub fn read_arrival_sheet(sheet: &[u8], header: &Header) -> Result<Vec<Arrival>, Refusal> {
    read_arrivals(sheet, &header.names).map_err(|refusal| refusal.naming(Sheet::Arrivals))
}

fn read_arrivals(sheet: &[u8], names: &[Vec<u8>]) -> Result<Vec<Arrival>, Refusal> {
    let mut reader = Reader::new(sheet, Spacing::Strict);
    reader.field(|field| fixed_word(field, b"name"), SPACE)?;
    reader.field(|field| fixed_word(field, b"from"), SPACE)?;
    reader.field(|field| fixed_word(field, b"to"), LINE_FEED)?;
    let arrivals = reader.arrivals(names)?;
    reader.end()?;
    Ok(arrivals)
}

fn push_line(sheet: &mut Vec<u8>, fields: &[Vec<u8>]) {
    sheet.extend(fields.join(&SPACE));
    sheet.push(LINE_FEED);
}

/// Prints the first two lines.
fn print_size(header: &Header) -> Vec<u8> {
    format!("levels inputs\n{} {}\n", header.m, header.n).into_bytes()
}

/// Prints the net sheet with this header and these gates.
pub fn print_net_sheet(header: &Header, net: &Net) -> Vec<u8> {
    let mut sheet = print_size(header);
    push_line(&mut sheet, &header.names);
    sheet.extend(b"left right table\n");
    for gate in &net.gates {
        let left = reference_text(header, gate.left);
        let right = reference_text(header, gate.right);
        let digits = gate.digits.iter().map(|&level| digit(level)).collect();
        push_line(&mut sheet, &[left, right, digits]);
    }
    sheet
}

fn reference_text(header: &Header, wire: Wire) -> Vec<u8> {
    match wire {
        Wire::Input(input) => header.names[input].clone(),
        Wire::Gate(number) => number.to_string().into_bytes(),
    }
}

/// Prints the table sheet with this header and these inks.
pub fn print_table_sheet(header: &Header, table: &Table) -> Vec<u8> {
    let mut sheet = print_size(header);
    let mut names = header.names.clone();
    names.push(b"ink".to_vec());
    push_line(&mut sheet, &names);
    let inputs = all_inputs(header.n);
    let mut levels = vec![0; header.n];
    for &ink in &table.inks {
        let mut fields: Vec<Vec<u8>> = levels.iter().map(|&level| vec![digit(level)]).collect();
        fields.push(vec![ink_byte(ink, header.m)]);
        push_line(&mut sheet, &fields);
        count_up(&mut levels, &inputs, header.m);
    }
    sheet
}

/// Prints the arrival sheet with these inputs and their arrivals.
pub fn print_arrival_sheet(header: &Header, arrivals: &[Arrival]) -> Vec<u8> {
    let mut sheet = b"name from to\n".to_vec();
    for (name, arrival) in header.names.iter().zip(arrivals) {
        let [from, to] = [arrival.earliest(), arrival.latest()].map(|time| time.to_string());
        push_line(
            &mut sheet,
            &[name.clone(), from.into_bytes(), to.into_bytes()],
        );
    }
    sheet
}
