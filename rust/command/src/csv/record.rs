//! The lines and cells of CSV. Quotes are as in RFC 4180.

use super::Separator;

/// What is wrong with a cell, whatever is due there.
#[derive(Clone, Copy, Debug, PartialEq, Eq)]
pub enum Flaw {
    Blank,
    /// Its opening quote has no closing one.
    Unclosed,
    /// Something follows its closing quote.
    AfterQuote,
    /// A quote in a cell that does not begin with one.
    QuoteInside,
}

impl Flaw {
    /// Says what is wrong with the cell, unless it is blank.
    pub fn words(self) -> Option<&'static str> {
        match self {
            Flaw::Blank => None,
            Flaw::Unclosed => Some("no quote closes the one that opens this field"),
            Flaw::AfterQuote => {
                Some("something follows the quote that closes this field; a quote inside quotes is written twice")
            }
            Flaw::QuoteInside => {
                Some("there is a quote inside this field; put quotes around all of it, and write a quote inside them twice")
            }
        }
    }
}

/// A cell of the file.
pub struct Cell {
    /// Where it begins, at its quote where it has one.
    pub from: usize,
    /// The place behind it, or behind its closing quote.
    pub to: usize,
    quoted: bool,
    pub flaw: Option<Flaw>,
}

impl Cell {
    /// Lists its bytes, each with its place in the file. Quotes around them are left out, and two quotes inside are one.
    pub fn bytes<'a>(&self, file: &'a [u8]) -> impl Iterator<Item = (u8, usize)> + 'a {
        let (from, to) = match self.quoted && self.flaw.is_none() {
            true => (self.from + 1, self.to - 1),
            false => (self.from, self.to),
        };
        let quoted = from > self.from;
        let mut at = from;
        std::iter::from_fn(move || {
            let place = at;
            let byte = *file[..to].get(at)?;
            at += 1 + usize::from(quoted && byte == b'"');
            Some((byte, place))
        })
    }
}

/// A line of the file: its cells, where it begins and where it ends.
pub struct Record {
    pub cells: Vec<Cell>,
    pub start: usize,
    /// Its number in the file, from 1.
    pub line: usize,
    /// The place of its line end, or the file's length.
    pub end: usize,
    /// The place behind its line end.
    pub next: usize,
}

impl Record {
    /// Counts the cells up to the last one that is not blank.
    pub fn used(&self) -> usize {
        let is_used = |cell: &Cell| cell.flaw != Some(Flaw::Blank);
        let last = self.cells.iter().rposition(is_used);
        last.map_or(0, |last| last + 1)
    }
}

/// Reads the lines from a place on, which begins the line of this number. Blank lines are left out.
pub fn records(file: &[u8], start: usize, mut line: usize, separator: Separator) -> Vec<Record> {
    let mut records = Vec::new();
    let feeds = |bytes: &[u8]| bytes.iter().filter(|&&byte| byte == b'\n').count();
    let mut at = start;
    while at < file.len() {
        let record = record(file, at, line, separator);
        line += 1 + feeds(&file[at..record.end]);
        at = record.next;
        if record.used() > 0 {
            records.push(record);
        }
    }
    records
}

/// Returns whether the first line says that the size follows: its letters are `levels` and `inputs`, or it has none, so it has no names.
pub fn says_size(file: &[u8], first: &Record) -> bool {
    let line = &file[first.start..first.end];
    let letters: Vec<u8> = line
        .iter()
        .filter(|byte| byte.is_ascii_alphanumeric() || !byte.is_ascii())
        .map(u8::to_ascii_lowercase)
        .collect();
    letters == b"levelsinputs" || letters.iter().all(u8::is_ascii_digit)
}

/// Returns what a cell without a flaw means in a line without names: a whole number without the zeros behind its point or comma, a word in lowercase.
pub fn number(cell: &Cell, file: &[u8]) -> Vec<u8> {
    let mut bytes: Vec<u8> = cell.bytes(file).map(|(byte, _)| byte).collect();
    bytes.make_ascii_lowercase();
    if let Some(point) = bytes.iter().position(|byte| matches!(byte, b'.' | b',')) {
        let (whole, zeros) = (&bytes[..point], &bytes[point + 1..]);
        let is_whole = !whole.is_empty() && whole.iter().all(u8::is_ascii_digit);
        if is_whole && !zeros.is_empty() && zeros.iter().all(|&byte| byte == b'0') {
            bytes.truncate(point);
        }
    }
    bytes
}

/// Reads the line at a place.
fn record(file: &[u8], start: usize, line: usize, separator: Separator) -> Record {
    let mut cells = Vec::new();
    let mut at = start;
    loop {
        let (cell, end) = cell(file, at, separator);
        // any number of spaces separates two fields
        if separator != Separator::Space || cell.to > cell.from {
            cells.push(cell);
        }
        at = end;
        if file.get(at) != Some(&separator.byte()) {
            break;
        }
        at += 1;
    }
    let length = match file[at..] {
        [b'\r', b'\n', ..] => 2,
        [] => 0,
        _ => 1,
    };
    Record {
        cells,
        start,
        line,
        end: at,
        next: at + length,
    }
}

/// Reads the cell at a place, and returns the place behind it: a separator, a line end or the file's end.
pub fn cell(file: &[u8], start: usize, separator: Separator) -> (Cell, usize) {
    let is_end = |at: usize| match file.get(at) {
        Some(&byte) => byte == separator.byte() || matches!(byte, b'\r' | b'\n'),
        None => true,
    };
    let end_from = |at: usize| (at..).find(|&at| is_end(at)).unwrap_or(at);
    let is_space = |at: usize| file.get(at) == Some(&b' ') && !is_end(at);
    let after_spaces = |at: usize| (at..).find(|&at| !is_space(at)).unwrap_or(at);
    let from = after_spaces(start);
    if file.get(from) == Some(&b'"') {
        let (to, end, flaw) = match quote_end(file, from) {
            None => (file.len(), file.len(), Some(Flaw::Unclosed)),
            Some(close) if !is_end(after_spaces(close)) => {
                let end = end_from(close);
                (end, end, Some(Flaw::AfterQuote))
            }
            Some(close) if close == from + 2 => (close, after_spaces(close), Some(Flaw::Blank)),
            Some(close) => (close, after_spaces(close), None),
        };
        let quoted = true;
        return (
            Cell {
                from,
                to,
                quoted,
                flaw,
            },
            end,
        );
    }
    let end = end_from(from);
    let spaces = file[from..end]
        .iter()
        .rev()
        .take_while(|&&byte| byte == b' ');
    let to = end - spaces.count();
    let flaw = match &file[from..to] {
        [] => Some(Flaw::Blank),
        bytes if bytes.contains(&b'"') => Some(Flaw::QuoteInside),
        _ => None,
    };
    let quoted = false;
    (
        Cell {
            from,
            to,
            quoted,
            flaw,
        },
        end,
    )
}

/// Returns the place behind the quote that closes the one at a place; two quotes inside stand for one.
fn quote_end(file: &[u8], open: usize) -> Option<usize> {
    let mut at = open + 1;
    loop {
        match file[at..] {
            [] => return None,
            [b'"', b'"', ..] => at += 2,
            [b'"', ..] => return Some(at + 1),
            _ => at += 1,
        }
    }
}
