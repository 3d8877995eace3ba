//! CSV, as a spreadsheet writes it, turned into a loose table sheet. A file has one separator, and quotes are as in RFC 4180.
//!
//! The library judges the loose sheet. Here a cell is never joined with another one or split. A column is left out only if it is blank or named for it.
//! What the library must not read as it is, such as a blank cell, becomes a field that no sheet accepts, and the refusal is then at that field.
//!
//! | module    | idea                                                            |
//! |-----------|-----------------------------------------------------------------|
//! | `record`  | lines and cells                                                 |
//! | `order`   | which columns are kept, which one is the ink, and their names   |
//! | `names`   | valid names from what people write                              |
//! | `wide`    | UTF-16 as UTF-8                                                 |

mod names;
mod order;
mod record;
mod wide;

use crate::excerpt;
use order::Order;
pub use order::{Choice, Column};
pub use record::Flaw;
use record::{cell, number, records, says_size, Cell, Record};
pub use wide::narrow;

/// What separates the fields of a file.
#[derive(Clone, Copy, Debug, PartialEq, Eq)]
pub enum Separator {
    Comma,
    Semicolon,
    Tab,
    /// One or more spaces.
    Space,
}

impl Separator {
    /// Returns the separator that a first line such as `sep=;` names, with the length of that line.
    fn said(bytes: &[u8]) -> Option<(Separator, usize)> {
        let length = bytes.iter().position(|byte| matches!(byte, b'\r' | b'\n'));
        let line = &bytes[..length.unwrap_or(bytes.len())];
        let plain = line
            .strip_prefix(b"\"")
            .and_then(|line| line.strip_suffix(b"\""));
        let [b's' | b'S', b'e' | b'E', b'p' | b'P', b'=', byte] = plain.unwrap_or(line) else {
            return None;
        };
        let all = [
            Separator::Comma,
            Separator::Semicolon,
            Separator::Tab,
            Separator::Space,
        ];
        let said = all
            .into_iter()
            .find(|separator| separator.byte() == *byte)?;
        let end = match bytes[line.len()..] {
            [b'\r', b'\n', ..] => 2,
            [] => 0,
            _ => 1,
        };
        Some((said, line.len() + end))
    }

    /// Finds the first comma, semicolon or tab that is not in quotes. A file with none has spaces.
    fn of(bytes: &[u8]) -> Separator {
        let mut quoted = false;
        let mut before = b'\n';
        for &byte in bytes {
            let opens = matches!(before, b'\n' | b'\r' | b' ');
            match byte {
                b'"' => quoted = !quoted && opens,
                b',' if !quoted => return Separator::Comma,
                b';' if !quoted => return Separator::Semicolon,
                b'\t' if !quoted => return Separator::Tab,
                _ => {}
            }
            // the second of two quotes inside quotes opens them again
            before = if byte == b'"' { b' ' } else { byte };
        }
        Separator::Space
    }

    pub fn byte(self) -> u8 {
        match self {
            Separator::Comma => b',',
            Separator::Semicolon => b';',
            Separator::Tab => b'\t',
            Separator::Space => b' ',
        }
    }

    pub fn words(self) -> &'static str {
        match self {
            Separator::Comma => "commas",
            Separator::Semicolon => "semicolons",
            Separator::Tab => "tabs",
            Separator::Space => "spaces",
        }
    }
}

/// A loose sheet made from CSV.
pub struct Csv<'a> {
    /// The loose sheet: fields with one space between, lines that end in a line feed.
    pub text: Vec<u8>,
    pub separator: Separator,
    /// The columns of the sheet in its order. The ink is the last one, if it is known.
    pub columns: Vec<Column>,
    /// Levels and inputs, if the file does not say them.
    pub inferred: Option<[usize; 2]>,
    /// For each line of the text its line in the file.
    pub lines: Vec<usize>,
    file: &'a [u8],
    /// For each byte of the text where it comes from.
    from: Vec<usize>,
    /// How much of the text is not in the file: the first two lines, if they are inferred.
    added: usize,
    /// Where the next line is due in the file.
    end: usize,
}

/// What a blank cell, or a space inside a cell, is in the text. No sheet has this byte.
const NONE: u8 = 0;

impl<'a> Csv<'a> {
    /// Reads CSV. The ink is the column called ink, or else the last one.
    pub fn of(file: &'a [u8]) -> Csv<'a> {
        Csv::with(file, &Choice::default()).unwrap_or_else(|_| unreachable!("no column is named"))
    }

    /// Reads CSV with these columns. Returns in words why not, if there are none of these names.
    pub fn with(file: &'a [u8], choice: &Choice) -> Result<Csv<'a>, String> {
        let mark = b"\xef\xbb\xbf";
        let mark = if file.starts_with(mark) {
            mark.len()
        } else {
            0
        };
        let (separator, start, line) = match Separator::said(&file[mark..]) {
            Some((separator, length)) => (separator, mark + length, 2),
            None => (Separator::of(&file[mark..]), mark, 1),
        };
        let records = records(file, start, line, separator);
        let mut csv = Csv {
            text: Vec::new(),
            separator,
            columns: Vec::new(),
            inferred: None,
            lines: Vec::new(),
            file,
            from: Vec::new(),
            added: 0,
            end: records.last().map_or(start, |last| last.next),
        };
        let is_said = records.first().is_none_or(|first| says_size(file, first));
        let head = if is_said { 2.min(records.len()) } else { 0 };
        for record in &records[..head] {
            csv.put_size(record);
        }
        let Some((names, rows)) = records[head..].split_first() else {
            return Ok(csv);
        };
        let order = Order::of(file, names, rows, choice, is_said)?;
        if !is_said {
            csv.infer(names, rows, &order);
        }
        csv.columns = order.columns;
        csv.put_names(names, &order.kept);
        for row in rows {
            csv.put_row(row, &order.kept, order.count);
        }
        Ok(csv)
    }

    /// Infers the first two lines: the levels from the highest digit, the inputs from the columns.
    fn infer(&mut self, names: &Record, rows: &[Record], order: &Order) {
        let digits = |row: &Record| -> Vec<u8> {
            let cells = kept_cells(row, &order.kept).into_iter().flatten();
            let digits = cells.filter_map(|cell| match number(cell, self.file)[..] {
                [digit @ b'0'..=b'8'] => Some(digit - b'0'),
                _ => None,
            });
            digits.collect()
        };
        let highest = rows.iter().flat_map(digits).max().unwrap_or(0);
        let levels = usize::from(highest.max(1)) + 1;
        let inputs = order.kept.len().saturating_sub(1);
        // a name with a flaw may have swallowed others
        let flawed = names
            .cells
            .iter()
            .find(|cell| cell.flaw.is_some_and(|flaw| flaw != Flaw::Blank));
        let from = flawed.map_or(names.start, |cell| cell.from);
        for byte in format!("levels inputs\n{levels} {inputs}\n").bytes() {
            self.push(byte, from);
        }
        self.lines.extend([names.line; 2]);
        self.added = self.text.len();
        self.inferred = Some([levels, inputs]);
    }

    /// Writes one of the two lines with the words `levels` and `inputs` or their numbers. Capitals are as good.
    fn put_size(&mut self, record: &Record) {
        let count = record.used().max(2.min(record.cells.len()));
        for (k, cell) in record.cells.iter().take(count).enumerate() {
            self.put_cell(k, cell, true);
        }
        self.put_end(record);
    }

    /// Writes the line of names, the kept columns in order.
    fn put_names(&mut self, record: &Record, kept: &[usize]) {
        for (k, &column) in kept.iter().enumerate() {
            let cell = &record.cells[column];
            let name = self.columns[k].name.clone();
            match name.is_empty() {
                // a blank cell, or one with a flaw
                true => self.put_cell(k, cell, false),
                false => self.put_bytes(k, cell.from, name.bytes()),
            }
        }
        self.put_end(record);
    }

    /// Writes a row: its kept cells in order, and then what follows the last of so many columns.
    fn put_row(&mut self, record: &Record, kept: &[usize], count: usize) {
        let mut cells = kept_cells(record, kept);
        let more = record.cells.iter().take(record.used()).skip(count);
        cells.extend(more.map(Some));
        for (k, cell) in cells.into_iter().enumerate() {
            match cell {
                Some(cell) => self.put_cell(k, cell, true),
                None => self.put_bytes(k, record.end, [NONE]),
            }
        }
        self.put_end(record);
    }

    /// Writes field k of a line: a cell as it is, or the whole number or the lowercase word that it means.
    fn put_cell(&mut self, k: usize, cell: &Cell, is_meant: bool) {
        if cell.flaw == Some(Flaw::Blank) {
            return self.put_bytes(k, cell.from, [NONE]);
        }
        if is_meant && cell.flaw.is_none() {
            return self.put_bytes(k, cell.from, number(cell, self.file));
        }
        let bytes: Vec<u8> = cell.bytes(self.file).map(|(byte, _)| byte).collect();
        self.put_bytes(k, cell.from, bytes);
    }

    fn put_bytes(&mut self, k: usize, from: usize, bytes: impl IntoIterator<Item = u8>) {
        if k > 0 {
            self.push(b' ', from);
        }
        for byte in bytes {
            let kept = !matches!(byte, b' ' | b'\n' | b'\r');
            self.push(if kept { byte } else { NONE }, from);
        }
    }

    fn put_end(&mut self, record: &Record) {
        self.push(b'\n', record.end);
        self.lines.push(record.line);
    }

    fn push(&mut self, byte: u8, from: usize) {
        self.text.push(byte);
        self.from.push(from);
    }

    /// Returns where a place of the text comes from.
    pub fn source(&self, place: usize) -> usize {
        self.from.get(place).copied().unwrap_or(self.end)
    }

    /// Returns what is wrong with the cell that begins at a place of the text.
    pub fn flaw(&self, place: usize) -> Option<Flaw> {
        self.cell(place).and_then(|cell| cell.flaw)
    }

    /// Returns the cell that begins at a place of the text, as it is shown in a sentence.
    pub fn shown(&self, place: usize) -> Option<String> {
        let cell = self.cell(place)?;
        let bytes: Vec<u8> = cell.bytes(self.file).map(|(byte, _)| byte).collect();
        Some(excerpt::field(&bytes))
    }

    /// Says why the cell at a place of the text is not what it looks like, if it is not. For inferred lines this is a name with a flaw.
    pub fn cause(&self, place: usize) -> Option<String> {
        if place < self.added {
            let flaw = cell(self.file, self.from[place], self.separator).0.flaw;
            return flaw.and_then(Flaw::words).map(str::to_string);
        }
        let cell = self.cell(place)?;
        match cell.flaw {
            Some(flaw) => flaw.words().map(str::to_string),
            None => self.no_separator(&cell, place),
        }
    }

    /// Says of a cell with a space or with another file's separator in it that these separate nothing here.
    fn no_separator(&self, cell: &Cell, place: usize) -> Option<String> {
        let byte = cell.bytes(self.file).map(|(byte, _)| byte);
        // a name is as good with them
        let field = &self.text[place..];
        let end = field.iter().position(|byte| matches!(byte, b' ' | b'\n'));
        let is_odd = |byte: &u8| matches!(byte, b',' | b';' | b'\t' | &NONE);
        if !field[..end.unwrap_or(field.len())].iter().any(is_odd) {
            return None;
        }
        let found = byte.filter(|byte| matches!(byte, b',' | b';' | b'\t' | b' ' | b'\n' | b'\r'));
        let what = match found.min_by_key(|&byte| byte == b' ')? {
            b' ' => "a space".to_string(),
            b'\n' | b'\r' => "a line end".to_string(),
            byte => format!("`{}`", excerpt::field(&[byte])),
        };
        let words = self.separator.words();
        Some(format!(
            "{words} separate the fields of this file, so {what} is part of this field"
        ))
    }

    fn cell(&self, place: usize) -> Option<Cell> {
        if place < self.added {
            return None;
        }
        let is_start = place == 0 || matches!(self.text.get(place - 1), Some(b' ' | b'\n'));
        let is_field = !matches!(self.text.get(place), None | Some(b'\n'));
        (is_start && is_field).then(|| cell(self.file, self.from[place], self.separator).0)
    }
}

/// Lists the cells of a row in these columns, of which all but the last rise. One blank cell stands for all that are missing before the last one.
fn kept_cells<'r>(row: &'r Record, kept: &[usize]) -> Vec<Option<&'r Cell>> {
    let Some((&last, front)) = kept.split_last() else {
        return Vec::new();
    };
    let there = front.partition_point(|&k| k < row.cells.len());
    let mut cells: Vec<Option<&Cell>> = front[..there].iter().map(|&k| row.cells.get(k)).collect();
    if let Some(cell) = row.cells.get(last) {
        if there < front.len() {
            cells.push(None);
        }
        cells.push(Some(cell));
    }
    cells
}

/// Lists the first two cells of each line but the first, as `tidy --names` writes them: a name of the sheet, and how it is written.
pub fn pairs(file: &[u8]) -> Vec<Column> {
    let text = |cell: Option<&Cell>| {
        let bytes = cell.map(|cell| cell.bytes(file).map(|(byte, _)| byte).collect::<Vec<u8>>());
        names::written(&bytes.unwrap_or_default())
    };
    let column = |record: Record| Column {
        name: text(record.cells.first()),
        written: text(record.cells.get(1)),
    };
    let records = records(file, 0, 1, Separator::Comma);
    records.into_iter().skip(1).map(column).collect()
}

#[cfg(test)]
mod tests {
    use super::{Choice, Csv, Flaw, Separator};

    /// The text, with the byte for what no sheet has as `_`.
    fn text(csv: &str) -> String {
        let text = String::from_utf8(Csv::of(csv.as_bytes()).text).expect("text");
        text.replace('\0', "_")
    }

    /// The text of rows below the lines of a table of two levels and two inputs.
    fn rows(rows: &str) -> String {
        let text = text(&format!("levels,inputs\n2,2\na,b,ink\n{rows}"));
        let head = "levels inputs\n2 2\na b ink\n";
        text.strip_prefix(head).expect("the head").to_string()
    }

    #[test]
    fn one_separator_for_the_file() {
        assert_eq!(text("\u{feff}2,3\r\n0,1\r\n"), "2 3\n0 1\n");
        assert_eq!(text("2;3\n0;1"), "2 3\n0 1\n");
        assert_eq!(text("2\t3\r0\t1\r"), "2 3\n0 1\n");
        assert_eq!(text("2   3 \n 0 1\n"), "2 3\n0 1\n");
        assert_eq!(text("0 \"\" 1\n"), "0 _ 1\n");
        assert_eq!(text("1,2;3\t4\n"), "1 2;3\t4\n");
        assert_eq!(text("\"1;2\",3\n"), "1;2 3\n");
        for (csv, separator) in [
            ("a,b;c", Separator::Comma),
            ("\"a;\"\"\",b", Separator::Comma),
            ("5\" panel,b;", Separator::Comma),
            ("a \";\",b", Separator::Comma),
            ("a b\n0;0", Separator::Semicolon),
            ("\t", Separator::Tab),
            ("a b", Separator::Space),
            ("sep=;\na,b", Separator::Semicolon),
            ("\u{feff}SEP=\t\r\na,b", Separator::Tab),
            ("\"sep=;\"\r\na,b", Separator::Semicolon),
            ("sep= \na,b", Separator::Space),
            ("sep=|\na,b", Separator::Comma),
        ] {
            assert_eq!(Csv::of(csv.as_bytes()).separator, separator, "{csv}");
        }
        assert_eq!(text("sep=;\r\n2;3\r\n"), "2 3\n");
        assert_eq!(text("sep=;"), "");
    }

    #[test]
    fn a_cell_stays_one_field() {
        assert_eq!(rows("0 1,1\n"), "0_1 1\n");
        assert_eq!(rows("\"0 1\",1\n"), "0_1 1\n");
        assert_eq!(rows("\"0\n1\",1\n"), "0_1 1\n");
        assert_eq!(rows(" 0 , 1\n"), "0 1\n");
    }

    #[test]
    fn blank_cells_stay_and_padding_goes() {
        let head = "levels,inputs,,\n2,2,,\na,b,ink,\n";
        let due = "levels inputs\n2 2\na b ink\n";
        assert_eq!(text(head), due);
        for (given, row) in [
            ("0,1,,1\n", "0 1 _ 1\n"),
            ("0,1,,,\n", "0 1 _\n"),
            ("0,1\n", "0 1\n"),
            (",0,1\n", "_ 0 1\n"),
            ("0,\"\",1\n", "0 _ 1\n"),
            (",,,\n\n0,0,0\n", "0 0 0\n"),
            (",,,\n\n", ""),
        ] {
            assert_eq!(text(&format!("{head}{given}")), format!("{due}{row}"));
        }
        assert_eq!(text(""), "");
        assert_eq!(text(",,\n"), "");
    }

    #[test]
    fn whole_numbers_and_words() {
        assert_eq!(rows("1.0,0.00,1\n"), "1 0 1\n");
        assert_eq!(rows("1.5,1.,.0\n"), "1.5 1. .0\n");
        assert_eq!(rows("1.0.0,\"1,0\",-\n"), "1.0.0 1 -\n");
        assert_eq!(text("Levels;INPUTS\n2,0;2\n"), "levels inputs\n2 2\n");
    }

    #[test]
    fn what_the_file_does_not_say() {
        let due = "levels inputs\n3 2\na b ink\n0 1 2\n";
        assert_eq!(text("a,b,ink\n0,1,2\n"), due);
        assert_eq!(text("\n\na,b,tone\n0,1,2\n"), due);
        assert_eq!(text("a,Ink,b\n0,2,1\n"), due);
        assert_eq!(text("a,,b,tone\n\n0,,1,2\n"), due);
        // no digit above 8 is a level, and there are two levels at least
        assert_eq!(
            text("a,b,c\n9,12,0\n"),
            "levels inputs\n2 2\na b ink\n9 12 0\n"
        );
        assert_eq!(text("a\n"), "levels inputs\n2 0\nink\n");
        // a missing cell before the ink
        assert_eq!(
            text("ink,a,b\n1,0\n"),
            "levels inputs\n2 2\na b ink\n0 _ 1\n"
        );
        assert_eq!(
            text("a,b,c\n1,0,1,1\n"),
            "levels inputs\n2 2\na b ink\n1 0 1 1\n"
        );
    }

    #[test]
    fn columns_by_name() {
        let chosen = |ink: Option<&str>, drop: &[&str]| {
            let choice = Choice {
                ink: ink.map(str::to_string),
                drop: drop.iter().map(|name| name.to_string()).collect(),
            };
            let file = "My note,a,\"b, c\",A,ink\nx,0,1,2,3\n";
            let csv = Csv::with(file.as_bytes(), &choice)?;
            let text = String::from_utf8(csv.text).expect("text");
            Ok::<String, String>(
                text.split_once('\n')
                    .expect("two lines")
                    .1
                    .replace('\n', "/"),
            )
        };
        let good = |ink, drop: &[&str], text: &str| {
            assert_eq!(chosen(ink, drop).as_deref(), Ok(text));
        };
        good(None, &["my note"], "4 3/a bc a2 ink/0 1 2 3/");
        good(None, &["mynote", "a"], "4 2/bc a ink/1 2 3/");
        good(None, &["My note,A"], "4 2/a bc ink/0 1 3/");
        good(None, &["b, c", "My note"], "4 2/a a2 ink/0 2 3/");
        good(Some("A"), &["My note", "ink"], "3 2/a bc ink/0 1 2/");
        good(Some("bc"), &["My note"], "4 3/a a2 ink2 ink/0 2 3 1/");
        for (ink, drop, words) in [
            (None, &["z"][..], "no column is called `z`"),
            (Some("a"), &["a"], "more than one column"),
            (Some("z"), &[], "no column is called `z`"),
            (None, &["ink,z"], "no column is called `z`"),
        ] {
            let said = chosen(ink, drop).err();
            assert_eq!(
                said.is_some_and(|said| said.starts_with(words)),
                ink != Some("a"),
                "{words}"
            );
        }
    }

    #[test]
    fn quotes_are_those_of_rfc_4180() {
        assert_eq!(text("\"2\",\"3 \"\"4\"\"\"\n"), "2 3_\"4\"\n");
        let flaw = |csv: &str| Csv::of(csv.as_bytes()).flaw(0);
        assert_eq!(flaw("\"2\",3\n"), None);
        assert_eq!(flaw("\"2,3\n"), Some(Flaw::Unclosed));
        assert_eq!(flaw("\"2\"3,4\n"), Some(Flaw::AfterQuote));
        assert_eq!(flaw("2\"3,4\n"), Some(Flaw::QuoteInside));
        assert_eq!(flaw(",2\n"), Some(Flaw::Blank));
        assert_eq!(text("\"2\"3,4\n"), "\"2\"3 4\n");
        assert_eq!(text("\"2,3\n4\n"), "\"2,3_4_\n");
        // a name with a flaw is refused as it is
        assert_eq!(text("a\"b,c,d\n"), "levels inputs\n2 2\na\"b c ink\n");
    }

    #[test]
    fn a_place_is_found_again() {
        let bytes = b"\xef\xbb\xbf\"2\",3\r\n\n4,,5\n,,\n";
        let csv = Csv::of(bytes);
        assert_eq!(csv.text, b"2 3\n4 \0 5\n");
        let from: Vec<usize> = (0..11).map(|place| csv.source(place)).collect();
        assert_eq!(from, [3, 7, 7, 8, 11, 13, 13, 14, 14, 15, 16]);
        assert_eq!(csv.lines, [1, 3]);
        let csv = Csv::of(b"sep=,\nMy a,\"b\nc\",ink\n1,0,1\n");
        assert_eq!(csv.text, b"levels inputs\n2 2\nmya bc ink\n1 0 1\n");
        assert_eq!(csv.lines, [2, 2, 2, 4]);
        // what the file does not have is at its names
        assert_eq!((csv.source(14), csv.shown(14)), (6, None));
        assert_eq!(
            (csv.source(18), csv.shown(18).as_deref()),
            (6, Some("My a"))
        );
        assert_eq!((csv.source(29), csv.shown(29).as_deref()), (21, Some("1")));
    }
}
