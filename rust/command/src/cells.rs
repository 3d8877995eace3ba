//! A picture of levels in a file, as text or as a portable graymap, and what is refused of it in words.

use crate::excerpt::field;
use crate::input::Sheet;
use crate::refused::Refused;
use crate::words::count;
use sitgurp::{Graymap, GraymapFault, Kind, Named, Net, Picture, Refusal, Table};

/// How a picture is written.
#[derive(Clone, Copy, PartialEq, Eq)]
pub enum Format {
    /// A line for each row, a digit for each cell, `.` for level 0.
    Text,
    /// A portable graymap (PGM), level 0 white. It is written in plain text (`P2`).
    Graymap,
    /// A drawing, a square for each cell.
    Svg,
}

impl Format {
    /// A graymap begins with a `P`, which no row of cells does.
    fn of(bytes: &[u8]) -> Format {
        match bytes.first() {
            Some(b'P') => Format::Graymap,
            _ => Format::Text,
        }
    }

    pub fn written(self, picture: &Picture, levels: usize) -> String {
        match self {
            Format::Text => picture.to_text(),
            Format::Graymap => picture.to_pgm(levels as u8),
            Format::Svg => picture::cells::draw(picture, levels as u8),
        }
    }
}

/// A picture, and where it stands in its file.
pub struct Cells<'a> {
    pub picture: Picture,
    pub format: Format,
    file: &'a Sheet,
    /// Where each cell of a text stands.
    places: Vec<usize>,
    /// Where the width and the height are told, or are passed.
    sides: [usize; 2],
}

/// A gray, and the level from that gray on.
pub type Step = (u16, u8);

/// The longest side, which is the library's to judge and told here.
const LONGEST: usize = 64;

impl<'a> Cells<'a> {
    /// Reads a picture for a net of so many levels, or says in words why it is none. The grays of a graymap become levels by these steps, or by equal ones.
    pub fn read(
        file: &'a Sheet,
        levels: usize,
        steps: Option<&[Step]>,
    ) -> Result<Cells<'a>, Box<Refused>> {
        match Format::of(&file.bytes) {
            Format::Graymap => Cells::of_graymap(file, levels, steps),
            _ => Cells::of_text(file, levels),
        }
    }

    fn of_text(file: &'a Sheet, levels: usize) -> Result<Cells<'a>, Box<Refused>> {
        let text = std::str::from_utf8(&file.bytes).ok();
        let picture = text
            .and_then(Picture::from_text)
            .ok_or_else(|| Box::new(text_fault(file, levels)))?;
        let is_cell = |(_, byte): &(usize, &u8)| !matches!(byte, b'\r' | b'\n');
        let cells = file.bytes.iter().enumerate().filter(is_cell);
        let places: Vec<usize> = cells.map(|(place, _)| place).collect();
        let place = |cell: usize| places.get(cell).copied().unwrap_or(file.bytes.len());
        Ok(Cells {
            sides: [place(LONGEST), place(LONGEST * picture.width)],
            picture,
            format: Format::Text,
            file,
            places,
        })
    }

    fn of_graymap(
        file: &'a Sheet,
        levels: usize,
        steps: Option<&[Step]>,
    ) -> Result<Cells<'a>, Box<Refused>> {
        let graymap =
            Graymap::read(&file.bytes).map_err(|flaw| Box::new(graymap_fault(file, flaw)))?;
        let picture = match steps {
            Some(steps) => graymap.picture_by(steps),
            None => graymap.picture(levels as u8),
        };
        let places = fields(&file.bytes);
        Ok(Cells {
            picture,
            format: Format::Graymap,
            file,
            sides: [places[1], places[2]],
            places: Vec::new(),
        })
    }

    /// Why the library has refused the picture for a net of so many levels.
    pub fn refused(&self, levels: usize, refusal: Refusal) -> Refused {
        let Picture { width, height, .. } = self.picture;
        let sides = [(width, "wide"), (height, "high")];
        for ((side, what), place) in sides.into_iter().zip(self.sides) {
            let words = match side {
                0 => format!("there is no cell: a picture has 1 to {LONGEST} cells a side"),
                1..=LONGEST => continue,
                _ => format!("the picture is {side} cells {what}, and a side has 1 to {LONGEST}"),
            };
            return Refused::at(self.file, place, refusal, words);
        }
        let mut cells = self.picture.cells.iter().zip(&self.places);
        let Some((level, &place)) = cells.find(|(level, _)| usize::from(**level) >= levels) else {
            let words = refusal.words().to_string();
            return Refused::of_file(self.file, refusal, words);
        };
        Refused::at(
            self.file,
            place,
            refusal,
            cell(levels - 1, &level.to_string()),
        )
    }
}

fn cell(most: usize, found: &str) -> String {
    format!("a cell should be a digit from 0 to {most}, or `.` for 0, not `{found}`")
}

/// Of a file that cannot be given to the library as a picture: rows or grays that are not width times height levels, which is 24.
fn fault(file: &Sheet, place: usize, words: String) -> Refused {
    let refusal = Refusal {
        number: Kind::Picture.number(),
        place: 0,
        named: Named::Neither,
        position: None,
        inputs: Vec::new(),
    };
    Refused::at(file, place, refusal, words)
}

/// The first row that is not as long as the first one, or that has another letter.
fn text_fault(file: &Sheet, levels: usize) -> Refused {
    let is_cell = |byte: &u8| matches!(byte, b'.' | b'0'..=b'9');
    let mut width = None;
    let mut start = 0;
    for (k, line) in file.bytes.split_inclusive(|&b| b == b'\n').enumerate() {
        let ended = line.strip_suffix(b"\n");
        let row = ended.map_or(line, |row| row.strip_suffix(b"\r").unwrap_or(row));
        if let Some(other) = row.iter().position(|byte| !is_cell(byte)) {
            let words = cell(levels - 1, &field(&row[other..=other]));
            let refused = fault(file, start + other, words);
            return match other_file(file, row[other]) {
                Some(cause) => refused.caused(cause),
                None => refused,
            };
        }
        let width = *width.get_or_insert(row.len());
        if row.len() != width {
            let words = format!(
                "row {} has {}, and the first row has {width}",
                k + 1,
                count(row.len(), "cell")
            );
            let refused = fault(file, start + row.len().min(width), words);
            return match row {
                [] => refused.caused("there is a blank line; delete it".to_string()),
                _ => refused,
            };
        }
        start += line.len();
    }
    fault(file, 0, "this is no picture".to_string())
}

/// What the file likely is in place of a picture.
fn other_file(file: &Sheet, byte: u8) -> Option<String> {
    let due = "and a picture is due here";
    if Net::read(&file.bytes).is_ok() {
        return Some(format!("this is a net sheet, {due}"));
    }
    if Table::read(&file.bytes).is_ok() {
        return Some(format!("this is a table sheet, {due}"));
    }
    match byte {
        b' ' | b',' | b';' | b'\t' => {
            Some("cells are written side by side, with nothing between them".to_string())
        }
        0xef => Some("the file begins with a byte order mark; save it without one".to_string()),
        0x80.. => {
            Some("this is no text; a picture is text or a portable graymap (PGM)".to_string())
        }
        _ => None,
    }
}

/// The first byte of a graymap that is not as it should be.
fn graymap_fault(file: &Sheet, flaw: GraymapFault) -> Refused {
    let is_other = !file.bytes.starts_with(b"P2") && !file.bytes.starts_with(b"P5");
    let refused = fault(file, flaw.place, flaw.words);
    match is_other {
        true => refused.caused("save the picture as a graymap (PGM)".to_string()),
        false => refused,
    }
}

/// The places of the first fields of a graymap; a `#` begins a comment.
fn fields(bytes: &[u8]) -> Vec<usize> {
    let mut fields = Vec::new();
    let mut at = 0;
    while at < bytes.len() && fields.len() < 3 {
        let rest = &bytes[at..];
        let is_end = |byte: &u8| match rest[0] {
            b'#' => *byte == b'\n',
            _ => byte.is_ascii_whitespace() || *byte == b'#',
        };
        let length = rest.iter().position(is_end).unwrap_or(rest.len());
        if rest[0] != b'#' && length > 0 {
            fields.push(at);
        }
        at += length.max(1);
    }
    fields
}
