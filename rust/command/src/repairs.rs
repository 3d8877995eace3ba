//! The usual mistakes in a sheet, each with what mends it.

use crate::sentence::Due;

/// A usual mistake: the sheets in which it is one, what is said of it, and the bytes without it.
pub struct Repair {
    pub sheets: &'static [Due],
    pub words: &'static str,
    pub mend: fn(&[u8]) -> Vec<u8>,
}

/// Sheets with one space between fields.
const STRICT: &[Due] = &[Due::Table, Due::Net, Due::Arrivals];
const LOOSE: &[Due] = &[Due::Loose];
/// Sheets that are read byte by byte.
const PLAIN: &[Due] = &[Due::Table, Due::Net, Due::Arrivals, Due::Loose];
const ALL: &[Due] = &[Due::Table, Due::Net, Due::Arrivals, Due::Loose, Due::Csv];

pub static REPAIRS: [Repair; 12] = [
    Repair {
        sheets: PLAIN,
        words: "the file begins with a byte order mark; save it as UTF-8 without one",
        mend: without_mark,
    },
    Repair {
        sheets: PLAIN,
        words: "lines end in CR LF, as Windows writes them; save the file with LF line ends",
        mend: |sheet| replaced(sheet, b"\r\n", b"\n"),
    },
    Repair {
        sheets: PLAIN,
        words: "tabs separate the fields; put one space between two fields",
        mend: |sheet| replaced(sheet, b"\t", b" "),
    },
    Repair {
        sheets: PLAIN,
        words: "commas separate the fields; put one space between two fields",
        mend: |sheet| replaced(&replaced(sheet, b", ", b" "), b",", b" "),
    },
    Repair {
        sheets: PLAIN,
        words: "semicolons separate the fields; put one space between two fields",
        mend: |sheet| replaced(&replaced(sheet, b"; ", b" "), b";", b" "),
    },
    Repair {
        sheets: PLAIN,
        words: "there are quotes around fields; leave them out",
        mend: |sheet| replaced(sheet, b"\"", b""),
    },
    Repair {
        sheets: STRICT,
        words: "there are too many spaces: one between two fields, none at a line's start or end",
        mend: without_spaces,
    },
    Repair {
        sheets: LOOSE,
        words: "a line begins with a space; delete it",
        mend: without_leading_spaces,
    },
    Repair {
        sheets: ALL,
        words: "there are capitals; words and names are in lowercase",
        mend: <[u8]>::to_ascii_lowercase,
    },
    Repair {
        sheets: ALL,
        words: "there is a blank line; delete it",
        mend: without_blank_lines,
    },
    Repair {
        sheets: ALL,
        words: "the first line is missing; put `levels inputs` before this one",
        mend: with_first_line,
    },
    Repair {
        sheets: PLAIN,
        words: "the last line has no line feed; press Enter at its end",
        mend: with_last_feed,
    },
];

/// Names the encoding of a file that is no plain text, if it is one that editors and spreadsheets write.
pub fn wide_encoding(bytes: &[u8]) -> Option<&'static str> {
    let is_letter = |byte: &u8| matches!(byte, b' '..=b'~');
    match bytes {
        [0xff, 0xfe, 0, 0, ..] | [0, 0, 0xfe, 0xff, ..] => Some("UTF-32"),
        [0xff, 0xfe, ..] | [0xfe, 0xff, ..] => Some("UTF-16"),
        // without a mark: the first letters alternate with zeros
        [a, 0, b, 0, ..] if is_letter(a) && is_letter(b) => Some("UTF-16"),
        [0, a, 0, b, ..] if is_letter(a) && is_letter(b) => Some("UTF-16"),
        _ => None,
    }
}

fn replaced(sheet: &[u8], from: &[u8], to: &[u8]) -> Vec<u8> {
    let mut text = Vec::with_capacity(sheet.len());
    let mut rest = sheet;
    while let Some(&byte) = rest.first() {
        match rest.strip_prefix(from) {
            Some(after) => {
                text.extend_from_slice(to);
                rest = after;
            }
            None => {
                text.push(byte);
                rest = &rest[1..];
            }
        }
    }
    text
}

fn without_mark(sheet: &[u8]) -> Vec<u8> {
    sheet
        .strip_prefix(b"\xef\xbb\xbf")
        .unwrap_or(sheet)
        .to_vec()
}

fn without_spaces(sheet: &[u8]) -> Vec<u8> {
    let lines = sheet.split(|&byte| byte == b'\n').map(|line| {
        let fields = line
            .split(|&byte| byte == b' ')
            .filter(|field| !field.is_empty());
        fields.collect::<Vec<&[u8]>>().join(&b' ')
    });
    lines.collect::<Vec<Vec<u8>>>().join(&b'\n')
}

fn without_leading_spaces(sheet: &[u8]) -> Vec<u8> {
    let lines = sheet.split(|&byte| byte == b'\n').map(|line| {
        let spaces = line.iter().take_while(|&&byte| byte == b' ');
        &line[spaces.count()..]
    });
    lines.collect::<Vec<&[u8]>>().join(&b'\n')
}

fn without_blank_lines(sheet: &[u8]) -> Vec<u8> {
    let lines = sheet.split_inclusive(|&byte| byte == b'\n');
    let lines = lines.filter(|line| !line.trim_ascii().is_empty());
    lines.collect::<Vec<&[u8]>>().concat()
}

fn with_first_line(sheet: &[u8]) -> Vec<u8> {
    match sheet {
        [b'2'..=b'9', b' ', ..] => [b"levels inputs\n", sheet].concat(),
        _ => sheet.to_vec(),
    }
}

fn with_last_feed(sheet: &[u8]) -> Vec<u8> {
    match sheet {
        [] | [.., b'\n'] => sheet.to_vec(),
        _ => [sheet, b"\n"].concat(),
    }
}
