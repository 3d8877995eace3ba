//! Damaged sheets, to test the readers of sheets.

use crate::fields::OPEN;
use crate::generate::Generator;
use std::collections::HashSet;
use std::ops::Range;

/// One way to damage a sheet. The result may by chance still be a good sheet.
#[derive(Clone, Copy, Debug, PartialEq, Eq)]
pub enum Damage {
    ChangeByte,
    DropByte,
    DoubleByte,
    Cut,
    SwapFields,
    LeadingZero,
    BadName,
    BadReference,
    AddLine,
    DropLine,
    DropLastLine,
    AddGate,
    OtherReference,
    OpenCell,
}

impl Damage {
    pub const ALL: [Damage; 14] = [
        Damage::ChangeByte,
        Damage::DropByte,
        Damage::DoubleByte,
        Damage::Cut,
        Damage::SwapFields,
        Damage::LeadingZero,
        Damage::BadName,
        Damage::BadReference,
        Damage::AddLine,
        Damage::DropLine,
        Damage::DropLastLine,
        Damage::AddGate,
        Damage::OtherReference,
        Damage::OpenCell,
    ];
}

/// Bytes that distinguish readers: separators, look-alikes of separators, the sign
/// of an open cell, digits, letters, and bytes outside ASCII.
pub const TELLING_BYTES: [u8; 14] = [
    b' ', b'\n', b'\r', b'\t', 0, b'-', b'0', b'1', b'9', b'a', b'i', b'A', 0x80, 0xff,
];

impl Generator {
    /// Returns the sheet with one damage of a random kind.
    pub fn damaged(&mut self, sheet: &[u8]) -> Vec<u8> {
        let damage = *self.rng.pick(&Damage::ALL);
        self.damage(sheet, damage)
    }

    /// Returns the sheet with one damage of the given kind, or unchanged if nothing in it
    /// can be damaged in this way.
    pub fn damage(&mut self, sheet: &[u8], damage: Damage) -> Vec<u8> {
        let fields = fields(sheet);
        if fields.is_empty() {
            return sheet.to_vec();
        }
        match damage {
            Damage::ChangeByte => self.change_byte(sheet),
            Damage::DropByte => drop_byte(sheet, self.rng.below(sheet.len())),
            Damage::DoubleByte => double_byte(sheet, self.rng.below(sheet.len())),
            Damage::Cut => sheet[..self.rng.below(sheet.len())].to_vec(),
            Damage::SwapFields => self.swap_fields(sheet, &fields),
            Damage::LeadingZero => self.leading_zero(sheet, &fields),
            Damage::BadName => self.bad_name(sheet),
            Damage::BadReference => self.bad_reference(sheet),
            Damage::AddLine => self.add_line(sheet),
            Damage::DropLine => self.drop_line(sheet),
            Damage::DropLastLine => drop_last_line(sheet),
            Damage::AddGate => self.add_gate(sheet),
            Damage::OtherReference => self.other_reference(sheet),
            Damage::OpenCell => self.open_cell(sheet),
        }
    }

    fn change_byte(&mut self, sheet: &[u8]) -> Vec<u8> {
        let place = self.rng.below(sheet.len());
        change_byte(sheet, place, *self.rng.pick(&TELLING_BYTES))
    }

    fn swap_fields(&mut self, sheet: &[u8], fields: &[Range<usize>]) -> Vec<u8> {
        let first = self.rng.pick(fields).clone();
        let second = self.rng.pick(fields).clone();
        let (early, late) = if first.start < second.start {
            (first, second)
        } else {
            (second, first)
        };
        // The later field first, so that the earlier one's place stays valid.
        let swapped = replace(sheet, &late, &sheet[early.clone()]);
        replace(&swapped, &early, &sheet[late])
    }

    fn leading_zero(&mut self, sheet: &[u8], fields: &[Range<usize>]) -> Vec<u8> {
        let start = self.rng.pick(fields).start;
        replace(sheet, &(start..start), b"0")
    }

    /// Makes a name of line 3 empty, too long, `ink`, or another name of line 3.
    fn bad_name(&mut self, sheet: &[u8]) -> Vec<u8> {
        let names = fields_of_line(sheet, 2);
        if names.is_empty() {
            return sheet.to_vec();
        }
        let name = self.rng.pick(&names).clone();
        let other = self.rng.pick(&names).clone();
        let choices: [&[u8]; 4] = [b"", b"ninebytes", b"ink", &sheet[other]];
        let text = *self.rng.pick(&choices);
        replace(sheet, &name, text)
    }

    /// Replaces a field that is a reference in a net sheet (an input level in a table
    /// sheet) by a number that no reference may be.
    fn bad_reference(&mut self, sheet: &[u8]) -> Vec<u8> {
        let lines = lines(sheet).len();
        if lines < 5 {
            return sheet.to_vec();
        }
        let line = 4 + self.rng.below(lines - 4);
        let fields = fields_of_line(sheet, line);
        if fields.len() < 2 {
            return sheet.to_vec();
        }
        let own = line - 3;
        let choices = [
            "0".to_string(),
            "01".to_string(),
            own.to_string(),
            (own + 1).to_string(),
            "123456789012345678901234567890".to_string(),
        ];
        let text = self.rng.pick(&choices).clone();
        replace(sheet, &fields[self.rng.below(2)], text.as_bytes())
    }

    /// Adds a gate line, with references that no line has if there are two, and with
    /// the table of the line before it: the sheet may be good, a gate may be
    /// unused, or it is one line too many.
    fn add_gate(&mut self, sheet: &[u8]) -> Vec<u8> {
        let gates = lines(sheet).len().saturating_sub(LINES_BEFORE_GATES);
        let last = fields_of_line(sheet, LINES_BEFORE_GATES + gates.max(1) - 1);
        let [_, _, table] = last.as_slice() else {
            return sheet.to_vec();
        };
        let numbers = (1..=gates).map(|number| number.to_string().into_bytes());
        let mut references = names_of(sheet);
        references.extend(numbers);
        let mut references = not_referred_to(sheet, references);
        self.rng.shuffle(&mut references);
        references.extend([b"1".to_vec(), b"1".to_vec()]);
        let line = [&references[0], &references[1], &sheet[table.clone()]].join(&b' ');
        [sheet, &line, b"\n"].concat()
    }

    /// Replaces a reference by the name of an unused input, if there is one, or of any
    /// input: if it was a gate's number, that gate is now unused.
    fn other_reference(&mut self, sheet: &[u8]) -> Vec<u8> {
        let gates = lines(sheet).len().saturating_sub(LINES_BEFORE_GATES);
        let line = LINES_BEFORE_GATES + self.rng.below(gates.max(1));
        let fields = fields_of_line(sheet, line);
        let mut names = not_referred_to(sheet, names_of(sheet));
        if names.is_empty() {
            names = names_of(sheet);
        }
        if fields.len() < 2 || names.is_empty() {
            return sheet.to_vec();
        }
        let name = self.rng.pick(&names).clone();
        replace(sheet, &fields[self.rng.below(2)], &name)
    }

    /// Replaces the last field of some line by the sign of an open cell: a table sheet
    /// is then often still good.
    fn open_cell(&mut self, sheet: &[u8]) -> Vec<u8> {
        let line = self.rng.below(lines(sheet).len());
        match fields_of_line(sheet, line).last() {
            Some(field) => replace(sheet, field, &[OPEN]),
            None => sheet.to_vec(),
        }
    }

    /// Repeats some line, before some line or at the end.
    fn add_line(&mut self, sheet: &[u8]) -> Vec<u8> {
        let mut lines = lines(sheet);
        let line = *self.rng.pick(&lines);
        lines.insert(self.rng.below(lines.len() + 1), line);
        lines.concat()
    }

    fn drop_line(&mut self, sheet: &[u8]) -> Vec<u8> {
        let mut lines = lines(sheet);
        lines.remove(self.rng.below(lines.len()));
        lines.concat()
    }
}

/// The lines before the first gate line of a net sheet.
const LINES_BEFORE_GATES: usize = 4;

/// Returns the names in line 3.
fn names_of(sheet: &[u8]) -> Vec<Vec<u8>> {
    let fields = fields_of_line(sheet, 2).into_iter();
    fields.map(|field| sheet[field].to_vec()).collect()
}

/// Returns those of the references that no gate line has.
fn not_referred_to(sheet: &[u8], references: Vec<Vec<u8>>) -> Vec<Vec<u8>> {
    let gates = lines(sheet).into_iter().skip(LINES_BEFORE_GATES);
    let used: HashSet<&[u8]> = gates
        .flat_map(|line| line.split(|&byte| byte == b' ').take(2))
        .collect();
    let references = references.into_iter();
    references.filter(|one| !used.contains(&one[..])).collect()
}

fn drop_last_line(sheet: &[u8]) -> Vec<u8> {
    let mut lines = lines(sheet);
    lines.pop();
    lines.concat()
}

/// Returns every sheet that differs from this one by one byte changed to a telling byte,
/// dropped or doubled, and every shorter front part of it.
pub fn byte_damages(sheet: &[u8]) -> impl Iterator<Item = Vec<u8>> + '_ {
    (0..sheet.len()).flat_map(move |place| {
        let changed = TELLING_BYTES.map(|byte| change_byte(sheet, place, byte));
        let others = [
            drop_byte(sheet, place),
            double_byte(sheet, place),
            sheet[..place].to_vec(),
        ];
        changed.into_iter().chain(others)
    })
}

/// Returns every sheet that is one edit from this one: a cut, one byte dropped, any byte
/// inserted at any place or replacing any byte.
pub fn single_edits(sheet: &[u8]) -> impl Iterator<Item = Vec<u8>> + '_ {
    (0..=sheet.len()).flat_map(move |place| {
        let put_in = move |byte| replace(sheet, &(place..place), &[byte]);
        let inserted = (0..=u8::MAX).map(put_in);
        let within = if place < sheet.len() { 1 } else { 0 };
        let at_a_byte = (0..within).flat_map(move |_| {
            let changed = (0..=u8::MAX).map(move |byte| change_byte(sheet, place, byte));
            changed.chain([drop_byte(sheet, place), sheet[..place].to_vec()])
        });
        inserted.chain(at_a_byte)
    })
}

/// Returns the lines of a sheet, each with its line feed if it has one.
pub(crate) fn lines(sheet: &[u8]) -> Vec<&[u8]> {
    sheet.split_inclusive(|&byte| byte == b'\n').collect()
}

/// Returns the places of a sheet's fields.
fn fields(sheet: &[u8]) -> Vec<Range<usize>> {
    let mut fields = Vec::new();
    let mut start = 0;
    for (place, &byte) in sheet.iter().chain(b"\n").enumerate() {
        if byte == b' ' || byte == b'\n' {
            if start < place {
                fields.push(start..place);
            }
            start = place + 1;
        }
    }
    fields
}

/// Returns the places of the fields of one line, lines counted from 0.
pub(crate) fn fields_of_line(sheet: &[u8], line: usize) -> Vec<Range<usize>> {
    let lines = lines(sheet);
    if line >= lines.len() {
        return Vec::new();
    }
    let start = lines[..line].concat().len();
    fields(lines[line])
        .into_iter()
        .map(|field| start + field.start..start + field.end)
        .collect()
}

pub(crate) fn replace(sheet: &[u8], part: &Range<usize>, with: &[u8]) -> Vec<u8> {
    [&sheet[..part.start], with, &sheet[part.end..]].concat()
}

fn change_byte(sheet: &[u8], place: usize, byte: u8) -> Vec<u8> {
    replace(sheet, &(place..place + 1), &[byte])
}

fn drop_byte(sheet: &[u8], place: usize) -> Vec<u8> {
    replace(sheet, &(place..place + 1), b"")
}

fn double_byte(sheet: &[u8], place: usize) -> Vec<u8> {
    replace(sheet, &(place..place), &[sheet[place]])
}
