//! Loose table sheets, as spreadsheets export them, and damages that
//! distinguish readers of them.

use crate::damage::{fields_of_line, lines, replace};
use crate::generate::Generator;
use crate::limits::MOST_INPUTS;

/// The lines before the rows of a table sheet.
const LINES_BEFORE_ROWS: usize = 3;

impl Generator {
    /// Returns a table sheet with its rows in any order and spaces wherever a loose sheet
    /// may have them.
    pub fn loosened(&mut self, sheet: &[u8]) -> Vec<u8> {
        let shuffled = self.rows_shuffled(sheet);
        self.spaced(&shuffled)
    }

    /// Returns the sheet with its rows in any order.
    pub fn rows_shuffled(&mut self, sheet: &[u8]) -> Vec<u8> {
        let mut lines = lines(sheet);
        let rows = lines.len().min(LINES_BEFORE_ROWS);
        self.rng.shuffle(&mut lines[rows..]);
        lines.concat()
    }

    /// Returns the sheet with more spaces next to those between fields, and some before
    /// line feeds.
    pub fn spaced(&mut self, sheet: &[u8]) -> Vec<u8> {
        let mut spaced = Vec::new();
        for &byte in sheet {
            if byte == b' ' || byte == b'\n' {
                let spaces = *self.rng.pick(&[0, 0, 0, 1, 1, 2, 5]);
                spaced.extend(vec![b' '; spaces]);
            }
            spaced.push(byte);
        }
        spaced
    }

    /// Returns the sheet with its rows in any order and its columns aligned: a level has
    /// as many spaces after it in every row.
    pub fn aligned(&mut self, sheet: &[u8]) -> Vec<u8> {
        let shuffled = self.rows_shuffled(sheet);
        let gaps: Vec<usize> = (0..MOST_INPUTS)
            .map(|_| *self.rng.pick(&[1, 1, 1, 2, 3, 5, 8, 12]))
            .collect();
        let mut aligned = Vec::new();
        for (number, line) in lines(&shuffled).into_iter().enumerate() {
            let mut column = 0;
            for &byte in line {
                if byte == b' ' && number >= LINES_BEFORE_ROWS {
                    aligned.extend(vec![b' '; gaps[column]]);
                    column += 1;
                } else {
                    aligned.push(byte);
                }
            }
        }
        aligned
    }

    /// Returns a loose sheet with one damage, often one that a strict reader
    /// would not distinguish from any other.
    pub fn loosely_damaged(&mut self, sheet: &[u8]) -> Vec<u8> {
        let line = self.rng.below(lines(sheet).len().max(1));
        let fields = fields_of_line(sheet, line);
        let (Some(first), Some(last)) = (fields.first(), fields.last()) else {
            return self.damaged(sheet);
        };
        match self.rng.below(6) {
            // a space at a line's start
            0 => replace(sheet, &(first.start..first.start), b" "),
            // the last field removed, the spaces before it left
            1 => replace(sheet, last, b""),
            // the last field removed, with all spaces before it
            2 => {
                let before = fields.iter().rev().nth(1);
                let start = before.map_or(first.start, |field| field.end);
                replace(sheet, &(start..last.end), b"")
            }
            // the line replaces another
            3 => {
                let mut lines = lines(sheet);
                let other = self.rng.below(lines.len());
                lines[other] = lines[line];
                lines.concat()
            }
            _ => self.damaged(sheet),
        }
    }
}
