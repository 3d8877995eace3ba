//! "Whole glyphs": a net's value at every cell of a picture.

use crate::limits::{FARTHEST_OFFSET, LEAST_SIDE, MOST_SIDE};
use crate::net::Net;

/// "A picture of width times height cells, row by row."
#[derive(Clone, Copy, Debug)]
pub struct Picture<'a> {
    pub width: i64,
    pub height: i64,
    pub cells: &'a [u8],
}

impl<'a> Picture<'a> {
    /// Returns the picture with these sides, or nothing if a "side, cell count or a cell's level"
    /// is wrong.
    pub fn of(width: u64, height: u64, cells: &'a [u8], m: usize) -> Option<Picture<'a>> {
        let sides = LEAST_SIDE..=MOST_SIDE;
        if !sides.contains(&width) || !sides.contains(&height) {
            return None;
        }
        if cells.len() as u64 != width * height {
            return None;
        }
        if cells.iter().any(|&level| usize::from(level) >= m) {
            return None;
        }
        Some(Picture {
            width: width as i64,
            height: height as i64,
            cells,
        })
    }

    /// Returns the level of the cell in column x and row y, both from 0: "outside the
    /// picture the level is 0".
    fn level(&self, x: i64, y: i64) -> u8 {
        if !(0..self.width).contains(&x) || !(0..self.height).contains(&y) {
            return 0;
        }
        self.cells[(y * self.width + x) as usize]
    }
}

/// "For each input an offset across and down".
#[derive(Clone, Copy, Debug)]
pub struct Offset {
    pub across: i8,
    pub down: i8,
}

/// Returns the offsets of n inputs, across then down for each, or nothing if one is "missing,
/// extra or too far".
pub fn offsets_of(numbers: &[i8], n: usize) -> Option<Vec<Offset>> {
    let near = |number: &i8| (-FARTHEST_OFFSET..=FARTHEST_OFFSET).contains(number);
    if numbers.len() != 2 * n || !numbers.iter().all(near) {
        return None;
    }
    let pairs = numbers.chunks(2);
    let offsets = pairs.map(|pair| Offset {
        across: pair[0],
        down: pair[1],
    });
    Some(offsets.collect())
}

/// Returns the new picture, row by row: "each cell of the new picture is the net's value
/// with input i read from the old cell at its offset".
pub fn printed(net: &Net, picture: Picture, offsets: &[Offset]) -> Vec<u8> {
    let mut new = Vec::new();
    for y in 0..picture.height {
        for x in 0..picture.width {
            let read = |offset: &Offset| {
                picture.level(x + i64::from(offset.across), y + i64::from(offset.down))
            };
            let levels: Vec<u8> = offsets.iter().map(read).collect();
            new.push(net.value(&levels));
        }
    }
    new
}
