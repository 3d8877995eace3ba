//! The bounds of a sheet. Every bound of document 01, two of them raised by
//! document 02, K6, is defined here and nowhere else.

/// "Levels, written m, is one digit from 2 to 9."
pub const LEAST_LEVELS: u64 = 2;
pub const MOST_LEVELS: u64 = 9;

/// "Inputs, written n, is 2 to .." and no more than document 02, K6, allows: "The
/// cell limit rises to 4,096 and inputs to 12".
pub const LEAST_INPUTS: u64 = 2;
pub const MOST_INPUTS: u64 = 12;

/// "The cell limit rises to 4,096."
pub const MOST_CELLS: u64 = 4_096;

/// "A name has 1 to 8 bytes."
pub const MOST_NAME_BYTES: usize = 8;

/// "The settled sheet's length, which is never over 512."
pub const MOST_NET_SHEET_BYTES: usize = 512;

/// "Whole numbers of quarter microseconds, 0 to 65,535."
pub const MOST_QUARTERS: u64 = 65_535;

/// "Two programs read standard input, at most its first 65,536 bytes."
pub const PROGRAM_BYTES: usize = 65_536;

/// A picture has "1 to 64 cells a side".
pub const LEAST_SIDE: u64 = 1;
pub const MOST_SIDE: u64 = 64;

/// "An offset across and down from −2 to 2."
pub const FARTHEST_OFFSET: i8 = 2;

/// Returns the number of cells, if m, n and that number are within a sheet's bounds.
/// Both may be any number: the power stops growing at the bound.
pub fn cell_count(m: u64, n: u64) -> Option<u64> {
    if !(LEAST_LEVELS..=MOST_LEVELS).contains(&m) || !(LEAST_INPUTS..=MOST_INPUTS).contains(&n) {
        return None;
    }
    let mut cells = 1;
    for _ in 0..n {
        cells *= m;
        if cells > MOST_CELLS {
            return None;
        }
    }
    Some(cells)
}

/// Returns every (m, n) that a sheet may have, by increasing m, then increasing n.
pub fn allowed_sizes() -> Vec<(u64, u64)> {
    let mut sizes = Vec::new();
    for m in LEAST_LEVELS..=MOST_LEVELS {
        for n in LEAST_INPUTS..=MOST_INPUTS {
            if cell_count(m, n).is_some() {
                sizes.push((m, n));
            }
        }
    }
    sizes
}
