//! The judges of single fields: "Sheets" with its refusals 1 to 8, and the fields
//! of an arrival sheet. Fields are never empty here.

use crate::limits::{self, cell_count, MOST_NAME_BYTES, MOST_QUARTERS};
use crate::net::Wire;
use crate::refusal;
use crate::sheet::Header;

/// A judge returns a field's meaning, or the number that refuses it.
pub type Judged<T> = Result<T, u8>;

pub fn fixed_word(field: &[u8], word: &[u8]) -> Judged<()> {
    if field != word {
        return Err(refusal::LAYOUT);
    }
    Ok(())
}

/// Returns the one of these values whose decimal is the field. A decimal as Rust
/// prints it has no leading zero, so a field of any length can be compared with
/// it.
fn decimal_of(field: &[u8], mut values: impl Iterator<Item = u64>) -> Option<u64> {
    values.find(|value| value.to_string().as_bytes() == field)
}

pub fn levels_field(field: &[u8]) -> Judged<u64> {
    decimal_of(field, limits::LEAST_LEVELS..=limits::MOST_LEVELS).ok_or(refusal::LEVELS)
}

/// 3 covers both the "inputs field" itself and too many cells.
pub fn inputs_field(field: &[u8], m: u64) -> Judged<u64> {
    decimal_of(field, limits::LEAST_INPUTS..=limits::MOST_INPUTS)
        .filter(|&n| cell_count(m, n).is_some())
        .ok_or(refusal::INPUTS)
}

/// "A name has 1 to 8 bytes, lowercase letters and digits, letter first. It
/// isn't `ink`, and no two inputs share one."
pub fn name_field<'a>(field: &'a [u8], earlier: &[Vec<u8>]) -> Judged<&'a [u8]> {
    let letter_first = field.first().is_some_and(u8::is_ascii_lowercase);
    let plain = field
        .iter()
        .all(|byte| byte.is_ascii_lowercase() || byte.is_ascii_digit());
    let well_formed = letter_first && plain && field.len() <= MOST_NAME_BYTES;
    let repeated = earlier.iter().any(|name| name == field);
    if !well_formed || field == b"ink" || repeated {
        return Err(refusal::NAME);
    }
    Ok(field)
}

/// "Left and right are each an input name or the decimal number, without
/// leading zero, of an earlier gate" (7). "No input or gate is referred to
/// twice" (8). A reference must first refer to something to have been used.
pub fn reference_field(
    field: &[u8],
    header: &Header,
    number: usize,
    used: &[Wire],
) -> Judged<Wire> {
    let input = header.names.iter().position(|name| name == field);
    let gate = decimal_of(field, 1..number as u64);
    let wire = match (input, gate) {
        (Some(input), _) => Wire::Input(input),
        (None, Some(gate)) => Wire::Gate(gate as usize),
        (None, None) => return Err(refusal::NO_REFERENT),
    };
    if used.contains(&wire) {
        return Err(refusal::USED_BEFORE);
    }
    Ok(wire)
}

/// "Table is m·m digits below m."
pub fn digits_field(field: &[u8], m: usize) -> Judged<Vec<u8>> {
    let digits: Option<Vec<u8>> = field.iter().map(|&byte| digit_below(byte, m)).collect();
    digits
        .filter(|digits| digits.len() == m * m)
        .ok_or(refusal::DIGITS)
}

/// Returns the level whose digit a byte is, if it is below m.
fn digit_below(byte: u8, m: usize) -> Option<u8> {
    (0..m as u8).find(|&level| digit(level) == byte)
}

/// "Row's input level isn't the next in the count": 5 for anything except the one
/// expected digit.
pub fn count_field(field: &[u8], due: u8) -> Judged<()> {
    if field != [digit(due)] {
        return Err(refusal::COUNT);
    }
    Ok(())
}

/// "An input field that is no digit below m is 5", where rows come in any order.
pub fn level_field(field: &[u8], m: usize) -> Judged<u8> {
    one_digit_below(field, m).ok_or(refusal::COUNT)
}

/// An ink is one digit below m, or `-` if the cell is left open, and "a cell
/// holds m for it": only this function judges an ink field.
pub fn ink_field(field: &[u8], m: usize) -> Judged<u8> {
    if field == [OPEN] {
        return Ok(m as u8);
    }
    one_digit_below(field, m).ok_or(refusal::DIGITS)
}

fn one_digit_below(field: &[u8], m: usize) -> Option<u8> {
    match *field {
        [byte] => digit_below(byte, m),
        _ => None,
    }
}

/// 18, "name isn't the next input".
pub fn next_input_field(field: &[u8], due: &[u8]) -> Judged<()> {
    if field != due {
        return Err(refusal::NEXT_INPUT);
    }
    Ok(())
}

/// 19, "time malformed or above 65,535, or `to` below `from`": a decimal value
/// without a needless leading zero, as Rust prints it, and not below the least.
pub fn time_field(field: &[u8], least: u64) -> Judged<u64> {
    let text = std::str::from_utf8(field).unwrap_or_default();
    let time = text.parse::<u64>().ok();
    time.filter(|time| time.to_string() == text)
        .filter(|time| (least..=MOST_QUARTERS).contains(time))
        .ok_or(refusal::TIME)
}

/// "Its maker writes `-` as their ink."
pub const OPEN: u8 = b'-';

/// Returns the byte that writes a level.
pub fn digit(level: u8) -> u8 {
    b'0' + level
}

/// Returns the byte that writes an ink.
pub fn ink_byte(ink: u8, m: usize) -> u8 {
    if usize::from(ink) == m {
        return OPEN;
    }
    digit(ink)
}
