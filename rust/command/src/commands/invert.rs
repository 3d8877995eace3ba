//! `invert`: a table with other inks, dark for light.

use super::Command;
use crate::call::{Call, Opt};
use crate::excerpt::line_start;
use crate::input::sheets;
use crate::json::Json;
use crate::outcome::{Answer, Failure};
use crate::refused;
use sitgurp::Table;

pub static COMMAND: Command = Command {
    name: "invert",
    usage: "[TABLE] [--map OLD=NEW,..]",
    summary: "a table with its inks turned around, dark for light",
    help: "\
Of m levels, ink i becomes m - 1 - i; the first three lines and cells that are left open stay as they are. Both tables have a tree, or
neither has. Their trees have the same wiring, and the same gate tables but for the last.
",
    sheets: 1,
    more: false,
    options: &[Opt::value("--map", "OLD=NEW,..").says(
        "change these inks, and leave all others: `0=2,2=0` exchanges two; no two inks may become one",
    )],
    ending: Some("table"),
    run,
};

fn run(call: &Call) -> Result<Answer, Failure> {
    let [sheet] = sheets(call)?;
    let table = refused::table(&sheet)?;
    let inks = match call.value("--map") {
        Some(pairs) => mapped(&pairs, table.levels()).map_err(|words| call.wrong(words))?,
        None => (0..table.levels() as u8).rev().collect(),
    };
    let renamed = renamed(table.as_ref(), &inks);
    let table = Table::read(&renamed).expect("the same rows with inks of the same levels");
    let json = Json::object([("table", crate::sheets::table(&table))]);
    Ok(Answer::new(table.as_str(), json))
}

/// What each ink becomes, by pairs such as `0=2,2=0`; or what is wrong with them.
fn mapped(pairs: &str, levels: usize) -> Result<Vec<u8>, String> {
    let mut given: Vec<Option<u8>> = vec![None; levels];
    for pair in pairs.split(',') {
        let (old, new) = pair.split_once('=').ok_or_else(|| {
            format!("--map takes OLD=NEW with commas between, such as 0=1,1=0, and not `{pair}`")
        })?;
        let (old, new) = (ink(old, levels)?, ink(new, levels)?);
        if given[usize::from(old)].replace(new).is_some() {
            return Err(format!("ink {old} is given twice"));
        }
    }
    let own = (0..).zip(given);
    let inks: Vec<u8> = own.map(|(ink, new)| new.unwrap_or(ink)).collect();
    for (ink, new) in inks.iter().enumerate() {
        if let Some(first) = inks[..ink].iter().position(|other| other == new) {
            return Err(format!(
                "inks {first} and {ink} would both be {new}, and no two inks may become one"
            ));
        }
    }
    Ok(inks)
}

/// One digit below the levels.
fn ink(text: &str, levels: usize) -> Result<u8, String> {
    match text.as_bytes() {
        [digit @ b'0'..=b'9'] if usize::from(digit - b'0') < levels => Ok(digit - b'0'),
        _ => Err(format!(
            "an ink of this table is a digit from 0 to {}, and not `{text}`",
            levels - 1
        )),
    }
}

/// An accepted table sheet with other inks. A row's ink is its last byte; the sign of an open cell is no digit, and stays.
fn renamed(sheet: &[u8], inks: &[u8]) -> Vec<u8> {
    let mut renamed = sheet.to_vec();
    let rows = &mut renamed[line_start(sheet, 3)..];
    for row in rows.split_mut(|&byte| byte == b'\n') {
        if let Some(digit @ b'0'..=b'9') = row.last_mut() {
            *digit = b'0' + inks[usize::from(*digit - b'0')];
        }
    }
    renamed
}

#[cfg(test)]
mod tests {
    use super::{mapped, renamed};

    #[test]
    fn an_ink_is_the_last_of_its_row_and_an_open_cell_stays() {
        let sheet = b"levels inputs\n3 2\nin0 ink0 ink\n0 0 0\n0 1 1\n0 2 -\n1 0 2\n";
        let other = b"levels inputs\n3 2\nin0 ink0 ink\n0 0 2\n0 1 1\n0 2 -\n1 0 0\n";
        assert_eq!(renamed(sheet, &[2, 1, 0]), other);
        assert_eq!(renamed(other, &[2, 1, 0]), sheet);
        assert_eq!(renamed(sheet, &[0, 1, 2]), sheet);
    }

    #[test]
    fn an_ink_that_is_not_named_stays() {
        assert_eq!(mapped("0=2,2=0", 4), Ok(vec![2, 1, 0, 3]));
        assert_eq!(mapped("0=1,1=2,2=0", 3), Ok(vec![1, 2, 0]));
        assert_eq!(mapped("1=1", 2), Ok(vec![0, 1]));
    }
}
