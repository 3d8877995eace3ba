//! Sheets, read from files or from standard input.

use crate::call::Call;
use crate::closed::input_is_closed;
use crate::identity::Identity;
use crate::outcome::Failure;
use crate::output::to_error;
use crate::words::{count, file_name, program, quoted};
use std::ffi::{OsStr, OsString};
use std::fs::File;
use std::io::{self, BufRead, BufReader, IsTerminal, Read};
use std::path::Path;

/// What was read, and what it is called in messages.
pub struct Sheet {
    pub name: String,
    pub bytes: Vec<u8>,
    /// Its file, which standard input has not.
    file: Option<OsString>,
}

impl Sheet {
    /// Returns its file's name as it is, which a program can use.
    pub fn file(&self) -> String {
        match &self.file {
            Some(file) => file.to_string_lossy().into_owned(),
            None => self.name.clone(),
        }
    }

    /// Returns the sheet with other bytes, such as its text in another encoding.
    pub fn with(&self, bytes: Vec<u8>) -> Sheet {
        Sheet {
            name: self.name.clone(),
            bytes,
            file: self.file.clone(),
        }
    }

    /// Returns how the sheet is named in a command, with a space before it: nothing for standard input.
    pub fn operand(&self) -> String {
        let file = self.file.as_deref();
        file.map_or(String::new(), |file| format!(" {}", quoted(file)))
    }
}

/// More than any sheet has, loosely laid ones with all their spaces too.
const MOST: u64 = 16 << 20;

pub const STANDARD: &str = "standard input";

/// The sheets of a call: as many as its command takes. The last one is standard input where it is not named.
pub fn sheets<const N: usize>(call: &Call) -> Result<[Sheet; N], Failure> {
    let operands: Vec<&OsStr> = call.operands.iter().map(AsRef::as_ref).collect();
    of_names(call, &operands)
}

/// The sheets of these names.
pub fn of_names<const N: usize>(call: &Call, names: &[&OsStr]) -> Result<[Sheet; N], Failure> {
    if let Some(sheets) = &call.lent {
        return lent(call, sheets);
    }
    let mut names = names.to_vec();
    if names.len() + 1 == N {
        names.push("-".as_ref());
    }
    let names = <[&OsStr; N]>::try_from(names).map_err(|given| {
        let takes = count(N, "sheet");
        call.wrong(format!("it takes {takes}, and {} are named", given.len()))
    })?;
    if names.iter().filter(|name| **name == "-").count() > 1 {
        return Err(call.wrong("one sheet at most can be standard input".to_string()));
    }
    let mut sheets = Vec::with_capacity(N);
    for name in names {
        sheets.push(read(call, name)?);
    }
    Ok(sheets
        .try_into()
        .unwrap_or_else(|_| unreachable!("a sheet for each name")))
}

/// The sheets of a stream's line.
fn lent<const N: usize>(call: &Call, sheets: &[Vec<u8>]) -> Result<[Sheet; N], Failure> {
    let names: &[&str] = match N {
        1 => &["the sheet"],
        _ => &["the first sheet", "the second sheet"],
    };
    let sheets = sheets.iter().zip(names).map(|(bytes, name)| Sheet {
        name: name.to_string(),
        bytes: bytes.clone(),
        file: None,
    });
    let sheets: Vec<Sheet> = sheets.collect();
    let takes = count(N, "sheet");
    sheets
        .try_into()
        .map_err(|_| call.wrong(format!("it takes {takes}")))
}

/// Reads a file that an option names. A stream has none.
pub fn beside(call: &Call, name: &str) -> Result<Sheet, Failure> {
    match call.lent {
        Some(_) => Err(call.wrong("a stream reads no files".to_string())),
        None => read(call, name.as_ref()),
    }
}

/// Opens a file, or standard input where the name is `-`, to be read line by line.
pub fn lines(call: &Call, name: &OsStr) -> Result<Box<dyn BufRead>, Failure> {
    if name == "-" {
        if input_is_closed() {
            return Err(closed());
        }
        noted(call, STANDARD, Identity::of_open(&io::stdin()))?;
        return Ok(Box::new(io::stdin().lock()));
    }
    let shown = file_name(name);
    let file = File::open(name).map_err(|error| cannot("read", &shown, &error))?;
    noted(call, &shown, Identity::of_open(&file))?;
    Ok(Box::new(BufReader::with_capacity(1 << 16, file)))
}

fn closed() -> Failure {
    cannot("read", STANDARD, &io::Error::other("it is closed"))
}

/// Reads a file, or standard input where the name is `-`, and notes which file it is.
fn read(call: &Call, name: &OsStr) -> Result<Sheet, Failure> {
    if name == "-" {
        if input_is_closed() {
            return Err(closed());
        }
        if io::stdin().is_terminal() {
            to_error("reading a sheet from the keyboard: its lines, then Ctrl-D\n");
        }
        noted(call, STANDARD, Identity::of_open(&io::stdin()))?;
        return whole(STANDARD.to_string(), io::stdin());
    }
    let shown = file_name(name);
    let file = File::open(name).map_err(|error| cannot("read", &shown, &error))?;
    noted(call, &shown, Identity::of_open(&file))?;
    if has_workbook_name(name) {
        return Err(workbook(&shown));
    }
    Ok(Sheet {
        file: Some(name.to_owned()),
        ..whole(shown, file)?
    })
}

/// Returns whether a file is called as spreadsheet programs call their own files.
fn has_workbook_name(name: &OsStr) -> bool {
    let ending = Path::new(name).extension().and_then(OsStr::to_str);
    let ending = ending.map(str::to_ascii_lowercase);
    let endings = ["xlsx", "xlsm", "xlsb", "xls", "ods", "numbers"];
    ending.is_some_and(|ending| endings.contains(&ending.as_str()))
}

/// Returns whether bytes are those of a spreadsheet program's own file: a zip archive, or an older workbook.
fn is_workbook(bytes: &[u8]) -> bool {
    bytes.starts_with(b"PK\x03\x04") || bytes.starts_with(b"\xd0\xcf\x11\xe0\xa1\xb1\x1a\xe1")
}

/// A spreadsheet program's own file.
fn workbook(name: &str) -> Failure {
    let program = program();
    Failure::File(format!(
        "{name}: cannot be read: it is a spreadsheet program's own file\n\
         export it as CSV; `{program} tidy --csv FILE.csv` reads that"
    ))
}

/// Notes that a file is read. One that is standard output too has been emptied already, or would grow while it is read.
fn noted(call: &Call, name: &str, file: Option<Identity>) -> Result<(), Failure> {
    let Some(file) = file else {
        return Ok(());
    };
    if Identity::of_open(&io::stdout()) == Some(file) {
        return Err(Failure::File(format!(
            "{name}: cannot be read: it is standard output too, and would be written over"
        )));
    }
    call.has_read(file);
    Ok(())
}

/// Reads a whole sheet, unless it is too long to be one.
fn whole(name: String, from: impl Read) -> Result<Sheet, Failure> {
    let mut bytes = Vec::new();
    let read = from.take(MOST + 1).read_to_end(&mut bytes);
    read.map_err(|error| cannot("read", &name, &error))?;
    if bytes.len() as u64 > MOST {
        return Err(Failure::File(format!(
            "{name}: cannot be a sheet: it is longer than {MOST} bytes"
        )));
    }
    if is_workbook(&bytes) {
        return Err(workbook(&name));
    }
    let file = None;
    Ok(Sheet { name, bytes, file })
}

/// `FILE: cannot be read: No such file or directory`.
pub fn cannot(done: &str, file: &str, error: &io::Error) -> Failure {
    let said = error.to_string();
    // the system's own number says nothing to a reader
    let words = said.split(" (os error").next().unwrap_or(&said);
    let done = if done == "write" { "written" } else { done };
    Failure::File(format!("{file}: cannot be {done}: {words}"))
}
