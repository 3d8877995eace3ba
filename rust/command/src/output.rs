//! Results, written whole or not at all.

use crate::closed::output_is_closed;
use crate::input::cannot;
use crate::outcome::{self, Failure, GOOD};
use crate::temporary::Temporary;
use crate::words::file_name;
use std::fs::{self, File, Metadata};
use std::io::{self, Write};
use std::path::{Path, PathBuf};

/// Writes to standard output. A reader that has gone away, such as `head`, has seen what it wanted, so that is no error.
pub fn to_standard(text: &[u8]) -> Result<(), Failure> {
    let refused = |error: io::Error| cannot("write", "standard output", &error);
    if output_is_closed() {
        return Err(closed());
    }
    let mut output = io::stdout().lock();
    match output.write_all(text).and_then(|()| output.flush()) {
        Err(error) if error.kind() == io::ErrorKind::BrokenPipe => Ok(()),
        written => written.map_err(refused),
    }
}

/// Standard output was closed before the start.
pub fn closed() -> Failure {
    let error = io::Error::other("it is closed");
    cannot("write", "standard output", &error)
}

/// Ends the program where standard output can be written no more: without a word where its reader has gone away.
pub fn output_or_end(written: io::Result<()>) {
    let status = match written {
        Ok(()) => return,
        Err(error) if error.kind() == io::ErrorKind::BrokenPipe => GOOD,
        Err(error) => outcome::failed(&cannot("write", "standard output", &error), false),
    };
    std::process::exit(status.into());
}

/// Writes to standard error. Where that cannot be written either, the status still tells.
pub fn to_error(text: &str) {
    io::stderr().write_all(text.as_bytes()).ok();
}

/// Writes to a file: beside it first, and then put in its place, so that whoever reads it finds the old text or the new one. A link is followed. A file that
/// may not be written stays as it is. What is no plain file, such as a device, is written itself.
pub fn to_file(file: &Path, text: &[u8]) -> Result<(), Failure> {
    let written = match fs::metadata(file) {
        Ok(known) if !known.is_file() => File::create(file).and_then(|mut to| to.write_all(text)),
        Ok(known) => fs::canonicalize(file).and_then(|file| replace(&file, &known, text)),
        Err(error) if error.kind() == io::ErrorKind::NotFound => {
            behind_links(file).and_then(|file| create(&file, text))
        }
        Err(error) => Err(error),
    };
    written.map_err(|error| cannot("write", &file_name(file.as_os_str()), &error))
}

/// Writes a file that does not exist yet.
fn create(file: &Path, text: &[u8]) -> io::Result<()> {
    let mut temporary = Temporary::beside(file)?;
    temporary.write(text)?;
    temporary.put_in_place(file)
}

/// Replaces the text of a file, and keeps its rights.
fn replace(file: &Path, known: &Metadata, text: &[u8]) -> io::Result<()> {
    if known.permissions().readonly() {
        return Err(io::Error::other("it is read-only"));
    }
    // the folder's rights would allow to replace it in any case
    File::options().write(true).open(file)?;
    let mut temporary = Temporary::beside(file)?;
    temporary.write(text)?;
    temporary.take_after(known)?;
    temporary.put_in_place(file)
}

/// Returns the path that a link to nothing leads to, or the path itself.
pub fn behind_links(file: &Path) -> io::Result<PathBuf> {
    const MOST: usize = 40;
    let mut path = file.to_path_buf();
    for _ in 0..MOST {
        match fs::read_link(&path) {
            Ok(next) => path = path.parent().unwrap_or(Path::new("")).join(next),
            Err(_) => return Ok(path),
        }
    }
    Err(io::Error::other("too many links"))
}
