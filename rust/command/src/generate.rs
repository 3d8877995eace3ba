//! `sitgurp generate PREFIX`: the manual pages and completions, for an installation or a package. It is not in the list of commands, since no user needs it.

use crate::outcome::{self, Failure, GOOD};
use crate::words::file_name;
use crate::{completions, input, manual, output};
use std::fs;
use std::path::Path;

/// A file below the prefix, and what writes its text.
type Generated = (&'static str, fn() -> String);

const FILES: [Generated; 6] = [
    ("share/man/man1/sitgurp.1", manual::command),
    ("share/man/man3/sitgurp.3", manual::library),
    ("share/man/man5/sitgurp.5", manual::sheets),
    (
        "share/bash-completion/completions/sitgurp",
        completions::bash,
    ),
    ("share/zsh/site-functions/_sitgurp", completions::zsh),
    (
        "share/fish/vendor_completions.d/sitgurp.fish",
        completions::fish,
    ),
];

/// Writes all files below a folder, prints their paths, and returns the status.
pub fn run(prefix: &Path) -> u8 {
    for (name, text) in FILES {
        let path = prefix.join(name);
        if let Err(failure) = write(&path, &text()) {
            return outcome::failed(&failure, false);
        }
        let status = outcome::said(format!("{}\n", file_name(path.as_os_str())));
        if status != GOOD {
            return status;
        }
    }
    GOOD
}

fn write(path: &Path, text: &str) -> Result<(), Failure> {
    let folder = path.parent().unwrap_or(Path::new("."));
    fs::create_dir_all(folder)
        .map_err(|error| input::cannot("write", &file_name(folder.as_os_str()), &error))?;
    output::to_file(path, text.as_bytes())
}
