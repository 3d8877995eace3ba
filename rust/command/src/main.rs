//! The command `sitgurp`: tables of shades and trees of gates, for people. Whatever the library decides is asked of the library; here it is put in words.
//!
//! | module                | idea                                                               |
//! |-----------------------|--------------------------------------------------------------------|
//! | `commands`            | one file for each command, and the list of them                    |
//! | `call`, `help`        | the words behind a command's name, and what `--help` says           |
//! | `input`, `output`     | sheets read; results written whole or not at all                    |
//! | `temporary`, `signals` | a file beside the one to be written, removed in any case            |
//! | `identity`            | which file is which, so that no sheet is written over                |
//! | `closed`              | whether standard input or output was closed before the start        |
//! | `outcome`, `json`     | an answer or a failure, its status, and both as JSON                |
//! | `refused`             | a refusal as it is said: file, line, column, the line with a caret  |
//! | `sentence`            | what is due at the place                                            |
//! | `cause`, `repairs`    | what has likely gone wrong, by what mends it                        |
//! | `excerpt`, `words`    | a line with a caret; lists and numbers in words                     |
//! | `fault`, `changes`    | why a table has no tree, and changes with which it has one          |
//! | `sheets`, `page`      | nets and tables as JSON; a table and its tree as HTML                |
//! | `csv`                 | what a spreadsheet writes, as a loose sheet                         |
//! | `cells`               | pictures of levels, as text and as graymaps                         |
//! | `generate`, `manual`, `completions` | manual pages and completions, for an installation      |
//! | `stream`              | one call for each line, as JSON                                     |
//! | `batch`, `progress`   | many sheets at once, on all cores; how far it has come              |
//!
//! Status 0; 1 for a refusal or a 'no'; 2 for a wrong command, or a file that cannot be read or written.

mod batch;
mod call;
mod cause;
mod cells;
mod changes;
mod closed;
mod commands;
mod completions;
mod csv;
mod excerpt;
mod fault;
mod generate;
mod help;
mod identity;
mod input;
mod json;
mod manual;
mod outcome;
mod output;
mod page;
mod progress;
mod refused;
mod repairs;
mod sentence;
mod sheets;
mod signals;
mod stream;
mod temporary;
mod words;

use call::Asked;
use std::ffi::OsString;
use std::process::ExitCode;

fn main() -> ExitCode {
    let arguments: Vec<OsString> = std::env::args_os().skip(1).collect();
    let status = match call::asked(&arguments) {
        Ok(Asked::Text(text)) => outcome::said(text),
        Ok(Asked::Generate(prefix)) => generate::run(prefix.as_ref()),
        Ok(Asked::Call(call)) if call.command.is_stream() => stream::run(&call),
        Ok(Asked::Call(call)) => match call.folder {
            Some(_) => batch::run(&call),
            None => outcome::told(&call, (call.command.run)(&call)),
        },
        Err(failure) => outcome::failed(&failure, false),
    };
    ExitCode::from(status)
}
