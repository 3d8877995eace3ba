//! `reference settle`, `reference make` and `reference tidy`: standard input to standard output,
//! as the programs do.

use reference::limits::PROGRAM_BYTES;
use reference::{make_program, settle_program, tidy_program};
use std::io::{self, Read, Write};
use std::process::ExitCode;

fn main() -> ExitCode {
    let arguments: Vec<String> = std::env::args().skip(1).collect();
    let program: fn(&[u8]) -> Vec<u8> = match arguments.as_slice() {
        [name] if name == "settle" => settle_program,
        [name] if name == "make" => make_program,
        [name] if name == "tidy" => tidy_program,
        _ => {
            eprintln!("usage: reference settle|make|tidy < sheet");
            return ExitCode::from(2);
        }
    };
    match run(program) {
        Ok(()) => ExitCode::SUCCESS,
        Err(error) => {
            eprintln!("reference: {error}");
            ExitCode::FAILURE
        }
    }
}

/// Reads until the end or the bound, whatever the size of each read.
fn run(program: fn(&[u8]) -> Vec<u8>) -> io::Result<()> {
    let mut stdin = Vec::new();
    io::stdin()
        .take(PROGRAM_BYTES as u64)
        .read_to_end(&mut stdin)?;
    let mut stdout = io::stdout();
    stdout.write_all(&program(&stdin))?;
    stdout.flush()
}
