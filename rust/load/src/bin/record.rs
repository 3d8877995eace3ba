//! `record CALLS SEED [FIRST]`: makes that many calls with the library and writes each with its answer and its buffers to standard output, for
//! web/tests/replay.mjs to replay.

use load::asked::recorded;
use load::seed_of;
use std::io::{self, BufWriter, ErrorKind, Write};
use std::process::ExitCode;

fn main() -> ExitCode {
    let numbers: Result<Vec<u64>, _> = std::env::args().skip(1).map(|one| one.parse()).collect();
    let written = match numbers.as_deref() {
        Ok(&[calls, seed]) => write(calls, seed, 0),
        Ok(&[calls, seed, first]) => write(calls, seed, first),
        _ => {
            eprintln!("usage: record CALLS SEED [FIRST]");
            return ExitCode::from(2);
        }
    };
    match written {
        Ok(()) => ExitCode::SUCCESS,
        // the reading program has ended, and reports why itself
        Err(error) if error.kind() == ErrorKind::BrokenPipe => ExitCode::FAILURE,
        Err(error) => {
            eprintln!("record: {error}");
            ExitCode::FAILURE
        }
    }
}

/// Writes the records of this many calls, starting at one number.
fn write(calls: u64, seed: u64, first: u64) -> io::Result<()> {
    let mut out = BufWriter::with_capacity(1 << 20, io::stdout().lock());
    for call in first..first + calls {
        out.write_all(&recorded(seed_of(seed, call)))?;
    }
    out.flush()
}
