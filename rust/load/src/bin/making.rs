//! `making FOLDER`: writes table sheets of three large sizes, one of each kind, a file each. Prints for each file its name and the least time, in
//! nanoseconds, in which the library makes its net. `web/speed` compares these with the module's times.

use reference::generate::{Generator, TableKind};
use std::hint::black_box;
use std::path::Path;
use std::process::ExitCode;
use std::time::{Duration, Instant};

const SIZES: [(usize, usize); 3] = [(2, 12), (3, 7), (4, 6)];
const SEED: u64 = 23;
const ROUNDS: usize = 40;

fn main() -> ExitCode {
    let arguments: Vec<String> = std::env::args().skip(1).collect();
    let [folder] = &arguments[..] else {
        eprintln!("usage: making FOLDER");
        return ExitCode::from(2);
    };
    match timed(Path::new(folder)) {
        Ok(()) => ExitCode::SUCCESS,
        Err(error) => {
            eprintln!("making: {error}");
            ExitCode::FAILURE
        }
    }
}

/// Writes the sheets and prints the times.
fn timed(folder: &Path) -> std::io::Result<()> {
    std::fs::create_dir_all(folder)?;
    for (m, n) in SIZES {
        for kind in TableKind::ALL {
            let sheet = Generator::new(SEED).table_sheet(m, n, kind);
            let name = format!("{m}-{n}-{kind:?}");
            std::fs::write(folder.join(&name), &sheet)?;
            println!("{name} {}", least(&sheet).as_nanos());
        }
    }
    Ok(())
}

/// Returns the least time of several rounds.
fn least(sheet: &[u8]) -> Duration {
    let (mut cells, mut marks) = ([0; sitgurp::MOST_CELLS], [0; sitgurp::MOST_MARKS]);
    let mut output = [0; sitgurp::MOST_NET_SHEET];
    let once = |_| {
        let start = Instant::now();
        // refusing a table without a tree takes time too
        let made = sitgurp::make(sheet, &mut cells, &mut marks, &mut output);
        let took = start.elapsed();
        black_box(made).ok();
        took
    };
    (0..ROUNDS).map(once).min().unwrap_or_default()
}
