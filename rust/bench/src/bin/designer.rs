//! `designer fill|nearest COUNT SEED`: how often and how fast the searches of the crate `search` find an answer, as a table for docs/DESIGNER.md. Times are
//! processor time.

use reference::generate::{Generator, TableKind};
use reference::limits::allowed_sizes;
use reference::sheet::print_table_sheet;
use search::{fill, nearest, Filling, Wish};
use sitgurp::Table;
use std::process::ExitCode;

/// How many cells in a hundred are opened.
const OPENED: [usize; 3] = [10, 33, 50];
/// How many rows of a tree's table are changed; 0 for a table of random inks.
const CHANGED: [usize; 5] = [1, 2, 4, 8, 0];
const SIZES: [(usize, usize); 11] = [
    (2, 4),
    (2, 6),
    (2, 9),
    (2, 12),
    (3, 4),
    (3, 6),
    (3, 7),
    (4, 4),
    (5, 4),
    (8, 4),
    (9, 3),
];

fn main() -> ExitCode {
    let words: Vec<String> = std::env::args().skip(1).collect();
    let numbers: Vec<u64> = words.iter().filter_map(|word| word.parse().ok()).collect();
    match (words.first().map(String::as_str), &numbers[..]) {
        (Some("fill"), &[count, seed]) => fillings(count, seed),
        (Some("nearest"), &[count, seed]) => changes(count, seed),
        _ => {
            eprintln!("usage: designer fill|nearest COUNT SEED");
            return ExitCode::from(2);
        }
    }
    ExitCode::SUCCESS
}

/// The clock of `clock_gettime` for the processor time of a thread, on Linux.
const OF_THREAD: i32 = 3;

extern "C" {
    fn clock_gettime(clock: i32, time: *mut [i64; 2]) -> i32;
}

/// Returns the processor time of this thread, in milliseconds.
fn time() -> f64 {
    let mut time = [0; 2];
    // SAFETY: on a 64-bit system a `timespec` is two numbers of 64 bits, and the call writes no more.
    unsafe { clock_gettime(OF_THREAD, &mut time) };
    time[0] as f64 * 1e3 + time[1] as f64 / 1e6
}

/// Returns the median and the longest of some times.
fn median_and_longest(mut times: Vec<f64>) -> String {
    times.sort_by(f64::total_cmp);
    match times.last() {
        Some(longest) => format!("{:.1}, {longest:.1}", times[times.len() / 2]),
        None => "".to_string(),
    }
}

fn sheet(generator: &mut Generator, table: &reference::net::Table) -> Table {
    let header = generator.header(table.m, table.n);
    Table::read(&print_table_sheet(&header, table)).expect("a table")
}

/// Prints for random trees of every size, with some cells opened, how often a filling is found, and how fast.
fn fillings(count: u64, seed: u64) {
    let head: Vec<String> = OPENED
        .iter()
        .map(|percent| format!("{percent} % open: solved | ms"))
        .collect();
    println!(
        "| levels inputs | {} |\n|---|{}",
        head.join(" | "),
        "---|".repeat(2 * OPENED.len())
    );
    let mut generator = Generator::new(seed);
    let (mut solved, mut all) = (0, 0);
    for (m, n) in allowed_sizes() {
        let mut line = format!("| {m} {n} |");
        for percent in OPENED {
            let (found, times) = filled(&mut generator, (m as usize, n as usize), percent, count);
            line += &format!(" {found} of {count} | {} |", median_and_longest(times));
            solved += found;
            all += count;
        }
        println!("{line}");
    }
    println!("\n{solved} of {all} solved");
}

fn filled(
    generator: &mut Generator,
    (m, n): (usize, usize),
    percent: usize,
    count: u64,
) -> (u64, Vec<f64>) {
    let (mut found, mut times) = (0, Vec::new());
    for _ in 0..count {
        let mut table = generator.table(m, n, TableKind::OfNet);
        for ink in &mut table.inks {
            if generator.rng.below(100) < percent {
                *ink = m as u8;
            }
        }
        let open = sheet(generator, &table);
        let started = time();
        let wish = Wish {
            shallow: false,
            time: None,
            tell: &mut |_| (),
        };
        found += u64::from(matches!(fill(&open, wish), Filling::Found(_)));
        times.push(time() - started);
    }
    (found, times)
}

/// Prints for tables without a tree how many rows are changed, how often fewer are ruled out, and how fast.
fn changes(count: u64, seed: u64) {
    let head = CHANGED.map(|rows| match rows {
        0 => "random inks".to_string(),
        1 => "1 row changed".to_string(),
        rows => format!("{rows} rows changed"),
    });
    println!(
        "| levels inputs | {} |\n|---|{}",
        head.join(" | ms | ") + " | ms",
        "---|".repeat(2 * CHANGED.len())
    );
    let mut generator = Generator::new(seed);
    for (m, n) in SIZES {
        let mut line = format!("| {m} {n} |");
        for rows in CHANGED {
            line += &near(&mut generator, (m, n), rows, count);
        }
        println!("{line}");
    }
}

/// Returns the report's cells for tables of one size with this many rows changed.
fn near(generator: &mut Generator, (m, n): (usize, usize), rows: usize, count: u64) -> String {
    let (mut tables, mut least, mut sum, mut times) = (0, 0, 0, Vec::new());
    while tables < count {
        let kind = if rows == 0 {
            TableKind::Random
        } else {
            TableKind::OfNet
        };
        let mut table = generator.table(m, n, kind);
        for _ in 0..rows {
            let cell = generator.rng.below(table.inks.len());
            let step = 1 + generator.rng.below(m - 1) as u8;
            table.inks[cell] = (table.inks[cell] + step) % m as u8;
        }
        let table = sheet(generator, &table);
        let started = time();
        // a table that still has a tree does not count
        let Some(nearest) = nearest(&table) else {
            continue;
        };
        times.push(time() - started);
        tables += 1;
        sum += nearest.ways[0].len();
        least += u64::from(nearest.ways[0].len() == nearest.at_least);
    }
    let mean = sum as f64 / tables as f64;
    format!(
        " {mean:.1} ({least} of {count}) | {} |",
        median_and_longest(times)
    )
}
