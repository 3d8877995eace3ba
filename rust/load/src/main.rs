//! `load CALLS SEED [FIRST]`: makes that many calls, each with the proved library and with the second implementation, on all cores. Exits with
//! status 1 if a call differs, and prints how to repeat that one call.

use load::calls::Call;
use load::seed_of;
use load::tally::Tally;
use std::panic::catch_unwind;
use std::process::ExitCode;
use std::sync::atomic::{AtomicU64, Ordering};
use std::thread;

/// After this many calls, prints a line on standard error.
const PROGRESS: u64 = 100_000;

fn main() -> ExitCode {
    let numbers: Result<Vec<u64>, _> = std::env::args().skip(1).map(|one| one.parse()).collect();
    match numbers.as_deref() {
        Ok(&[calls, seed]) => run(calls, seed, 0),
        Ok(&[calls, seed, first]) => run(calls, seed, first),
        _ => {
            eprintln!("usage: load CALLS SEED [FIRST]");
            ExitCode::from(2)
        }
    }
}

fn run(calls: u64, seed: u64, first: u64) -> ExitCode {
    println!("seed {seed}");
    match on_all_cores(calls, seed, first) {
        Ok(tally) => {
            print!("{tally}");
            println!("{calls} calls, none differs");
            ExitCode::SUCCESS
        }
        Err((number, difference)) => {
            println!("{difference}");
            println!("again: load 1 {seed} {number}");
            ExitCode::FAILURE
        }
    }
}

/// A call that differs, by its number, and how.
type Differs = (u64, String);

/// Makes the calls on all cores. Each core takes the next free call.
fn on_all_cores(calls: u64, seed: u64, first: u64) -> Result<Tally, Differs> {
    let next = AtomicU64::new(0);
    let cores = thread::available_parallelism().map_or(1, usize::from);
    let tallies: Vec<Result<Tally, Differs>> = thread::scope(|scope| {
        let started: Vec<_> = (0..cores)
            .map(|_| scope.spawn(|| take_calls(&next, calls, seed, first)))
            .collect();
        let ended = started.into_iter().map(|one| one.join());
        ended.map(|one| one.expect("panics are caught")).collect()
    });
    let all = tallies.into_iter().reduce(both);
    all.unwrap_or_else(|| Ok(Tally::default()))
}

/// Combines the results of two cores. If both have a difference, the first one's is returned.
fn both(one: Result<Tally, Differs>, other: Result<Tally, Differs>) -> Result<Tally, Differs> {
    Ok(one?.with(&other?))
}

/// Makes calls until all are taken or one differs; then the other cores stop too.
fn take_calls(next: &AtomicU64, calls: u64, seed: u64, first: u64) -> Result<Tally, Differs> {
    let mut tally = Tally::default();
    loop {
        let k = next.fetch_add(1, Ordering::Relaxed);
        if k >= calls {
            return Ok(tally);
        }
        let call = one(seed, first + k).inspect_err(|_| next.store(calls, Ordering::Relaxed));
        tally.add(&call.map_err(|difference| (first + k, difference))?);
        if (k + 1).is_multiple_of(PROGRESS) {
            eprintln!("{} calls", k + 1);
        }
    }
}

/// Makes one call. If it differs, returns how, and what was asked. A panic counts as a difference.
fn one(seed: u64, call: u64) -> Result<Call, String> {
    let made = catch_unwind(|| Call::of(seed_of(seed, call)))
        .map_err(|_| format!("call {call} of seed {seed} panicked"))?;
    match made.difference() {
        None => Ok(made),
        Some(difference) => {
            let (kind, asked) = (made.kind, &made.asked);
            Err(format!(
                "call {call} of seed {seed}, {kind:?}: {difference}\n{asked}"
            ))
        }
    }
}
