//! A job's steps at 2 levels and 12 inputs, the size with the most groups: how long the longest takes.

use crate::kinds::{names, sheets, KINDS};
use crate::timing::{least, ratio, report};
use reference::generate::TableKind;
use reference::sheet::read_table_sheet;
use sitgurp::Job;
use std::hint::black_box;
use std::time::{Duration, Instant};

const ROUNDS: usize = 7;

struct Times {
    /// The longest step. A step's time is its least time over several rounds.
    longest: Duration,
    /// All steps, with the same times.
    steps: Duration,
    /// A copy of the job.
    copy: Duration,
    /// The marking call on the same cells.
    marking: Duration,
}

/// Returns the least time of each step.
fn step_times(opened: &Job) -> Vec<Duration> {
    let mut times = vec![Duration::MAX; opened.groups()];
    for _ in 0..ROUNDS {
        let mut job = opened.clone();
        for time in &mut times {
            let start = Instant::now();
            black_box(&mut job).step().expect("a group still to go");
            *time = start.elapsed().min(*time);
        }
    }
    times
}

fn times_of(kind: TableKind) -> Times {
    let sheet = sheets(19, 2, 12, kind).swap_remove(0);
    let (_, table) = read_table_sheet(&sheet).expect("an accepted sheet");
    let job = Job::of(&sheet).expect("an accepted sheet");
    let steps = step_times(&job);
    let mut marks = [0; sitgurp::MOST_MARKS];
    Times {
        longest: steps.iter().copied().max().expect("a step"),
        steps: steps.iter().sum(),
        copy: least(&[()], |()| {
            black_box(black_box(&job).clone());
        }),
        marking: least(&[()], |()| {
            black_box(sitgurp::marking(2, 12, black_box(&table.inks), &mut marks)).ok();
        }),
    }
}

/// Prints the longest step in hundredths of all steps, relative to a hundredth of all steps plus a copy, and in hundredths of the marking call.
pub fn longest() {
    let times: Vec<Times> = KINDS.iter().map(|&(_, kind)| times_of(kind)).collect();
    let row = |name: &str, of: fn(&Times) -> f64| {
        let ratios: Vec<f64> = times.iter().map(of).collect();
        (name.to_string(), ratios)
    };
    let rows = [
        row("steps", |t| 100.0 * ratio(t.longest, t.steps)),
        row("and copy", |t| ratio(t.longest, t.steps / 100 + t.copy)),
        row("marking", |t| 100.0 * ratio(t.longest, t.marking)),
    ];
    report(
        "a job's longest step at 2 12: in hundredths of all steps; over a hundredth of them and a copy of the job, which is to be 1 at most; \
        in hundredths of the marking call",
        "of",
        &names(),
        rows.into_iter(),
    );
}
