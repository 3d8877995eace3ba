//! How marking grows with the inputs at 2 levels: the time with one more input over the time without it.

use crate::kinds::{names, KINDS};
use crate::ratios::marking_times;
use crate::timing::{ratio, report};
use std::time::Duration;

const INPUTS: std::ops::RangeInclusive<usize> = 8..=12;
/// More tables than elsewhere, because the tables for one number of inputs differ from those for the next.
const TABLES: usize = 20;

/// Prints the library's growth and plain Rust's, from the same times.
pub fn marking() {
    let times: Vec<Vec<(Duration, Duration)>> = INPUTS
        .map(|n| {
            KINDS
                .iter()
                .map(|&(_, kind)| marking_times(2, n, kind, TABLES))
                .collect()
        })
        .collect();
    let grown = |title: &str, time: fn(&(Duration, Duration)) -> Duration| {
        let steps = INPUTS.zip(times.windows(2)).map(|(n, pair)| {
            let columns = pair[1].iter().zip(&pair[0]);
            let ratios = columns.map(|(more, less)| ratio(time(more), time(less)));
            (format!("{n} to {}", n + 1), ratios.collect())
        });
        report(title, "inputs", &names(), steps);
    };
    grown("marking at 2 levels, growth by an input, proved", |times| {
        times.0
    });
    grown("marking at 2 levels, growth by an input, plain", |times| {
        times.1
    });
}
