//! Compares every call with the second implementation, on accepted calls of the load run, which cover every size.

use crate::timing::{geometric_mean, ratio};
use load::calls::{Call, Kind, Times};
use std::collections::BTreeMap;

const CALLS: u64 = 40_000;
/// Both implementations make each call this many times; the least time of each counts.
const TIMES: usize = 8;
const SEED: u64 = 21;

/// The times of one kind of call, summed for each size.
type BySize = BTreeMap<(usize, usize), Times>;

/// Returns the times of each kind of call.
fn times() -> Vec<BySize> {
    let mut times = vec![BySize::new(); Kind::ALL.len()];
    for k in 0..CALLS {
        let seed = load::seed_of(SEED, k);
        let call = Call::of(seed);
        if call.proved.answer.number() == 0 {
            let least = least_times(seed, call.times);
            let sum = times[call.kind as usize].entry(call.size).or_default();
            sum.proved += least.proved;
            sum.second += least.second;
        }
    }
    times
}

/// Returns the least times of a call whose first run took `once`.
fn least_times(seed: u64, once: Times) -> Times {
    (1..TIMES).fold(once, |least, _| {
        let again = Call::of(seed).times;
        Times {
            proved: least.proved.min(again.proved),
            second: least.second.min(again.second),
        }
    })
}

/// Prints a line for each call: the geometric mean over the sizes, the least and the greatest.
pub fn report() {
    println!("every call, proved / second implementation");
    println!(
        "{:16}{:>10}{:>10}{:>10}",
        "call", "mean", "least", "greatest"
    );
    for (kind, times) in Kind::ALL.iter().zip(times()) {
        let mut ratios: Vec<f64> = times
            .values()
            .map(|sum| ratio(sum.proved, sum.second))
            .collect();
        ratios.sort_by(f64::total_cmp);
        let (mean, least) = (geometric_mean(&ratios), ratios[0]);
        let (name, greatest) = (format!("{kind:?}"), ratios[ratios.len() - 1]);
        println!("{name:16}{mean:>10.3}{least:>10.3}{greatest:>10.3}");
    }
    println!();
}
