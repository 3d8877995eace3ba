//! Times in one run, and tables of ratios.

use std::time::{Duration, Instant};

const ROUNDS: usize = 7;

/// Returns the sum, over the inputs, of the least time of several rounds. Each input has its own least time, so that another process on the
/// machine disturbs one call and not a whole round.
pub fn least<T>(inputs: &[T], mut work: impl FnMut(&T)) -> Duration {
    let mut times = vec![Duration::MAX; inputs.len()];
    for _ in 0..ROUNDS {
        for (input, time) in inputs.iter().zip(&mut times) {
            let start = Instant::now();
            work(input);
            *time = start.elapsed().min(*time);
        }
    }
    times.iter().sum()
}

pub fn ratio(one: Duration, other: Duration) -> f64 {
    one.as_secs_f64() / other.as_secs_f64()
}

pub fn geometric_mean(ratios: &[f64]) -> f64 {
    (ratios.iter().map(|ratio| ratio.ln()).sum::<f64>() / ratios.len() as f64).exp()
}

/// Prints a line of ratios, one per column, and their geometric mean.
fn line(name: &str, ratios: &[f64]) {
    print!("{name:8}");
    ratios.iter().for_each(|ratio| print!("{ratio:>10.2}"));
    println!("{:>10.2}", geometric_mean(ratios));
}

/// Prints a table of ratios: the names of the columns, and the rows in the given order.
pub fn report(
    title: &str,
    corner: &str,
    columns: &[&str],
    rows: impl Iterator<Item = (String, Vec<f64>)>,
) {
    println!("{title}");
    print!("{corner:8}");
    columns.iter().for_each(|name| print!("{name:>10}"));
    println!("{:>10}", "mean");
    rows.for_each(|(name, ratios)| line(&name, &ratios));
    println!();
}
