//! Times the proved library against plain Rust in the same run, on the same inputs: `cargo run --release -p bench`.
//! A ratio is the proved library's time divided by the other's; below 1 the library is faster. `-- calls` times only every call against the second
//! implementation, `-- costs` prints only what each call costs. `--bin stack` measures the stack of its calls.
//!
//! | module         | idea                                                          |
//! |----------------|---------------------------------------------------------------|
//! | `kinds`        | the kinds of table, and the sizes                             |
//! | `plain`        | marking and making in plain Rust                              |
//! | `plain_sheets` | reading and checking in plain Rust                            |
//! | `ratios`       | one ratio for each thing timed                                |
//! | `growth`       | what one more input costs                                     |
//! | `steps`        | the longest step of a job                                     |
//! | `glyphs`       | a glyph against plain Rust, gate by gate                      |
//! | `calls`        | every call against the second implementation                  |
//! | `costs`        | what each call costs, by size, and how it grows               |
//! | `timing`       | times, and tables of ratios                                   |

mod calls;
mod costs;
mod glyphs;
mod growth;
mod kinds;
mod plain;
mod plain_sheets;
mod ratios;
mod steps;
mod timing;

use kinds::{names, KINDS, SIZES};
use ratios::{Against, Laid};
use reference::generate::TableKind;

/// Prints one row per size, one column per kind, and the geometric mean over the kinds.
fn by_size(title: &str, ratio: impl Fn(usize, usize, TableKind) -> f64) {
    let rows = SIZES.into_iter().map(|(m, n)| {
        let ratios = KINDS.iter().map(|&(_, kind)| ratio(m, n, kind));
        (format!("{m} {n}"), ratios.collect())
    });
    timing::report(title, "m n", &names(), rows);
}

fn main() {
    match std::env::args().nth(1).as_deref() {
        Some("calls") => return calls::report(),
        Some("costs") => return costs::report(),
        _ => {}
    }
    costs::report();
    by_size("marking, proved / plain", ratios::marking);
    by_size("making, proved / plain", ratios::making);
    by_size(
        "reading a table sheet, proved / plain, field by field",
        |m, n, kind| ratios::reading(m, n, kind, Against::Plain),
    );
    by_size(
        "reading a table sheet, proved / plain, by whole rows",
        |m, n, kind| ratios::reading(m, n, kind, Against::PlainRows),
    );
    by_size(
        "checking a net against a table, proved / plain",
        |m, n, kind| ratios::checking(m, n, kind, Against::Plain),
    );
    growth::marking();
    steps::longest();
    glyphs::by_size(&SIZES);
    by_size(
        "shallow making / making; at 2 11 it is to be 3 at most",
        ratios::shallow_making,
    );
    by_size(
        "counting the trees of a sheet / marking; of a sum at 2 11 it is to be 5 at most",
        ratios::family_counting,
    );
    by_size("the last tree of the family / making", ratios::last_tree);
    for (how, words) in [
        (Laid::Strictly, "as a table sheet"),
        (Laid::Shuffled, "with its rows shuffled"),
        (Laid::Aligned, "so, with three spaces for one"),
        (Laid::BelowNames, "so, each field below its name"),
    ] {
        by_size(
            &format!("tidying a sheet laid {words} / reading it strictly"),
            |m, n, kind| ratios::tidying(m, n, kind, how),
        );
    }
    by_size("keeping a wiring / making", ratios::keeping);
    by_size(
        "counting every group's classes, proved / second implementation",
        ratios::counting,
    );
    by_size(
        "reading a table sheet, proved / second implementation",
        |m, n, kind| ratios::reading(m, n, kind, Against::Second),
    );
    by_size(
        "checking a net against a table, proved / second implementation",
        |m, n, kind| ratios::checking(m, n, kind, Against::Second),
    );
    calls::report();
}
