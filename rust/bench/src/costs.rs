//! What each call of the library costs, in microseconds by size, and how that grows by an input at two levels.

use crate::kinds::{KINDS, SIZES};
use crate::timing::geometric_mean;
use reference::generate::{Generator, TableKind};
use reference::sheet::{print_net_sheet, read_table_sheet};
use std::hint::black_box;
use std::time::{Duration, Instant};

/// The inputs whose growth is printed, at two levels.
const INPUTS: std::ops::RangeInclusive<usize> = 6..=12;
/// A call is timed in rounds of some calls each. The least round counts: a short call takes less time than reading the clock does.
const ROUNDS: usize = 15;
const CALLS: u32 = 8;
/// Tables of a kind that are timed.
const TABLES: usize = 3;
/// The sides of the picture from which a glyph is printed.
const SIDE: usize = 64;

/// What the calls of one table take.
struct Case {
    m: usize,
    n: usize,
    cells: Vec<u8>,
    table: Vec<u8>,
    /// The table's own net or, if it has none, a net with the same header.
    net: Vec<u8>,
    arrivals: Vec<u8>,
    picture: Vec<u8>,
    offsets: Vec<i8>,
    /// The number of the last tree.
    last: u64,
}

/// The buffers that the calls borrow.
struct Buffers {
    cells: Vec<u8>,
    marks: Vec<u8>,
    net: Vec<u8>,
    table: Vec<u8>,
    glyph: Vec<u8>,
}

type Timed = fn(&Case, &mut Buffers);

/// Every call, with a name for its column.
const TIMED: [(&str, Timed); 15] = [
    ("classes", |case, _| {
        // every other input
        let group = 0x555 & ((1 << case.n) - 1);
        black_box(sitgurp::multiplicity(case.m, case.n, &case.cells, group)).ok();
    }),
    ("mark", |case, lent| {
        black_box(sitgurp::marking(
            case.m,
            case.n,
            &case.cells,
            &mut lent.marks,
        ))
        .ok();
    }),
    ("read", |case, _| {
        // without buffers, making reads the whole sheet and then refuses it with 13
        black_box(sitgurp::make(&case.table, &mut [], &mut [], &mut [])).ok();
    }),
    ("make", |case, lent| {
        black_box(sitgurp::make(
            &case.table,
            &mut lent.cells,
            &mut lent.marks,
            &mut lent.net,
        ))
        .ok();
    }),
    ("settle", |case, lent| {
        black_box(sitgurp::settle(
            &case.net,
            &mut lent.cells,
            &mut lent.marks,
            &mut lent.net,
        ))
        .ok();
    }),
    ("shallow", |case, lent| {
        black_box(sitgurp::make_shallow(
            &case.table,
            &mut lent.cells,
            &mut lent.marks,
            &mut lent.net,
        ))
        .ok();
    }),
    ("count", |case, lent| {
        black_box(sitgurp::family_count(
            &case.table,
            &mut lent.cells,
            &mut lent.marks,
        ))
        .ok();
    }),
    ("tree", |case, lent| {
        black_box(sitgurp::family_tree(
            &case.table,
            case.last,
            &mut lent.cells,
            &mut lent.marks,
            &mut lent.net,
        ))
        .ok();
    }),
    ("check", |case, lent| {
        black_box(sitgurp::check(&case.net, &case.table, &mut lent.cells)).ok();
    }),
    ("keep", |case, lent| {
        black_box(sitgurp::keep(
            &case.net,
            &case.table,
            &mut lent.cells,
            &mut lent.net,
        ))
        .ok();
    }),
    ("table", |case, lent| {
        black_box(sitgurp::write_table(&case.net, &mut lent.table)).ok();
    }),
    ("tidy", |case, lent| {
        black_box(sitgurp::tidy(&case.table, &mut lent.cells, &mut lent.table)).ok();
    }),
    ("glyph", |case, lent| {
        black_box(sitgurp::glyph(
            &case.net,
            SIDE,
            SIDE,
            &case.picture,
            &case.offsets,
            &mut lent.glyph,
        ))
        .ok();
    }),
    ("arrivals", |case, _| {
        black_box(sitgurp::arrivals(&case.net, &case.arrivals, 4)).ok();
    }),
    ("lines", |case, _| {
        let lister = sitgurp::Lister::start(&case.net).expect("a good net sheet");
        black_box(lister.count());
    }),
];

/// Makes the inputs of one table of a kind.
fn case(m: usize, n: usize, kind: TableKind, generator: &mut Generator) -> Case {
    let table = generator.table_sheet(m, n, kind);
    let (header, read) = read_table_sheet(&table).expect("a good sheet");
    let net = sitgurp::made(&table)
        .unwrap_or_else(|_| print_net_sheet(&header, &generator.net_of_all_inputs(m, n)));
    let size = sitgurp::Family::of(&table).expect("a good sheet").size();
    Case {
        m,
        n,
        net,
        arrivals: generator.arrival_sheet(&header),
        picture: read
            .inks
            .iter()
            .copied()
            .cycle()
            .take(SIDE * SIDE)
            .collect(),
        // every offset from -2 to 2, across and down
        offsets: (0..2 * n).map(|k| (k * 3 % 5) as i8 - 2).collect(),
        last: size.saturating_sub(1),
        cells: read.inks,
        table,
    }
}

/// Returns the least time of one call, in microseconds.
fn microseconds(case: &Case, call: Timed, lent: &mut Buffers) -> f64 {
    let mut least = Duration::MAX;
    for _ in 0..ROUNDS {
        let start = Instant::now();
        for _ in 0..CALLS {
            call(black_box(case), lent);
        }
        least = least.min(start.elapsed());
    }
    least.as_secs_f64() * 1e6 / f64::from(CALLS)
}

/// Returns the time of each call at one size: the geometric mean over the kinds of table, and the greatest.
fn times(m: usize, n: usize) -> Vec<(f64, f64)> {
    let mut generator = Generator::new(23);
    let mut lent = Buffers {
        cells: vec![0; sitgurp::MOST_CELLS],
        marks: vec![0; sitgurp::MOST_MARKS],
        net: vec![0; sitgurp::MOST_NET_SHEET],
        table: vec![0; sitgurp::MOST_TABLE_SHEET],
        glyph: vec![0; SIDE * SIDE],
    };
    let kinds = KINDS.iter();
    let cases: Vec<Case> = kinds
        .flat_map(|&(_, kind)| (0..TABLES).map(move |_| kind))
        .map(|kind| case(m, n, kind, &mut generator))
        .collect();
    TIMED
        .iter()
        .map(|&(_, call)| {
            let times = cases.iter().map(|case| microseconds(case, call, &mut lent));
            let times: Vec<f64> = times.collect();
            let greatest = times.iter().copied().fold(0.0, f64::max);
            (geometric_mean(&times), greatest)
        })
        .collect()
}

fn heading(title: &str, corner: &str) {
    println!("{title}");
    print!("{corner:8}");
    TIMED.iter().for_each(|(name, _)| print!("{name:>10}"));
    println!();
}

fn row(name: &str, figures: impl Iterator<Item = f64>) {
    print!("{name:8}");
    figures.for_each(|figure| print!("{figure:>10.2}"));
    println!();
}

/// Prints the mean and the greatest time of each call by size, and the growth of the mean by an input at two levels.
pub fn report() {
    let by_size: Vec<(String, Vec<(f64, f64)>)> = SIZES
        .into_iter()
        .map(|(m, n)| (format!("{m} {n}"), times(m, n)))
        .collect();
    heading("microseconds of a call, mean over the kinds", "m n");
    for (name, times) in &by_size {
        row(name, times.iter().map(|time| time.0));
    }
    println!();
    heading("microseconds of a call, greatest", "m n");
    for (name, times) in &by_size {
        row(name, times.iter().map(|time| time.1));
    }
    println!();
    heading("growth of the mean by an input at two levels", "inputs");
    let by_inputs: Vec<Vec<(f64, f64)>> = INPUTS.map(|n| times(2, n)).collect();
    for (n, pair) in INPUTS.zip(by_inputs.windows(2)) {
        let growth = pair[1]
            .iter()
            .zip(&pair[0])
            .map(|(more, less)| more.0 / less.0);
        row(&format!("{n} to {}", n + 1), growth);
    }
    println!();
}
