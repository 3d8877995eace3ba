//! Measures the stack that each call of the C interface uses: `cargo run --offline --release -q -p bench --bin stack`. It is not a test.
//!
//! The program paints a thread's stack below the current frame and makes a call. The lowest place where the paint is gone shows how deep the
//! call went. So it measures the deepest byte written, including a few hundred bytes for the frames of the measurement itself.

// the C interface itself, without the safe functions over it
#[allow(dead_code)]
#[path = "../../../sitgurp/src/ffi.rs"]
mod ffi;

use reference::generate::{Generator, TableKind};
use reference::sheet::{print_net_sheet, print_table_sheet};
use std::hint::black_box;
use std::thread;

/// The largest size for each number of levels.
const SIZES: [(usize, usize); 8] = [
    (2, 12),
    (3, 7),
    (4, 6),
    (5, 5),
    (6, 4),
    (7, 4),
    (8, 4),
    (9, 3),
];
const STACK: usize = 8 << 20;
const PAINTED: usize = 6 << 20;
/// Bytes left unpainted below the painter's own place, for its own frame.
const GAP: usize = 512;
const PAINT: u64 = 0xa5c3_965a_3c69_e187;

/// What is passed to a call: a table, its sheets, and large enough buffers.
struct Lent {
    m: usize,
    n: usize,
    bare: Vec<u8>,
    table: Vec<u8>,
    net: Vec<u8>,
    arrivals: Vec<u8>,
    cells: Vec<u8>,
    marks: Vec<u8>,
    output: Vec<u8>,
    job: JobParts,
}

/// The parts of a job on the table.
struct JobParts {
    lines: Vec<u8>,
    cells: Vec<u8>,
    marks: Vec<u8>,
    passed: usize,
}

impl Lent {
    /// Returns a table of a kind with its own net or, if it has none, another net with the same header.
    fn new(m: usize, n: usize, kind: TableKind) -> Lent {
        let mut generator = Generator::new(17);
        let header = generator.header(m, n);
        let table = generator.table(m, n, kind);
        let sheet = print_table_sheet(&header, &table);
        let arrivals = generator.arrival_sheet(&header);
        let mut other = || print_net_sheet(&header, &generator.net_of_all_inputs(m, n));
        let job = JobParts {
            lines: vec![0; 128],
            cells: vec![0; 4_096],
            marks: vec![0; 4_096],
            passed: 0,
        };
        let mut lent = Lent {
            m,
            n,
            net: sitgurp::made(&sheet).unwrap_or_else(|_| other()),
            bare: table.inks,
            table: sheet,
            arrivals,
            cells: vec![0; sitgurp::MOST_CELLS],
            marks: vec![0; sitgurp::MOST_MARKS],
            output: vec![0; sitgurp::MOST_TABLE_SHEET],
            job,
        };
        job_open(&mut lent);
        lent
    }

    /// Makes a call on the table sheet or on the net sheet, with all three buffers.
    fn sheet_call<A>(&mut self, call: ffi::SheetCall<A>, of_net: bool) {
        let sheet = if of_net { &self.net } else { &self.table };
        let (cells, marks, output) = (&mut self.cells, &mut self.marks, &mut self.output);
        // SAFETY: each pointer is that of a vector of `lent`, with its length, and the vectors do not overlap.
        let answer = unsafe {
            call(
                sheet.as_ptr(),
                sheet.len(),
                cells.as_mut_ptr(),
                cells.len(),
                marks.as_mut_ptr(),
                marks.len(),
                output.as_mut_ptr(),
                output.len(),
            )
        };
        black_box(answer);
    }
}

type Call = fn(&mut Lent);

const CALLS: [(&str, Call); 20] = [
    ("sitgurp_multiplicity", multiplicity),
    ("sitgurp_marking", marking),
    ("sitgurp_settle", |lent| {
        lent.sheet_call(ffi::sitgurp_settle, true)
    }),
    ("sitgurp_make", |lent| {
        lent.sheet_call(ffi::sitgurp_make, false)
    }),
    ("sitgurp_settle_shallow", |lent| {
        lent.sheet_call(ffi::sitgurp_settle_shallow, true)
    }),
    ("sitgurp_make_shallow", |lent| {
        lent.sheet_call(ffi::sitgurp_make_shallow, false)
    }),
    ("sitgurp_shallower", shallower),
    ("sitgurp_family_count", family_count),
    ("sitgurp_family_tree", family_tree),
    ("sitgurp_check", check),
    ("sitgurp_arrivals", arrivals),
    ("sitgurp_write_table", write_table),
    ("sitgurp_gate_line", gate_line),
    ("sitgurp_tidy", tidy),
    ("sitgurp_keep", keep),
    ("sitgurp_glyph", glyph),
    ("sitgurp_job_open_parts", job_open),
    ("sitgurp_job_step_parts", job_step),
    ("sitgurp_job_mark_parts", job_mark),
    ("sitgurp_job_finish_parts", job_finish),
];

/// Counts the classes of half the inputs and of all of them.
fn multiplicity(lent: &mut Lent) {
    let bare = &lent.bare;
    for members in [lent.n / 2, lent.n] {
        let group = (1 << members) - 1;
        // SAFETY: each pointer is that of a vector of `lent`, with its length, and the vectors do not overlap.
        black_box(unsafe {
            ffi::sitgurp_multiplicity(lent.m, lent.n, bare.as_ptr(), bare.len(), group)
        });
    }
}

fn marking(lent: &mut Lent) {
    let (bare, marks) = (&lent.bare, &mut lent.marks);
    // SAFETY: each pointer is that of a vector of `lent`, with its length, and the vectors do not overlap.
    black_box(unsafe {
        ffi::sitgurp_marking(
            lent.m,
            lent.n,
            bare.as_ptr(),
            bare.len(),
            marks.as_mut_ptr(),
            marks.len(),
        )
    });
}

fn shallower(lent: &mut Lent) {
    let net = &lent.net;
    // SAFETY: each pointer is that of a vector of `lent`, with its length, and the vectors do not overlap.
    black_box(unsafe { ffi::sitgurp_shallower(net.as_ptr(), net.len(), net.as_ptr(), net.len()) });
}

fn family_count(lent: &mut Lent) {
    let (table, cells, marks) = (&lent.table, &mut lent.cells, &mut lent.marks);
    // SAFETY: each pointer is that of a vector of `lent`, with its length, and the vectors do not overlap.
    black_box(unsafe {
        ffi::sitgurp_family_count(
            table.as_ptr(),
            table.len(),
            cells.as_mut_ptr(),
            cells.len(),
            marks.as_mut_ptr(),
            marks.len(),
        )
    });
}

/// Asks for the settled net, and for a number that few families have.
fn family_tree(lent: &mut Lent) {
    let (table, cells, marks) = (&lent.table, &mut lent.cells, &mut lent.marks);
    for number in [0, 654_729_074] {
        // SAFETY: each pointer is that of a vector of `lent`, with its length, and the vectors do not overlap.
        black_box(unsafe {
            ffi::sitgurp_family_tree(
                table.as_ptr(),
                table.len(),
                number,
                cells.as_mut_ptr(),
                cells.len(),
                marks.as_mut_ptr(),
                marks.len(),
                lent.output.as_mut_ptr(),
                lent.output.len(),
            )
        });
    }
}

fn check(lent: &mut Lent) {
    let (net, table, cells) = (&lent.net, &lent.table, &mut lent.cells);
    // SAFETY: each pointer is that of a vector of `lent`, with its length, and the vectors do not overlap.
    black_box(unsafe {
        ffi::sitgurp_check(
            net.as_ptr(),
            net.len(),
            table.as_ptr(),
            table.len(),
            cells.as_mut_ptr(),
            cells.len(),
        )
    });
}

fn arrivals(lent: &mut Lent) {
    let (net, sheet) = (&lent.net, &lent.arrivals);
    // SAFETY: each pointer is that of a vector of `lent`, with its length, and the vectors do not overlap.
    black_box(unsafe {
        ffi::sitgurp_arrivals(
            net.as_ptr(),
            net.len(),
            sheet.as_ptr(),
            sheet.len(),
            u8::MAX,
        )
    });
}

fn write_table(lent: &mut Lent) {
    let (net, output) = (&lent.net, &mut lent.output);
    // SAFETY: each pointer is that of a vector of `lent`, with its length, and the vectors do not overlap.
    black_box(unsafe {
        ffi::sitgurp_write_table(net.as_ptr(), net.len(), output.as_mut_ptr(), output.len())
    });
}

fn gate_line(lent: &mut Lent) {
    let net = &lent.net;
    // SAFETY: each pointer is that of a vector of `lent`, with its length, and the vectors do not overlap.
    black_box(unsafe { ffi::sitgurp_gate_line(net.as_ptr(), net.len(), lent.n - 2) });
}

/// A strict table sheet is a loose one too.
fn tidy(lent: &mut Lent) {
    let (table, cells, output) = (&lent.table, &mut lent.cells, &mut lent.output);
    // SAFETY: each pointer is that of a vector of `lent`, with its length, and the vectors do not overlap.
    black_box(unsafe {
        ffi::sitgurp_tidy(
            table.as_ptr(),
            table.len(),
            cells.as_mut_ptr(),
            cells.len(),
            output.as_mut_ptr(),
            output.len(),
        )
    });
}

fn keep(lent: &mut Lent) {
    let (net, table) = (&lent.net, &lent.table);
    // SAFETY: each pointer is that of a vector of `lent`, with its length, and the vectors do not overlap.
    black_box(unsafe {
        ffi::sitgurp_keep(
            net.as_ptr(),
            net.len(),
            table.as_ptr(),
            table.len(),
            lent.cells.as_mut_ptr(),
            lent.cells.len(),
            lent.output.as_mut_ptr(),
            lent.output.len(),
        )
    });
}

/// Prints the largest picture, with every input at its own cell.
fn glyph(lent: &mut Lent) {
    let (net, picture) = (&lent.net, vec![0; 64 * 64]);
    let offsets = vec![0; 2 * lent.n];
    // SAFETY: each pointer is that of a vector of `lent`, with its length, and the vectors do not overlap.
    black_box(unsafe {
        ffi::sitgurp_glyph(
            net.as_ptr(),
            net.len(),
            64,
            64,
            picture.as_ptr(),
            picture.len(),
            offsets.as_ptr(),
            offsets.len(),
            lent.output.as_mut_ptr(),
            lent.output.len(),
        )
    });
}

fn job_open(lent: &mut Lent) {
    let (table, job) = (&lent.table, &mut lent.job);
    // SAFETY: the parts of the job have the lengths that the call takes; each other pointer is that of a vector of `lent`, with its length.
    black_box(unsafe {
        ffi::sitgurp_job_open_parts(
            table.as_ptr(),
            table.len(),
            job.lines.as_mut_ptr(),
            job.cells.as_mut_ptr(),
            job.marks.as_mut_ptr(),
            &mut job.passed,
        )
    });
}

/// Makes every step.
fn job_step(lent: &mut Lent) {
    let job = &mut lent.job;
    // SAFETY: the parts of the job have the lengths that the call takes; each other pointer is that of a vector of `lent`, with its length.
    let mut step = || unsafe {
        ffi::sitgurp_job_step_parts(
            job.lines.as_ptr(),
            job.cells.as_ptr(),
            job.marks.as_mut_ptr(),
            &mut job.passed,
        )
    };
    while black_box(step()).number == 0 {}
}

fn job_mark(lent: &mut Lent) {
    let job = &lent.job;
    // SAFETY: the parts of the job have the lengths that the call takes; each other pointer is that of a vector of `lent`, with its length.
    black_box(unsafe {
        ffi::sitgurp_job_mark_parts(job.lines.as_ptr(), job.marks.as_ptr(), job.passed, 1)
    });
}

/// Finishes as if all groups had been passed.
fn job_finish(lent: &mut Lent) {
    let (job, cells, marks) = (&lent.job, &mut lent.cells, &mut lent.marks);
    // SAFETY: the parts of the job have the lengths that the call takes; each other pointer is that of a vector of `lent`, with its length.
    black_box(unsafe {
        ffi::sitgurp_job_finish_parts(
            job.lines.as_ptr(),
            job.cells.as_ptr(),
            usize::MAX,
            cells.as_mut_ptr(),
            cells.len(),
            marks.as_mut_ptr(),
            marks.len(),
            lent.output.as_mut_ptr(),
            lent.output.len(),
        )
    });
}

/// Writes words of paint, starting at an address.
#[inline(never)]
fn paint(from: usize, words: usize) {
    for word in 0..words {
        // SAFETY: the words are on this thread's own stack, below every live frame except this one.
        unsafe { ((from + 8 * word) as *mut u64).write_volatile(PAINT) };
    }
}

/// Returns how many words of paint are left, starting at an address.
#[inline(never)]
fn left(from: usize, words: usize) -> usize {
    // SAFETY: as in `paint`, which has written these words.
    let painted =
        |word: &usize| unsafe { ((from + 8 * word) as *const u64).read_volatile() } == PAINT;
    (0..words).take_while(painted).count()
}

/// Returns how many bytes of stack below this function's own place a call writes. The thread's stack must be far longer than the painted part.
#[inline(never)]
fn depth(call: Call, lent: &mut Lent) -> usize {
    let here = 0u8;
    let top = (black_box(&raw const here) as usize - GAP) & !7;
    let bottom = top - PAINTED;
    paint(bottom, PAINTED / 8);
    call(lent);
    let left = left(bottom, PAINTED / 8);
    assert!(left > 0, "the call went below the paint");
    GAP + top - (bottom + 8 * left)
}

/// Measures each call on a thread of its own, so that the whole stack can be painted.
fn on_a_thread(call: Call, lent: &mut Lent) -> usize {
    thread::scope(|scope| {
        let thread = thread::Builder::new().stack_size(STACK);
        let measured = thread.spawn_scoped(scope, || depth(call, lent));
        measured.expect("a thread").join().expect("a depth")
    })
}

fn main() {
    let mut deepest = (0, "", (0, 0));
    println!("{:26}{:>8}  at m n", "call", "bytes");
    for (name, call) in CALLS {
        let mut most = (0, (0, 0));
        for (m, n) in SIZES {
            for kind in TableKind::ALL {
                let bytes = on_a_thread(call, &mut Lent::new(m, n, kind));
                // the first of the deepest
                if bytes > most.0 {
                    most = (bytes, (m, n));
                }
            }
        }
        let (bytes, (m, n)) = most;
        println!("{name:26}{bytes:>8}  {m} {n}");
        deepest = deepest.max((bytes, name, (m, n)));
    }
    let (bytes, name, (m, n)) = deepest;
    println!("the largest: {bytes} bytes, {name} at {m} {n}");
}
