//! One call of each kind, by the proved library and by the second implementation, on the same inputs and equal buffers.

use crate::given::{difference, Answer, Given};
use crate::inputs::{Bare, Drawn, Inputs};
use sitgurp::MOST_NET_SHEET;
use std::time::{Duration, Instant};

#[derive(Clone, Copy, Debug, PartialEq, Eq)]
pub enum Kind {
    Multiplicity,
    Multiplicities,
    FewestLevels,
    Marking,
    Settle,
    Make,
    SettleShallow,
    MakeShallow,
    Shallower,
    FamilyCount,
    FamilyTree,
    Check,
    Arrivals,
    WriteTable,
    Listing,
    Tidy,
    Job,
    Keep,
    Glyph,
}

impl Kind {
    pub const ALL: [Kind; 19] = [
        Kind::Multiplicity,
        Kind::Multiplicities,
        Kind::FewestLevels,
        Kind::Marking,
        Kind::Settle,
        Kind::Make,
        Kind::SettleShallow,
        Kind::MakeShallow,
        Kind::Shallower,
        Kind::FamilyCount,
        Kind::FamilyTree,
        Kind::Check,
        Kind::Arrivals,
        Kind::WriteTable,
        Kind::Listing,
        Kind::Tidy,
        Kind::Job,
        Kind::Keep,
        Kind::Glyph,
    ];

    /// Returns the refusals that documents 01 and 02 give for this call; for the two that ask for a table sheet's multiplicities, those of the sheet.
    /// The shallower of two has no numbered refusal.
    pub fn refusals(self) -> &'static [usize] {
        match self {
            Kind::Multiplicity => &[9, 10, 11, 27],
            Kind::Multiplicities | Kind::FewestLevels => &[1, 2, 3, 4, 5, 6, 27],
            Kind::Marking => &[9, 10, 14, 27],
            Kind::Settle | Kind::SettleShallow => &[1, 2, 3, 4, 6, 7, 8, 13, 14, 15, 26],
            Kind::Make | Kind::MakeShallow => &[1, 2, 3, 4, 5, 6, 13, 14, 15, 16, 27],
            Kind::Shallower => &[],
            Kind::FamilyCount => &[1, 2, 3, 4, 5, 6, 13, 14, 27],
            Kind::FamilyTree => &[1, 2, 3, 4, 5, 6, 13, 14, 15, 17, 27],
            Kind::Check => &[1, 2, 3, 4, 5, 6, 7, 8, 12, 13, 26],
            Kind::Arrivals => &[1, 2, 3, 4, 6, 7, 8, 18, 19, 26],
            Kind::WriteTable => &[1, 2, 3, 4, 6, 7, 8, 15, 26],
            Kind::Listing => &[1, 2, 3, 4, 6, 7, 8, 26],
            Kind::Tidy => &[1, 2, 3, 4, 5, 6, 13, 15, 20],
            Kind::Job => &[1, 2, 3, 4, 5, 6, 9, 11, 13, 14, 15, 16, 21, 22, 27],
            Kind::Keep => &[1, 2, 3, 4, 5, 6, 7, 8, 12, 13, 15, 23, 26, 27],
            Kind::Glyph => &[1, 2, 3, 4, 6, 7, 8, 15, 24, 25, 26],
        }
    }
}

/// One call: a description of its arguments, both results, and both times.
pub struct Call {
    pub kind: Kind,
    pub size: (usize, usize),
    pub asked: String,
    pub proved: Given,
    pub second: Given,
    pub times: Times,
}

/// The library's time for a call, and the second implementation's.
#[derive(Clone, Copy, Default)]
pub struct Times {
    pub proved: Duration,
    pub second: Duration,
}

impl Call {
    /// Makes the call that a seed determines.
    pub fn of(seed: u64) -> Call {
        let mut inputs = Inputs::new(seed);
        let kind = Kind::ALL[inputs.below(Kind::ALL.len())];
        let size = (inputs.m, inputs.n);
        let Both {
            asked,
            proved,
            second,
            times,
        } = match kind {
            Kind::Multiplicity => multiplicity(&mut inputs),
            Kind::Multiplicities => multiplicities(&mut inputs),
            Kind::FewestLevels => fewest_levels(&mut inputs),
            Kind::Marking => marking(&mut inputs),
            Kind::Settle => settle(&mut inputs),
            Kind::Make => make(&mut inputs),
            Kind::SettleShallow => settle_shallow(&mut inputs),
            Kind::MakeShallow => make_shallow(&mut inputs),
            Kind::Shallower => shallower(&mut inputs),
            Kind::FamilyCount => family_count(&mut inputs),
            Kind::FamilyTree => family_tree(&mut inputs),
            Kind::Check => check(&mut inputs),
            Kind::Arrivals => arrivals(&mut inputs),
            Kind::WriteTable => write_table(&mut inputs),
            Kind::Listing => listing(&mut inputs),
            Kind::Tidy => tidy(&mut inputs),
            Kind::Job => job(&mut inputs),
            Kind::Keep => keep(&mut inputs),
            Kind::Glyph => glyph(&mut inputs),
        };
        Call {
            kind,
            size,
            asked,
            proved,
            second,
            times,
        }
    }

    pub fn difference(&self) -> Option<String> {
        difference(&self.proved, &self.second)
    }
}

/// Both results of one call.
struct Both {
    asked: String,
    proved: Given,
    second: Given,
    times: Times,
}

/// A call of either implementation with three buffers.
type OnBuffers<T, R> = fn(&[u8], &mut [u8], &mut [u8], &mut [u8]) -> Result<T, R>;

/// A call in both implementations, and the form in which their accepted answers are compared.
struct FromSheet<T, S> {
    proved: OnBuffers<T, sitgurp::Refusal>,
    second: OnBuffers<S, reference::Refusal>,
    of_proved: fn(T) -> Answer,
    of_second: fn(S) -> Answer,
}

/// Describes sheets as Rust byte strings, and the lengths of the buffers.
fn in_words(sheets: &[&[u8]], buffers: &[Vec<u8>]) -> String {
    let sheets = sheets
        .iter()
        .map(|sheet| format!("sheet b\"{}\"", sheet.escape_ascii()));
    let lengths: Vec<usize> = buffers.iter().map(Vec::len).collect();
    let buffers = format!("buffer lengths {lengths:?}");
    sheets.chain([buffers]).collect::<Vec<_>>().join("\n")
}

fn bare_in_words(bare: &Bare, buffers: &[Vec<u8>]) -> String {
    let Bare { m, n, cells, group } = bare;
    let lengths: Vec<usize> = buffers.iter().map(Vec::len).collect();
    format!("m {m} n {n} cells {cells:?} group {group}\nbuffer lengths {lengths:?}")
}

/// Makes the same call twice, each time on a copy of the buffers.
fn both(
    asked: String,
    buffers: Vec<Vec<u8>>,
    proved: impl FnOnce(&mut [Vec<u8>]) -> Answer,
    second: impl FnOnce(&mut [Vec<u8>]) -> Answer,
) -> Both {
    let (proved, proved_time) = timed(buffers.clone(), proved);
    let (second, second_time) = timed(buffers, second);
    let times = Times {
        proved: proved_time,
        second: second_time,
    };
    Both {
        asked,
        proved,
        second,
        times,
    }
}

fn timed(
    mut buffers: Vec<Vec<u8>>,
    call: impl FnOnce(&mut [Vec<u8>]) -> Answer,
) -> (Given, Duration) {
    let start = Instant::now();
    let answer = call(&mut buffers);
    let took = start.elapsed();
    (Given { answer, buffers }, took)
}

fn multiplicity(inputs: &mut Inputs) -> Both {
    let bare = inputs.bare();
    let Bare { m, n, cells, group } = &bare;
    both(
        bare_in_words(&bare, &[]),
        vec![],
        |_| {
            let count = sitgurp::multiplicity(*m, *n, cells, *group);
            Answer::of_proved(count, Answer::Value)
        },
        |_| {
            let count = reference::multiplicity(*m as u64, *n as u64, cells, *group as u64);
            Answer::of_second(count, |value| Answer::Value(value as usize))
        },
    )
}

/// Counts the classes of every group of a table sheet.
fn multiplicities(inputs: &mut Inputs) -> Both {
    let sheet = inputs.table_sheet();
    both(
        in_words(&[&sheet], &[]),
        vec![],
        |_| Answer::of_proved(sitgurp::multiplicities(&sheet), Answer::Counts),
        |_| Answer::of_second(reference::multiplicities(&sheet), Answer::Counts),
    )
}

fn fewest_levels(inputs: &mut Inputs) -> Both {
    let sheet = inputs.table_sheet();
    both(
        in_words(&[&sheet], &[]),
        vec![],
        |_| Answer::of_proved(sitgurp::fewest_levels(&sheet), Answer::Value),
        |_| Answer::of_second(reference::fewest_levels(&sheet), Answer::Value),
    )
}

fn marking(inputs: &mut Inputs) -> Both {
    let bare = inputs.bare();
    let buffers = vec![inputs.buffer(inputs.marks_needed())];
    let Bare { m, n, cells, .. } = &bare;
    both(
        bare_in_words(&bare, &buffers),
        buffers,
        |marks| {
            Answer::of_proved(
                sitgurp::marking(*m, *n, cells, &mut marks[0]),
                Answer::Value,
            )
        },
        |marks| {
            let answer = reference::marking(*m as u64, *n as u64, cells, &mut marks[0]);
            Answer::of_second(answer, |mark| Answer::Value(usize::from(mark)))
        },
    )
}

fn settle(inputs: &mut Inputs) -> Both {
    let sheet = inputs.net_sheet();
    let call = FromSheet {
        proved: sitgurp::settle,
        second: reference::settle,
        of_proved: Answer::Value,
        of_second: Answer::Value,
    };
    from_sheet(inputs, &sheet, call)
}

fn make(inputs: &mut Inputs) -> Both {
    let sheet = inputs.table_sheet();
    let call = FromSheet {
        proved: sitgurp::make,
        second: reference::make,
        of_proved: Answer::Value,
        of_second: Answer::Value,
    };
    from_sheet(inputs, &sheet, call)
}

fn settle_shallow(inputs: &mut Inputs) -> Both {
    let sheet = inputs.net_sheet();
    let call = FromSheet {
        proved: sitgurp::settle_shallow,
        second: reference::settle_shallow,
        of_proved: |answer| Answer::Layered(answer.length, answer.layers),
        of_second: |answer| Answer::Layered(answer.length, answer.layers),
    };
    from_sheet(inputs, &sheet, call)
}

fn make_shallow(inputs: &mut Inputs) -> Both {
    let sheet = inputs.table_sheet();
    let call = FromSheet {
        proved: sitgurp::make_shallow,
        second: reference::make_shallow,
        of_proved: |answer| Answer::Layered(answer.length, answer.layers),
        of_second: |answer| Answer::Layered(answer.length, answer.layers),
    };
    from_sheet(inputs, &sheet, call)
}

/// Compares the shallower of two sheets: which of them has the returned part at its front, and the part's length.
fn shallower(inputs: &mut Inputs) -> Both {
    let (first, second) = (inputs.net_sheet(), inputs.other_net_sheet());
    let part = |part: &[u8]| {
        let in_sheet = |sheet: &[u8]| sheet.as_ptr() == part.as_ptr();
        let which = [&first, &second].iter().position(|sheet| in_sheet(sheet));
        Answer::Part(which, part.len())
    };
    both(
        in_words(&[&first, &second], &[]),
        vec![],
        |_| part(sitgurp::shallower(&first, &second)),
        |_| part(reference::shallower(&first, &second)),
    )
}

/// Counts a table sheet's trees. A table without a tree is accepted.
fn family_count(inputs: &mut Inputs) -> Both {
    let sheet = inputs.table_sheet();
    let buffers = vec![
        inputs.buffer(inputs.cells_needed()),
        inputs.buffer(inputs.marks_needed()),
    ];
    both(
        in_words(&[&sheet], &buffers),
        buffers,
        |buffers| {
            let [cells, marks] = lent(buffers);
            let count = sitgurp::family_count(&sheet, cells, marks);
            Answer::of_proved(count, Answer::Count)
        },
        |buffers| {
            let [cells, marks] = lent(buffers);
            let count = reference::family_count(&sheet, cells, marks);
            Answer::of_second(count, Answer::Count)
        },
    )
}

fn family_tree(inputs: &mut Inputs) -> Both {
    let sheet = inputs.table_sheet();
    let number = inputs.order_number(&sheet);
    let buffers = sheet_buffers(inputs, &sheet);
    both(
        format!("{}\nnumber {number}", in_words(&[&sheet], &buffers)),
        buffers,
        |buffers| {
            let [cells, marks, output] = lent(buffers);
            let length = sitgurp::family_tree(&sheet, number, cells, marks, output);
            Answer::of_proved(length, Answer::Value)
        },
        |buffers| {
            let [cells, marks, output] = lent(buffers);
            let length = reference::family_tree(&sheet, number, cells, marks, output);
            Answer::of_second(length, Answer::Value)
        },
    )
}

/// Returns cells, marks and output for a call that writes a net sheet.
fn sheet_buffers(inputs: &mut Inputs, sheet: &[u8]) -> Vec<Vec<u8>> {
    // the output needs the length of the settled sheet, which is close to that of the net sheet
    let output = sheet.len().min(MOST_NET_SHEET);
    vec![
        inputs.buffer(inputs.cells_needed()),
        inputs.buffer(inputs.marks_needed()),
        inputs.buffer(output),
    ]
}

/// Settles or makes.
fn from_sheet<T, S>(inputs: &mut Inputs, sheet: &[u8], call: FromSheet<T, S>) -> Both {
    let buffers = sheet_buffers(inputs, sheet);
    both(
        in_words(&[sheet], &buffers),
        buffers,
        |buffers| {
            let [cells, marks, output] = lent(buffers);
            let answer = (call.proved)(sheet, cells, marks, output);
            Answer::of_proved(answer, call.of_proved)
        },
        |buffers| {
            let [cells, marks, output] = lent(buffers);
            let answer = (call.second)(sheet, cells, marks, output);
            Answer::of_second(answer, call.of_second)
        },
    )
}

fn lent<const COUNT: usize>(buffers: &mut [Vec<u8>]) -> &mut [Vec<u8>; COUNT] {
    buffers.try_into().expect("so many buffers")
}

fn check(inputs: &mut Inputs) -> Both {
    let (net, table) = inputs.net_and_table_sheet();
    let buffers = vec![inputs.buffer(inputs.cells_needed())];
    both(
        in_words(&[&net, &table], &buffers),
        buffers,
        |cells| {
            Answer::of_proved(
                sitgurp::check(&net, &table, &mut cells[0]),
                |verdict| match verdict {
                    sitgurp::Verdict::Agree => Answer::Agree,
                    sitgurp::Verdict::Differ(index) => Answer::Differ(index),
                },
            )
        },
        |cells| {
            Answer::of_second(
                reference::check(&net, &table, &mut cells[0]),
                |verdict| match verdict {
                    reference::Verdict::Agree => Answer::Agree,
                    reference::Verdict::Differ(index) => Answer::Differ(index as usize),
                },
            )
        },
    )
}

/// Compares when a net's output settles; the two floats are compared bit for bit.
fn arrivals(inputs: &mut Inputs) -> Both {
    let (net, sheet) = inputs.net_and_arrival_sheet();
    let delay = inputs.delay();
    let bits = |earliest: f64, latest: f64| Answer::Settling(earliest.to_bits(), latest.to_bits());
    both(
        format!("{}\ndelay {delay}", in_words(&[&net, &sheet], &[])),
        vec![],
        |_| {
            let answer = sitgurp::arrivals(&net, &sheet, delay);
            Answer::of_proved(answer, |times| bits(times.earliest, times.latest))
        },
        |_| {
            let answer = reference::arrivals(&net, &sheet, delay);
            Answer::of_second(answer, |times| bits(times.earliest, times.latest))
        },
    )
}

fn write_table(inputs: &mut Inputs) -> Both {
    let sheet = inputs.net_sheet();
    let length = inputs.table_sheet_length(&sheet) + b" ink".len();
    let buffers = vec![inputs.buffer(length)];
    both(
        in_words(&[&sheet], &buffers),
        buffers,
        |output| Answer::of_proved(sitgurp::write_table(&sheet, &mut output[0]), Answer::Value),
        |output| {
            Answer::of_second(
                reference::write_table(&sheet, &mut output[0]),
                Answer::Value,
            )
        },
    )
}

/// More turns than any net has gates.
const TURNS: usize = 14;

/// Compares the lister's turns. The library is then asked for each turn by its number too; if the results differ, these count as the library's.
fn listing(inputs: &mut Inputs) -> Both {
    let sheet = inputs.net_sheet();
    let place = |line: &[u8]| (line.as_ptr() as usize - sheet.as_ptr() as usize, line.len());
    let mut both = both(
        in_words(&[&sheet], &[]),
        vec![],
        |_| {
            Answer::of_proved(sitgurp::Lister::start(&sheet), |mut lister| {
                Answer::Turns((0..TURNS).map(|_| lister.next().map(place)).collect())
            })
        },
        |_| {
            Answer::of_second(reference::Lister::start(&sheet), |mut lister| {
                Answer::Turns((0..TURNS).map(|_| lister.next().map(place)).collect())
            })
        },
    );
    let turns: Result<_, _> = (0..TURNS)
        .map(|k| sitgurp::gate_line(&sheet, k).map(|line| line.map(place)))
        .collect();
    let by_number = Answer::of_proved(turns, Answer::Turns);
    if by_number != both.proved.answer {
        both.proved.answer = by_number;
    }
    both
}

/// Tidies a loose table sheet. The spaces of its first lines make the output a little longer than it needs.
fn tidy(inputs: &mut Inputs) -> Both {
    let sheet = inputs.loose_sheet();
    let length = inputs.table_sheet_length(&sheet);
    let buffers = vec![inputs.buffer(inputs.cells_needed()), inputs.buffer(length)];
    both(
        in_words(&[&sheet], &buffers),
        buffers,
        |buffers| {
            let [cells, output] = lent(buffers);
            Answer::of_proved(sitgurp::tidy(&sheet, cells, output), Answer::Value)
        },
        |buffers| {
            let [cells, output] = lent(buffers);
            Answer::of_second(reference::tidy(&sheet, cells, output), Answer::Value)
        },
    )
}

/// The last question to a job. Its opening counts as an answer too.
#[derive(Clone, Copy, Debug)]
enum Last {
    Opening,
    Step,
    Mark(usize),
    Finish,
}

/// Opens a job and makes some steps, asks for a group after each, and then asks the last question.
fn job(inputs: &mut Inputs) -> Both {
    let sheet = inputs.table_sheet();
    let asked: Vec<usize> = (0..inputs.steps()).map(|_| inputs.group()).collect();
    let last = match inputs.below(8) {
        0 | 1 => Last::Opening,
        2 => Last::Step,
        3 => Last::Mark(inputs.group()),
        _ => Last::Finish,
    };
    let buffers = sheet_buffers(inputs, &sheet);
    let steps = asked.len();
    both(
        format!(
            "{}\n{steps} steps, then {last:?}",
            in_words(&[&sheet], &buffers)
        ),
        buffers,
        |buffers| {
            let [cells, marks, output] = lent(buffers);
            let (mut job, refusal) = sitgurp::Job::open(&sheet);
            let step =
                |job: &mut sitgurp::Job| Answer::of_proved(job.step(), |()| Answer::Value(0));
            let opening = Answer::of_proved(refusal.map_or(Ok(0), Err), Answer::Value);
            let mut before = vec![opening.clone()];
            for &group in &asked {
                before.push(step(&mut job));
                before.push(Answer::of_proved(job.mark(group), Answer::Mark));
            }
            let last = match last {
                Last::Opening => opening,
                Last::Step => step(&mut job),
                Last::Mark(group) => Answer::of_proved(job.mark(group), Answer::Mark),
                Last::Finish => Answer::of_proved(job.finish(cells, marks, output), Answer::Value),
            };
            Answer::Job(before, Box::new(last))
        },
        |buffers| {
            let [cells, marks, output] = lent(buffers);
            let (mut job, refusal) = reference::Job::open(&sheet);
            let step =
                |job: &mut reference::Job| Answer::of_second(job.step(), |()| Answer::Value(0));
            let opening = Answer::of_second(refusal.map_or(Ok(0), Err), Answer::Value);
            let mut before = vec![opening.clone()];
            for &group in &asked {
                before.push(step(&mut job));
                before.push(Answer::of_second(job.mark(group as u64), Answer::Mark));
            }
            let last = match last {
                Last::Opening => opening,
                Last::Step => step(&mut job),
                Last::Mark(group) => Answer::of_second(job.mark(group as u64), Answer::Mark),
                Last::Finish => Answer::of_second(job.finish(cells, marks, output), Answer::Value),
            };
            Answer::Job(before, Box::new(last))
        },
    )
}

/// Keeps the wiring of a net for its own table, or for a table that the wiring may not compute.
fn keep(inputs: &mut Inputs) -> Both {
    let (net, table) = inputs.net_and_table_sheet();
    let buffers = vec![
        inputs.buffer(inputs.cells_needed()),
        inputs.buffer(net.len().min(MOST_NET_SHEET)),
    ];
    both(
        in_words(&[&net, &table], &buffers),
        buffers,
        |buffers| {
            let [cells, output] = lent(buffers);
            let answer = sitgurp::keep(&net, &table, cells, output);
            Answer::of_proved(answer, |kept| {
                Answer::Kept(kept.length, kept.changed as u64)
            })
        },
        |buffers| {
            let [cells, output] = lent(buffers);
            let answer = reference::keep(&net, &table, cells, output);
            Answer::of_second(answer, |kept| Answer::Kept(kept.length, kept.changed))
        },
    )
}

fn glyph(inputs: &mut Inputs) -> Both {
    let net = inputs.net_sheet();
    let Drawn {
        width,
        height,
        picture,
        offsets,
    } = inputs.drawn();
    let buffers = vec![inputs.buffer(picture.len())];
    let words = in_words(&[&net], &buffers);
    both(
        format!("{words}\n{width} by {height}, picture {picture:?}, offsets {offsets:?}"),
        buffers,
        |output| {
            let output = &mut output[0];
            let answer = sitgurp::glyph(&net, width, height, &picture, &offsets, output);
            Answer::of_proved(answer, Answer::Value)
        },
        |output| {
            let (width, height, output) = (width as u64, height as u64, &mut output[0]);
            let answer = reference::glyph(&net, width, height, &picture, &offsets, output);
            Answer::of_second(answer, Answer::Value)
        },
    )
}
