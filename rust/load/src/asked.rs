//! The arguments of recorded calls. One seed determines everything.

use crate::inputs::{Bare, Drawn, Inputs};
use crate::recorded::Argument::{self, Buffer, Bytes, Number, Own, Part};
use crate::recorded::{record, NAMES};
use sitgurp::MOST_NET_SHEET;

/// Makes the call that a seed determines, and returns its record.
pub fn recorded(seed: u64) -> Vec<u8> {
    let mut inputs = Inputs::new(seed);
    let name = NAMES[inputs.below(NAMES.len())];
    let mut out = Vec::new();
    match name {
        "job_step_parts" | "job_mark_parts" | "job_finish_parts" => {
            job(&mut out, &mut inputs, name)
        }
        _ => {
            let given = arguments(name, &mut inputs);
            record(&mut out, name, given);
        }
    }
    out
}

/// Returns the arguments of a call that needs no job.
fn arguments(name: &str, inputs: &mut Inputs) -> Vec<Argument> {
    match name {
        "multiplicity" | "marking" => bare(name, inputs),
        "settle" | "settle_shallow" => {
            let sheet = inputs.net_sheet();
            with_buffers(inputs, sheet)
        }
        "make" | "make_shallow" => {
            let sheet = inputs.table_sheet();
            with_buffers(inputs, sheet)
        }
        "family_count" => {
            let sheet = inputs.table_sheet();
            let mut given = with_buffers(inputs, sheet);
            given.truncate(3);
            given
        }
        "family_tree" => {
            let sheet = inputs.table_sheet();
            let number = inputs.order_number(&sheet);
            let mut given = with_buffers(inputs, sheet);
            given.insert(1, Number(number));
            given
        }
        "shallower" => vec![Bytes(inputs.net_sheet()), Bytes(inputs.other_net_sheet())],
        "check" | "keep" => {
            let (net, table) = inputs.net_and_table_sheet();
            let output = Buffer(inputs.buffer(net.len().min(MOST_NET_SHEET)));
            let cells = Buffer(inputs.buffer(inputs.cells_needed()));
            let mut given = vec![Bytes(net), Bytes(table), cells, output];
            given.truncate(if name == "check" { 3 } else { 4 });
            given
        }
        "write_table" => {
            let sheet = inputs.net_sheet();
            let length = inputs.table_sheet_length(&sheet) + b" ink".len();
            vec![Bytes(sheet), Buffer(inputs.buffer(length))]
        }
        "tidy" => {
            let sheet = inputs.loose_sheet();
            let length = inputs.table_sheet_length(&sheet);
            let cells = Buffer(inputs.buffer(inputs.cells_needed()));
            vec![Bytes(sheet), cells, Buffer(inputs.buffer(length))]
        }
        "gate_line" => vec![Bytes(inputs.net_sheet()), Number(inputs.below(14) as u64)],
        "lister_open" => vec![Bytes(inputs.net_sheet())],
        "lister_next" => {
            let sheet = inputs.net_sheet();
            let at = inputs.below(sheet.len() + 2) as u64;
            vec![Bytes(sheet), Number(at)]
        }
        "arrivals" => {
            let (net, sheet) = inputs.net_and_arrival_sheet();
            vec![Bytes(net), Bytes(sheet), Number(inputs.delay().into())]
        }
        "job_open_parts" => opening(inputs),
        _ => glyph(inputs),
    }
}

/// Returns bare cells, and a group or a buffer for marks.
fn bare(name: &str, inputs: &mut Inputs) -> Vec<Argument> {
    let Bare { m, n, cells, group } = inputs.bare();
    let mut given = vec![Number(m as u64), Number(n as u64), Bytes(cells)];
    given.push(match name {
        "multiplicity" => Number(group as u64),
        _ => Buffer(inputs.buffer(inputs.marks_needed())),
    });
    given
}

/// Returns a sheet, and cells, marks and output for it.
fn with_buffers(inputs: &mut Inputs, sheet: Vec<u8>) -> Vec<Argument> {
    let needed = [
        inputs.cells_needed(),
        inputs.marks_needed(),
        sheet.len().min(MOST_NET_SHEET),
    ];
    let buffers = needed.map(|length| Buffer(inputs.buffer(length)));
    [Bytes(sheet)].into_iter().chain(buffers).collect()
}

/// Returns a net, a picture with offsets, and an output.
fn glyph(inputs: &mut Inputs) -> Vec<Argument> {
    let net = inputs.net_sheet();
    let Drawn {
        width,
        height,
        picture,
        offsets,
    } = inputs.drawn();
    let output = Buffer(inputs.buffer(picture.len()));
    let offsets = offsets.into_iter().map(|offset| offset as u8).collect();
    vec![
        Bytes(net),
        Number(width as u64),
        Number(height as u64),
        Bytes(picture),
        Bytes(offsets),
        output,
    ]
}

/// The lengths of a job's parts: first lines, cells, marks, and how many groups have been passed.
const PARTS: [usize; 4] = [128, 4096, 4096, 8];

/// Returns a table sheet and a job's parts, with any bytes in them.
fn opening(inputs: &mut Inputs) -> Vec<Argument> {
    let sheet = Bytes(inputs.table_sheet());
    let parts = PARTS.map(|length| Own((0..length).map(|_| inputs.below(256) as u8).collect()));
    [sheet].into_iter().chain(parts).collect()
}

/// Opens a job, or uses arbitrary bytes as one, makes some steps on it, and then records one step, or a mark, or the finish.
fn job(out: &mut Vec<u8>, inputs: &mut Inputs, name: &str) {
    let mut given = opening(inputs);
    if inputs.below(8) > 0 {
        given = record(&mut Vec::new(), "job_open_parts", given);
    }
    let parts: Vec<Vec<u8>> = given
        .into_iter()
        .skip(1)
        .map(Argument::into_bytes)
        .collect();
    let [lines, mut cells, mut marks, mut passed] =
        <[Vec<u8>; 4]>::try_from(parts).expect("four parts");
    // a cell that no opened job has: an open one, or one above the number of levels
    if inputs.below(8) == 0 {
        let place = inputs.below(inputs.cells_needed());
        cells[place] = (inputs.m + inputs.below(2)) as u8;
    }
    let step = |out: &mut Vec<u8>, marks: &mut Vec<u8>, passed: &mut Vec<u8>| {
        let given = vec![
            Part(lines.clone()),
            Part(cells.clone()),
            Own(std::mem::take(marks)),
            Own(std::mem::take(passed)),
        ];
        let mut after = record(out, "job_step_parts", given);
        *passed = after.pop().map(Argument::into_bytes).unwrap_or_default();
        *marks = after.pop().map(Argument::into_bytes).unwrap_or_default();
    };
    let steps = match name {
        "job_step_parts" => inputs.below(inputs.groups() + 1),
        _ => inputs.steps(),
    };
    for _ in 0..steps {
        step(&mut Vec::new(), &mut marks, &mut passed);
    }
    let count = u64::from_le_bytes(passed[..].try_into().expect("eight bytes"));
    match name {
        "job_step_parts" => step(out, &mut marks, &mut passed),
        "job_mark_parts" => {
            let group = Number(inputs.group() as u64);
            record(
                out,
                name,
                vec![Part(lines), Part(marks), Number(count), group],
            );
        }
        _ => {
            let sheet = inputs.table_sheet();
            let buffers = with_buffers(inputs, sheet).into_iter().skip(1);
            let parts = [Part(lines), Part(cells), Number(count)];
            record(out, name, parts.into_iter().chain(buffers).collect());
        }
    }
}
