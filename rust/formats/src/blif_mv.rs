//! BLIF-MV, which is BLIF for signals of more than two values.

use crate::blif;
use crate::lines::{fault, shown, Word};
use crate::model::{Model, Node, MOST_CELLS};
use crate::{wire_name, Fault, OUTPUT};
use sitgurp::{Net, Wire};

/// Returns a net as BLIF-MV, as a model of this name.
pub fn blif_mv(net: &Net, name: &str) -> String {
    let levels = net.levels();
    let mut text = blif::header(net, name);
    let inner = (1..net.gates().len()).map(|gate| format!("gate_{gate}"));
    let signals = net
        .names()
        .iter()
        .cloned()
        .chain(inner)
        .chain([OUTPUT.to_string()]);
    for signal in signals.filter(|_| levels > 2) {
        text += &format!(".mv {signal} {levels}\n");
    }
    for (k, gate) in net.gates().iter().enumerate() {
        let wires = [gate.left, gate.right, Wire::Gate(k)].map(|wire| wire_name(net, wire));
        text += &format!(".table {}\n", wires.join(" "));
        for (row, digit) in gate.digits.iter().enumerate() {
            text += &format!("{} {} {digit}\n", row / levels, row % levels);
        }
    }
    text + ".end\n"
}

/// Returns the values of a table, its first input slowest: each row has one, by a line or by `.default`.
pub fn values(model: &Model, node: &Node) -> Result<Vec<u8>, Fault> {
    let sizes = node.inputs.iter().map(|input| model.count(input.text));
    let cells = sizes.fold(1, |cells: usize, size| cells.saturating_mul(size));
    if cells > MOST_CELLS {
        let (output, count) = (node.output.shown(), node.inputs.len());
        let words = format!("the table of {output} has {count} inputs and over {MOST_CELLS} rows, which is too large");
        return Err(fault(model.file, node.output.place, words));
    }
    let signals: Vec<&[u8]> = node.inputs.iter().map(|input| input.text).collect();
    let mut values = vec![None; cells];
    for row in &node.rows {
        let entries = joined(row);
        if entries.len() != signals.len() + 1 {
            let words = format!(
                "this row has {} entries, and {} are due",
                entries.len(),
                signals.len() + 1
            );
            return Err(fault(model.file, row[0].place, words));
        }
        let (output, inputs) = entries.split_last().expect("an entry at least");
        let sets = signals
            .iter()
            .zip(inputs)
            .map(|(signal, entry)| set(model, signal, entry));
        let sets: Vec<Vec<bool>> = sets.collect::<Result<_, _>>()?;
        for (index, value) in values.iter_mut().enumerate() {
            let levels = levels(model, &signals, index);
            if !sets.iter().zip(&levels).all(|(set, &level)| set[level]) {
                continue;
            }
            let own = output_value(model, node, output, &levels)?;
            if value.replace(own).is_some_and(|before| before != own) {
                let words = format!(
                    "this row gives {} a second value at {}",
                    node.output.shown(),
                    assignment(&signals, &levels)
                );
                return Err(fault(model.file, row[0].place, words));
            }
        }
    }
    let default = node.default.map(|word| Entry::of(&[word]));
    let mut all = Vec::with_capacity(cells);
    for (index, value) in values.into_iter().enumerate() {
        let levels = levels(model, &signals, index);
        all.push(match (value, &default) {
            (Some(value), _) => value,
            (None, Some(default)) => output_value(model, node, default, &levels)?,
            (None, None) => {
                let words = format!(
                    "the table of {} has no row for {}, and no `.default`",
                    node.output.shown(),
                    assignment(&signals, &levels)
                );
                return Err(fault(model.file, node.output.place, words));
            }
        });
    }
    Ok(all)
}

/// Returns the levels of a row, the first signal slowest.
fn levels(model: &Model, signals: &[&[u8]], mut index: usize) -> Vec<usize> {
    let mut levels = vec![0; signals.len()];
    for (level, signal) in levels.iter_mut().zip(signals).rev() {
        let count = model.count(signal);
        *level = index % count;
        index /= count;
    }
    levels
}

/// `a=1 b=0`.
fn assignment(signals: &[&[u8]], levels: &[usize]) -> String {
    let pairs = signals.iter().zip(levels);
    let pairs: Vec<String> = pairs
        .map(|(signal, level)| format!("{}={level}", String::from_utf8_lossy(signal)))
        .collect();
    match pairs.is_empty() {
        true => "its one row".to_string(),
        false => format!("`{}`", pairs.join(" ")),
    }
}

/// An entry of a row; a set in brackets may have spaces inside.
struct Entry {
    text: Vec<u8>,
    place: usize,
}

impl Entry {
    fn of(words: &[Word]) -> Entry {
        Entry {
            text: words.iter().flat_map(|word| word.text).copied().collect(),
            place: words[0].place,
        }
    }
}

/// Returns the entries of a row.
fn joined(row: &[Word]) -> Vec<Entry> {
    let mut entries = Vec::new();
    let (mut start, mut depth) = (0, 0_i32);
    for (k, word) in row.iter().enumerate() {
        for byte in word.text {
            depth +=
                i32::from(matches!(byte, b'(' | b'{')) - i32::from(matches!(byte, b')' | b'}'));
        }
        if depth <= 0 {
            entries.push(Entry::of(&row[start..=k]));
            start = k + 1;
        }
    }
    if start < row.len() {
        entries.push(Entry::of(&row[start..]));
    }
    entries
}

/// Returns which values of a signal an entry holds: `1`, `-`, `(0,2)`, `{0-2}`, or `!` before one of these.
fn set(model: &Model, signal: &[u8], entry: &Entry) -> Result<Vec<bool>, Fault> {
    let count = model.count(signal);
    let wrong = || {
        let words = format!(
            "{} is no value of {}, which has {count}",
            shown(&entry.text),
            shown(signal)
        );
        fault(model.file, entry.place, words)
    };
    let value = |word: &[u8]| model.value(signal, word).map(usize::from).ok_or_else(wrong);
    let (text, is_without) = match entry.text.strip_prefix(b"!") {
        Some(rest) => (rest, true),
        None => (&entry.text[..], false),
    };
    let mut set = vec![false; count];
    match text {
        b"-" => set.fill(true),
        [b'(', inner @ .., b')'] => {
            for word in inner.split(|&byte| byte == b',') {
                set[value(word)?] = true;
            }
        }
        [b'{', inner @ .., b'}'] => {
            for part in inner.split(|&byte| byte == b',') {
                let (from, to) = match part.iter().position(|&byte| byte == b'-') {
                    Some(at) => (value(&part[..at])?, value(&part[at + 1..])?),
                    None => (value(part)?, value(part)?),
                };
                if from > to {
                    return Err(wrong());
                }
                set[from..=to].fill(true);
            }
        }
        word => set[value(word)?] = true,
    }
    Ok(set.into_iter().map(|is_in| is_in != is_without).collect())
}

/// Returns the value that an output's entry gives: the only one that it holds, or with `=NAME` that of an input.
fn output_value(model: &Model, node: &Node, entry: &Entry, levels: &[usize]) -> Result<u8, Fault> {
    let output = node.output;
    if let Some(name) = entry.text.strip_prefix(b"=") {
        let input = node.inputs.iter().position(|input| input.text == name);
        let input = input.ok_or_else(|| {
            fault(
                model.file,
                entry.place,
                format!("{} is no input of this table", shown(name)),
            )
        })?;
        let level = levels[input];
        if level >= model.count(output.text) {
            let words = format!(
                "{} has no value {level}, which {} has here",
                output.shown(),
                shown(name)
            );
            return Err(fault(model.file, entry.place, words));
        }
        return Ok(level as u8);
    }
    let set = set(model, output.text, entry)?;
    let mut values = (0..)
        .zip(set)
        .filter(|(_, is_in)| *is_in)
        .map(|(value, _)| value);
    match (values.next(), values.next()) {
        (Some(value), None) => Ok(value),
        _ => Err(fault(
            model.file,
            entry.place,
            format!(
                "the output of a row is one value, and {} is not",
                shown(&entry.text)
            ),
        )),
    }
}
