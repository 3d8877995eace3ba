//! What a BLIF or BLIF-MV file says: inputs, outputs and tables, each with its place.

use crate::blif;
use crate::blif_mv;
use crate::lines::{fault, lines, shown, Word};
use crate::Fault;
use std::collections::HashMap;

/// The most levels and cells of a sheet, and its inputs.
pub const MOST_LEVELS: usize = 9;
pub const MOST_INPUTS: usize = 12;
pub const MOST_CELLS: usize = sitgurp::MOST_CELLS;

/// The values of a signal: how many, and their names where they have any.
#[derive(Clone, Debug)]
pub struct Values<'a> {
    pub count: usize,
    pub names: Vec<&'a [u8]>,
    /// Where that is said.
    pub place: usize,
}

/// A table with one output.
#[derive(Debug)]
pub struct Node<'a> {
    pub inputs: Vec<Word<'a>>,
    pub output: Word<'a>,
    /// Whether it is a `.names`, whose other rows have the other value.
    pub is_cover: bool,
    /// The value of rows that are not listed.
    pub default: Option<Word<'a>>,
    pub rows: Vec<Vec<Word<'a>>>,
}

/// One model of a file.
#[derive(Debug)]
pub struct Model<'a> {
    pub file: &'a [u8],
    pub inputs: Vec<Word<'a>>,
    pub outputs: Vec<Word<'a>>,
    pub nodes: Vec<Node<'a>>,
    /// The signals that `.mv` names. All others have two values.
    pub values: HashMap<&'a [u8], Values<'a>>,
    /// The node of each signal that is no input.
    pub node_of: HashMap<&'a [u8], usize>,
    /// The number of each input.
    pub input_of: HashMap<&'a [u8], usize>,
}

impl<'a> Model<'a> {
    pub fn read(file: &'a [u8]) -> Result<Model<'a>, Fault> {
        let mut model = Model {
            file,
            inputs: Vec::new(),
            outputs: Vec::new(),
            nodes: Vec::new(),
            values: HashMap::new(),
            node_of: HashMap::new(),
            input_of: HashMap::new(),
        };
        let (mut models, mut ended, mut in_table) = (0, false, false);
        for line in lines(file) {
            let (first, rest) = (line[0], &line[1..]);
            if ended {
                return Err(fault(file, first.place, "the file goes on after `.end`: it has more than one model, and only one can be read"));
            }
            if !first.text.starts_with(b".") {
                let Some(node) = model.nodes.last_mut().filter(|_| in_table) else {
                    return Err(fault(
                        file,
                        first.place,
                        format!(
                            "{} is in no table: a row belongs below `.names` or `.table`",
                            first.shown()
                        ),
                    ));
                };
                node.rows.push(line);
                continue;
            }
            let is_default = matches!(first.text, b".default" | b".def");
            in_table = is_default && in_table;
            match first.text {
                b".model" => {
                    models += 1;
                    if models > 1 {
                        return Err(fault(file, first.place, "this is a second model, and only one can be read: flatten the design first"));
                    }
                }
                b".inputs" => model.inputs.extend(rest),
                b".outputs" => model.outputs.extend(rest),
                b".mv" => model.put_values(first, rest)?,
                b".names" | b".table" => {
                    model.put_node(first, rest)?;
                    in_table = true;
                }
                b".default" | b".def" => match (model.nodes.last_mut(), rest) {
                    (Some(node), [value]) if in_table => node.default = Some(*value),
                    _ => {
                        return Err(fault(
                            file,
                            first.place,
                            "`.default` has one value, and belongs below `.table`",
                        ))
                    }
                },
                b".end" => ended = true,
                name => directive(file, first, name)?,
            }
        }
        model.named()?;
        Ok(model)
    }

    /// Notes what `.mv` says.
    fn put_values(&mut self, first: Word<'a>, rest: &[Word<'a>]) -> Result<(), Fault> {
        let is_count = |word: &Word| word.text.iter().all(u8::is_ascii_digit);
        // names may be numbers, so the count is behind the last comma
        let list_end = rest.iter().rposition(|word| word.text.contains(&b','));
        let from = list_end.map_or(1, |last| {
            last + 1 + usize::from(rest[last].text.ends_with(b","))
        });
        let Some(count) = rest.get(from.max(1)).filter(|word| is_count(word)) else {
            return Err(fault(self.file, first.place, "`.mv` has names of signals with commas between, and then how many values they have"));
        };
        let number = std::str::from_utf8(count.text)
            .ok()
            .and_then(|text| text.parse().ok());
        let number = number.filter(|number| (1..=MOST_LEVELS).contains(number));
        let Some(number) = number else {
            return Err(fault(
                self.file,
                count.place,
                format!(
                    "a signal can have 1 to {MOST_LEVELS} values, and not {}",
                    count.shown()
                ),
            ));
        };
        let names: Vec<&[u8]> = rest[from.max(1) + 1..]
            .iter()
            .map(|word| word.text)
            .collect();
        if !names.is_empty() && names.len() != number {
            return Err(fault(
                self.file,
                first.place,
                format!("there are {} names for {number} values", names.len()),
            ));
        }
        for signal in rest[..from.max(1)]
            .iter()
            .flat_map(|word| word.text.split(|&byte| byte == b','))
        {
            let values = Values {
                count: number,
                names: names.clone(),
                place: first.place,
            };
            if !signal.is_empty() && self.values.insert(signal, values).is_some() {
                return Err(fault(
                    self.file,
                    first.place,
                    format!("{} has its values twice", shown(signal)),
                ));
            }
        }
        Ok(())
    }

    /// Begins a table.
    fn put_node(&mut self, first: Word<'a>, rest: &[Word<'a>]) -> Result<(), Fault> {
        let is_cover = first.text == b".names";
        let arrow = rest.iter().position(|word| word.text == b"->");
        let (inputs, outputs) = match arrow.filter(|_| !is_cover) {
            Some(arrow) => (&rest[..arrow], &rest[arrow + 1..]),
            None => rest.split_at(rest.len().max(1) - 1),
        };
        let [output] = outputs else {
            let words = format!(
                "this table has {} outputs, and a gate has one",
                outputs.len()
            );
            return Err(fault(self.file, first.place, words));
        };
        self.nodes.push(Node {
            inputs: inputs.to_vec(),
            output: *output,
            is_cover,
            default: None,
            rows: Vec::new(),
        });
        Ok(())
    }

    /// Notes which signal is what; none is given twice.
    fn named(&mut self) -> Result<(), Fault> {
        for (k, input) in self.inputs.iter().enumerate() {
            if self.input_of.insert(input.text, k).is_some() {
                return Err(fault(
                    self.file,
                    input.place,
                    format!("the input {} is listed twice", input.shown()),
                ));
            }
        }
        for (k, node) in self.nodes.iter().enumerate() {
            let output = node.output;
            if self.input_of.contains_key(output.text) {
                return Err(fault(
                    self.file,
                    output.place,
                    format!("{} is an input, and has a table too", output.shown()),
                ));
            }
            if self.node_of.insert(output.text, k).is_some() {
                return Err(fault(
                    self.file,
                    output.place,
                    format!("{} has a second table here", output.shown()),
                ));
            }
        }
        Ok(())
    }

    /// Returns how many values a signal has.
    pub fn count(&self, signal: &[u8]) -> usize {
        self.values.get(signal).map_or(2, |values| values.count)
    }

    /// Returns the value of a signal that a word names.
    pub fn value(&self, signal: &[u8], word: &[u8]) -> Option<u8> {
        let named = self
            .values
            .get(signal)
            .filter(|values| !values.names.is_empty());
        let value = match named {
            Some(values) => values.names.iter().position(|name| *name == word),
            None => std::str::from_utf8(word)
                .ok()
                .and_then(|text| text.parse().ok()),
        };
        value
            .filter(|&value| value < self.count(signal))
            .map(|value| value as u8)
    }

    /// Returns the place of an output: the one of this name, or the only one.
    pub fn output(&self, name: Option<&str>) -> Result<Word<'a>, Fault> {
        let end = self.file.len();
        let listed = || {
            let names: Vec<String> = self.outputs.iter().take(8).map(Word::shown).collect();
            names.join(", ")
        };
        match (name, &self.outputs[..]) {
            (_, []) => Err(fault(self.file, end, "the model has no `.outputs`")),
            (None, [output]) => Ok(*output),
            (None, [_, second, ..]) => Err(fault(
                self.file,
                second.place,
                format!("the model has {} outputs, and a net has one; `--output NAME` takes one of them: {}", self.outputs.len(), listed()),
            )),
            (Some(name), outputs) => {
                let found = outputs.iter().find(|output| output.text == name.as_bytes());
                found.copied().ok_or_else(|| {
                    fault(self.file, outputs[0].place, format!("there is no output {}; there is {}", shown(name.as_bytes()), listed()))
                })
            }
        }
    }

    /// Returns what a node does.
    pub fn rule(&self, node: &Node<'a>) -> Result<Rule<'a>, Fault> {
        match node.is_cover && node.default.is_none() && blif::is_cover(self, node) {
            true => blif::rule(self, node),
            false => blif_mv::values(self, node).map(Rule::Table),
        }
    }
}

/// What a node does.
#[derive(Debug)]
pub enum Rule<'a> {
    /// A value for each row, the first input slowest.
    Table(Vec<u8>),
    /// A value where one of the rows holds, and the other one elsewhere.
    Cover { rows: Vec<&'a [u8]>, value: u8 },
}

impl Rule<'_> {
    /// Returns the value for levels of the inputs, which have so many values.
    pub fn value(&self, counts: &[usize], levels: &[u8]) -> u8 {
        match self {
            Rule::Table(values) => {
                let next = |row, (&count, &level): (&usize, &u8)| row * count + usize::from(level);
                values[counts.iter().zip(levels).fold(0, next)]
            }
            Rule::Cover { rows, value } => {
                let fits = |(&own, &level): (&u8, &u8)| own == b'-' || own == b'0' + level;
                let holds = |row: &&[u8]| row.iter().zip(levels).all(fits);
                value ^ u8::from(!rows.iter().any(holds))
            }
        }
    }
}

/// Passes over a line that says nothing about the values of a net, or refuses it.
fn directive(file: &[u8], first: Word, name: &[u8]) -> Result<(), Fault> {
    let words = match name {
        b".latch" | b".mlatch" | b".flop" | b".reset" => {
            "a net has no memory: a model with latches cannot be read"
        }
        b".subckt" | b".search" | b".gateinit" | b".blackbox" => {
            "a model inside a model cannot be read: flatten the design first"
        }
        b".gate" => {
            "a gate of a library cannot be read: write the design as tables first (`.names`)"
        }
        b".exdc" => "don't-cares of a model cannot be read; a PLA can have them",
        b".start_kiss" => "a state machine cannot be read",
        // times, loads and remarks
        b".area"
        | b".delay"
        | b".wire_load_slope"
        | b".wire"
        | b".input_arrival"
        | b".default_input_arrival"
        | b".output_required"
        | b".default_output_required"
        | b".input_drive"
        | b".default_input_drive"
        | b".output_load"
        | b".default_output_load"
        | b".max_input_load"
        | b".default_max_input_load"
        | b".clock"
        | b".clock_event"
        | b".cname"
        | b".attr"
        | b".param"
        | b".version" => return Ok(()),
        _ => {
            return Err(fault(
                file,
                first.place,
                format!("{} is no command that can be read here", first.shown()),
            ))
        }
    };
    Err(fault(file, first.place, words))
}
