//! From a model to a net: what an output depends on, its table, and the tree of its tables.

use crate::lines::{fault, shown, Word};
use crate::model::{Model, Node, Rule, MOST_CELLS, MOST_INPUTS, MOST_LEVELS};
use crate::names::valid_names;
use crate::{Fault, Read};
use sitgurp::{Net, Table};
use std::collections::{HashMap, HashSet};

/// The most values of all signals at all assignments.
const MOST_VALUES: usize = 1 << 28;

/// The part of a model that one output depends on.
pub struct Cone<'a> {
    model: &'a Model<'a>,
    output: Word<'a>,
    /// Its nodes, each after those that it reads.
    nodes: Vec<usize>,
    /// What each of these does.
    rules: HashMap<usize, Rule<'a>>,
    /// The inputs of the sheet, by their numbers in the model.
    inputs: Vec<usize>,
    names: Vec<String>,
    levels: usize,
}

impl<'a> Cone<'a> {
    /// Of the only output, or of the one of this name. The size is one that a sheet can have.
    pub fn of(model: &'a Model<'a>, output: Option<&str>) -> Result<Cone<'a>, Fault> {
        let word = model.output(output)?;
        let nodes = nodes_below(model, word)?;
        let inputs = inputs_of(model, &nodes, word, output.is_some());
        let mut cone = Cone {
            model,
            output: word,
            rules: HashMap::new(),
            names: Vec::new(),
            levels: 2,
            nodes,
            inputs,
        };
        cone.sized()?;
        for &node in &cone.nodes {
            cone.rules.insert(node, model.rule(&model.nodes[node])?);
        }
        let names: Vec<String> = cone.own_names().collect();
        cone.names = valid_names(&names);
        Ok(cone)
    }

    /// Lists the names of the inputs in the file.
    fn own_names(&self) -> impl Iterator<Item = String> + '_ {
        let names = self
            .inputs
            .iter()
            .map(|&input| self.model.inputs[input].text);
        names.map(|name| String::from_utf8_lossy(name).into_owned())
    }

    /// Finds the levels, and refuses a size that no sheet has.
    fn sized(&mut self) -> Result<(), Fault> {
        let (model, count) = (self.model, self.inputs.len());
        let place = model
            .inputs
            .first()
            .map_or(self.output.place, |input| input.place);
        if !(2..=MOST_INPUTS).contains(&count) {
            let words = format!("a sheet has 2 to {MOST_INPUTS} inputs, and not {count}");
            return Err(fault(model.file, place, words));
        }
        let outputs = self.nodes.iter().map(|&node| model.nodes[node].output);
        let inputs = self.inputs.iter().map(|&input| model.inputs[input]);
        let counts = outputs
            .chain(inputs.clone())
            .map(|word| model.count(word.text));
        self.levels = counts.max().unwrap_or(2).clamp(2, MOST_LEVELS);
        for input in inputs {
            let own = model.count(input.text);
            if own != self.levels {
                let words = format!("the input {} has {own} values, and others have {}: on a sheet all have the same", input.shown(), self.levels);
                let place = model
                    .values
                    .get(input.text)
                    .map_or(input.place, |values| values.place);
                return Err(fault(model.file, place, words));
            }
        }
        let cells = self.levels.checked_pow(count as u32);
        if cells.is_none_or(|cells| cells > MOST_CELLS) {
            let words = format!(
                "{} levels and {count} inputs are over {MOST_CELLS} rows, and a sheet has no more",
                self.levels
            );
            return Err(fault(model.file, place, words));
        }
        // a byte for each of them is held
        if cells.is_none_or(|cells| cells * self.nodes.len() > MOST_VALUES) {
            let words = format!(
                "the output {} depends on {} tables, which are too many",
                self.output.shown(),
                self.nodes.len()
            );
            return Err(fault(model.file, self.output.place, words));
        }
        Ok(())
    }

    /// Returns the table of the output, by the value of every signal at every assignment.
    pub fn table(&self) -> Table {
        let cells = self.levels.pow(self.inputs.len() as u32);
        let mut values: HashMap<&[u8], Vec<u8>> = HashMap::new();
        let mut step = cells;
        for &input in &self.inputs {
            step /= self.levels;
            let levels = (0..cells).map(|index| (index / step % self.levels) as u8);
            values.insert(self.model.inputs[input].text, levels.collect());
        }
        for node in &self.nodes {
            let Node { inputs, output, .. } = &self.model.nodes[*node];
            let rule = &self.rules[node];
            let counts = self.counts(inputs);
            let own = (0..cells).map(|index| {
                let levels = inputs.iter().map(|input| values[input.text][index]);
                rule.value(&counts, &levels.collect::<Vec<u8>>())
            });
            let own: Vec<u8> = own.collect();
            values.insert(output.text, own);
        }
        let mut inks = values[self.output.text].iter();
        let table = Table::from_rule(self.levels, &self.names, |_| {
            *inks.next().expect("an ink for each row")
        });
        table.expect("a size and names that a sheet can have")
    }

    /// Counts the values of some signals.
    fn counts(&self, signals: &[Word]) -> Vec<usize> {
        let signals = signals.iter().map(|signal| signal.text);
        signals.map(|signal| self.model.count(signal)).collect()
    }

    /// Returns what was read, with what its reader should know.
    pub fn read<S>(&self, sheet: S) -> Read<S> {
        let pairs = self.own_names().zip(self.names.iter().cloned());
        let renamed = pairs.filter(|(own, name)| own != name).collect();
        let mut notes = Vec::new();
        let used: HashSet<usize> = self.nodes.iter().copied().collect();
        let unused: Vec<String> = (0..self.model.nodes.len())
            .filter(|node| !used.contains(node))
            .map(|node| self.model.nodes[node].output.shown())
            .collect();
        if let [first, ..] = &unused[..] {
            notes.push(match unused.len() {
                1 => format!("the table of {first} is left out: the output does not read it"),
                count => format!(
                    "{count} tables are left out, {first} first: the output does not read them"
                ),
            });
        }
        let inputs = self.inputs.iter().map(|&input| self.model.inputs[input]);
        for signal in inputs.chain([self.output]) {
            let named = self
                .model
                .values
                .get(signal.text)
                .filter(|values| !values.names.is_empty());
            if let Some(values) = named {
                let levels = values.names.iter().enumerate();
                let levels: Vec<String> = levels
                    .map(|(level, name)| format!("{} is {level}", shown(name)))
                    .collect();
                notes.push(format!("{}: {}", signal.shown(), levels.join(", ")));
            }
        }
        Read {
            sheet,
            renamed,
            notes,
        }
    }
}

/// Lists the inputs of the sheet: all, or just those that an output depends on, where it is one of several. Where these are fewer than two, the first-listed
/// others make up two, as in a settled net.
fn inputs_of(model: &Model, nodes: &[usize], output: Word, is_chosen: bool) -> Vec<usize> {
    let all = 0..model.inputs.len();
    if !is_chosen {
        return all.collect();
    }
    let read = nodes.iter().flat_map(|&node| &model.nodes[node].inputs);
    let read: HashSet<&[u8]> = read.chain([&output]).map(|word| word.text).collect();
    let (mut inputs, others): (Vec<usize>, Vec<usize>) =
        all.partition(|&input| read.contains(model.inputs[input].text));
    let missing = 2_usize.saturating_sub(inputs.len());
    inputs.extend(others.iter().take(missing));
    inputs.sort_unstable();
    inputs
}

/// Lists the nodes that a signal depends on, each after those that it reads. A signal that nothing defines, and a circle, are refused.
fn nodes_below(model: &Model, output: Word) -> Result<Vec<usize>, Fault> {
    let mut order = Vec::new();
    let mut begun = HashSet::new();
    let mut done = HashSet::new();
    // a node with the number of its inputs that have been followed
    let mut path: Vec<(usize, usize)> = Vec::new();
    let mut next = Some(output);
    loop {
        if let Some(word) = next
            .take()
            .filter(|word| !model.input_of.contains_key(word.text))
        {
            let node = *model.node_of.get(word.text).ok_or_else(|| {
                fault(
                    model.file,
                    word.place,
                    format!("{} is no input, and has no table", word.shown()),
                )
            })?;
            if begun.insert(node) {
                path.push((node, 0));
            } else if !done.contains(&node) {
                return Err(fault(
                    model.file,
                    word.place,
                    format!("{} depends on itself", word.shown()),
                ));
            }
        }
        let Some((node, followed)) = path.last_mut() else {
            return Ok(order);
        };
        next = model.nodes[*node].inputs.get(*followed).copied();
        *followed += 1;
        if next.is_none() {
            done.insert(*node);
            order.push(*node);
            path.pop();
        }
    }
}

/// Where a value comes from.
#[derive(Clone, Copy, Debug, PartialEq, Eq)]
enum Source {
    Constant,
    Input(usize),
    Gate(usize),
}

/// A signal as a function of a source: its value for each level of that, one value for a constant.
#[derive(Clone, Debug)]
struct Signal {
    source: Source,
    map: Vec<u8>,
}

#[derive(Clone, Debug)]
struct Gate {
    sources: [Source; 2],
    digits: Vec<u8>,
    /// Its node.
    node: usize,
}

/// The tree of an output's tables.
pub struct Tree<'a> {
    cone: &'a Cone<'a>,
    gates: Vec<Gate>,
    signals: HashMap<&'a [u8], Signal>,
}

impl<'a> Tree<'a> {
    /// Refuses a signal that is read twice, and a table of more than two inputs that has no tree itself.
    pub fn of(cone: &'a Cone<'a>) -> Result<Tree<'a>, Fault> {
        let mut tree = Tree {
            cone,
            gates: Vec::new(),
            signals: HashMap::new(),
        };
        let levels: Vec<u8> = (0..cone.levels as u8).collect();
        for (k, &input) in cone.inputs.iter().enumerate() {
            let signal = Signal {
                source: Source::Input(k),
                map: levels.clone(),
            };
            tree.signals.insert(cone.model.inputs[input].text, signal);
        }
        for &node in &cone.nodes {
            let signal = tree.signal(node)?;
            tree.signals
                .insert(cone.model.nodes[node].output.text, signal);
        }
        tree.each_is_read_once()?;
        tree.with_output();
        Ok(tree)
    }

    /// A constant may be read any number of times, and everything else once.
    fn each_is_read_once(&self) -> Result<(), Fault> {
        let mut nodes = self.cone.nodes.clone();
        nodes.sort_unstable();
        let model = self.cone.model;
        let mut read: HashMap<&[u8], usize> = HashMap::new();
        for word in nodes.iter().flat_map(|&node| &model.nodes[node].inputs) {
            let is_constant = self.signals[word.text].source == Source::Constant;
            if let Some(before) = read.insert(word.text, word.place).filter(|_| !is_constant) {
                let line = fault(model.file, before, "").line;
                let words = format!(
                    "{} is read here and in line {line}, and a tree uses each wire once",
                    word.shown()
                );
                return Err(fault(model.file, word.place, words));
            }
        }
        Ok(())
    }

    /// Returns the signal of a node, and adds the gates that it needs.
    fn signal(&mut self, node: usize) -> Result<Signal, Fault> {
        let cone = self.cone;
        let model = cone.model;
        let Node { inputs, output, .. } = &model.nodes[node];
        let counts = cone.counts(inputs);
        let own: Vec<Signal> = inputs
            .iter()
            .map(|input| self.signals[input.text].clone())
            .collect();
        let live: Vec<usize> = (0..own.len())
            .filter(|&k| own[k].source != Source::Constant)
            .collect();
        let rule = &cone.rules[&node];
        // the value for levels of the live inputs; 0 for a level that a signal never has
        let value = |levels: &[u8]| {
            let level = |k: usize| match live.iter().position(|&input| input == k) {
                Some(at) => levels[at],
                None => own[k].map[0],
            };
            let all: Vec<u8> = (0..own.len()).map(level).collect();
            match all
                .iter()
                .zip(&counts)
                .all(|(&level, &count)| usize::from(level) < count)
            {
                true => rule.value(&counts, &all),
                false => 0,
            }
        };
        let of = |at: usize| own[live[at]].clone();
        Ok(match live.len() {
            0 => Signal {
                source: Source::Constant,
                map: vec![value(&[])],
            },
            1 => Signal {
                source: of(0).source,
                map: of(0).map.iter().map(|&level| value(&[level])).collect(),
            },
            2 => self.joined([of(0), of(1)], node, |left, right| value(&[left, right])),
            count => {
                let names: Vec<String> = (0..count).map(|k| format!("i{k}")).collect();
                let settled =
                    Table::from_rule(cone.levels, &names, value).and_then(|table| table.settled());
                let Ok(net) = settled else {
                    let words = format!("the table of {} has {count} inputs and is no tree of two-input gates itself", output.shown());
                    return Err(fault(model.file, output.place, words));
                };
                let mut wires: Vec<Signal> = Vec::new();
                for gate in net.gates() {
                    let signals = [gate.left, gate.right].map(|wire| match wire {
                        sitgurp::Wire::Input(input) => of(input),
                        sitgurp::Wire::Gate(gate) => wires[gate].clone(),
                    });
                    let digit = |left: u8, right: u8| {
                        gate.digits[usize::from(left) * net.levels() + usize::from(right)]
                    };
                    wires.push(self.joined(signals, node, digit));
                }
                wires.pop().expect("a net has a gate")
            }
        })
    }

    /// Adds a gate that joins two signals.
    fn joined(
        &mut self,
        signals: [Signal; 2],
        node: usize,
        digit: impl Fn(u8, u8) -> u8,
    ) -> Signal {
        let [left, right] = &signals;
        let digits = left
            .map
            .iter()
            .flat_map(|&l| right.map.iter().map(move |&r| (l, r)));
        let digits = digits.map(|(l, r)| digit(l, r)).collect();
        self.gates.push(Gate {
            sources: [left.source, right.source],
            digits,
            node,
        });
        Signal {
            source: Source::Gate(self.gates.len() - 1),
            map: (0..self.cone.levels as u8).collect(),
        }
    }

    /// Makes the last gate the output, and leaves out gates that nothing reads.
    fn with_output(&mut self) {
        let levels = self.cone.levels;
        let Signal { source, map } = self.signals[self.cone.output.text].clone();
        let output = match source {
            Source::Gate(gate) => {
                let digits = self.gates[gate].digits.iter();
                self.gates[gate].digits = digits.map(|&digit| map[usize::from(digit)]).collect();
                gate
            }
            // one gate of two inputs, one of which or both do not matter
            source => {
                let own = match source {
                    Source::Input(input) => input,
                    _ => 0,
                };
                let other = usize::from(own == 0);
                let row = |level: usize| map[level.min(map.len() - 1)];
                let digit = |k: usize| row(if own < other { k / levels } else { k % levels });
                self.gates.push(Gate {
                    sources: [own.min(other), own.max(other)].map(Source::Input),
                    digits: (0..levels * levels).map(digit).collect(),
                    node: usize::MAX,
                });
                self.gates.len() - 1
            }
        };
        self.in_order(output);
    }

    /// Keeps the gates below the output, each after those that it reads, and otherwise in the order of their nodes in the file.
    fn in_order(&mut self, output: usize) {
        let mut left: Vec<usize> = vec![output];
        let mut at = 0;
        while let Some(&gate) = left.get(at) {
            for source in self.gates[gate].sources {
                left.extend(match source {
                    Source::Gate(gate) => Some(gate),
                    _ => None,
                });
            }
            at += 1;
        }
        left.sort_by_key(|&gate| (self.gates[gate].node, gate));
        let mut new: HashMap<usize, usize> = HashMap::new();
        let mut gates = Vec::new();
        while !left.is_empty() {
            let is_ready = |source: &Source| match source {
                Source::Gate(gate) => new.contains_key(gate),
                _ => true,
            };
            let next = left
                .iter()
                .position(|&gate| self.gates[gate].sources.iter().all(is_ready));
            let old = left.remove(next.expect("a tree has no circle"));
            let mut gate = self.gates[old].clone();
            gate.sources = gate.sources.map(|source| match source {
                Source::Gate(gate) => Source::Gate(new[&gate]),
                source => source,
            });
            new.insert(old, gates.len());
            gates.push(gate);
        }
        self.gates = gates;
    }

    /// Returns the net.
    pub fn net(&self) -> Net {
        let Cone { names, levels, .. } = self.cone;
        let mut sheet = format!(
            "levels inputs\n{levels} {}\n{}\nleft right table\n",
            names.len(),
            names.join(" ")
        );
        for gate in &self.gates {
            for source in gate.sources {
                sheet += &match source {
                    Source::Input(input) => format!("{} ", names[input]),
                    Source::Gate(gate) => format!("{} ", gate + 1),
                    Source::Constant => unreachable!("a constant is part of a gate"),
                };
            }
            sheet.extend(gate.digits.iter().map(|&digit| char::from(b'0' + digit)));
            sheet.push('\n');
        }
        Net::read(sheet.as_bytes()).expect("a tree that uses each wire once")
    }
}
