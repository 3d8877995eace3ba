//! PLA, the format of espresso, for tables of two levels.

use crate::lines::{fault, lines, Word};
use crate::model::MOST_INPUTS;
use crate::names::valid_names;
use crate::{Fault, Read, OUTPUT};
use sitgurp::{Row, Table};

/// Returns a table of two levels as a PLA with all rows, `-` for an open cell; None where it has more levels.
pub fn pla(table: &Table) -> Option<String> {
    if table.levels() != 2 {
        return None;
    }
    let names = table.names();
    let rows = table.inks().len();
    let mut text = format!(
        ".i {}\n.o 1\n.ilb {}\n.ob {OUTPUT}\n.type fd\n.p {rows}\n",
        names.len(),
        names.join(" ")
    );
    for Row { levels, ink } in table.rows() {
        text.extend(levels.iter().map(|&level| char::from(b'0' + level)));
        text += [" 0\n", " 1\n", " -\n"][usize::from(ink)];
    }
    Some(text + ".e\n")
}

/// What a PLA lists.
#[derive(Clone, Copy, PartialEq, Eq)]
enum Type {
    /// Ones; all else is 0.
    F,
    /// Ones and don't-cares; all else is 0.
    Fd,
    /// Ones and zeros; all else is don't-care.
    Fr,
    /// Everything.
    Fdr,
}

/// What is known of a cell: its ink, where 2 is an open cell, and the place that says so.
type Cell = Option<(u8, usize)>;

const OPEN: u8 = 2;

struct Pla<'a> {
    file: &'a [u8],
    inputs: Option<(usize, usize)>,
    outputs: Option<(usize, usize)>,
    input_names: Vec<Word<'a>>,
    output_names: Vec<Word<'a>>,
    kind: Type,
    rows: Vec<Vec<Word<'a>>>,
}

/// Reads the table of a PLA: a row for each assignment, and an open cell for a don't-care. `output` is the name of one of several outputs, or its number from 1
/// where they have no names.
pub fn table_of_pla(file: &[u8], output: Option<&str>) -> Result<Read<Table>, Fault> {
    let pla = Pla::of(file)?;
    let (inputs, outputs) = pla.size()?;
    let column = pla.column(outputs, output)?;
    let own: Vec<String> = match &pla.input_names[..] {
        [] => (0..inputs).map(|k| format!("x{k}")).collect(),
        names => names
            .iter()
            .map(|name| String::from_utf8_lossy(name.text).into_owned())
            .collect(),
    };
    let cells = pla.cells(inputs, outputs, column)?;
    let names = valid_names(&own);
    let mut inks = cells.iter();
    let table = Table::from_rule(2, &names, |_| *inks.next().expect("an ink for each row"));
    let table = table.expect("a size and names that a sheet can have");
    let mut notes = Vec::new();
    let open = table.open().len();
    if open > 0 {
        notes.push(format!(
            "{open} of {} cells are don't-cares, and open in the table; `fill` finds inks for them",
            cells.len()
        ));
    }
    let renamed = own
        .into_iter()
        .zip(names)
        .filter(|(own, name)| own != name)
        .collect();
    Ok(Read {
        sheet: table,
        renamed,
        notes,
    })
}

impl<'a> Pla<'a> {
    fn of(file: &'a [u8]) -> Result<Pla<'a>, Fault> {
        let mut pla = Pla {
            file,
            inputs: None,
            outputs: None,
            input_names: Vec::new(),
            output_names: Vec::new(),
            kind: Type::Fd,
            rows: Vec::new(),
        };
        let number = |line: &[Word]| {
            let count = line
                .get(1)
                .and_then(|word| std::str::from_utf8(word.text).ok()?.parse().ok());
            let count = count.filter(|_| line.len() == 2);
            count
                .map(|count: usize| (count, line[1].place))
                .ok_or_else(|| {
                    fault(
                        file,
                        line[0].place,
                        format!("{} has one number behind it", line[0].shown()),
                    )
                })
        };
        for line in lines(file) {
            let (first, rest) = (line[0], &line[1..]);
            match first.text {
                b".i" => pla.inputs = Some(number(&line)?),
                b".o" => pla.outputs = Some(number(&line)?),
                b".ilb" => pla.input_names = rest.to_vec(),
                b".ob" => pla.output_names = rest.to_vec(),
                b".type" => {
                    pla.kind = match rest {
                        [word] if word.text == b"f" => Type::F,
                        [word] if word.text == b"fd" => Type::Fd,
                        [word] if word.text == b"fr" => Type::Fr,
                        [word] if word.text == b"fdr" => Type::Fdr,
                        _ => {
                            return Err(fault(
                                file,
                                first.place,
                                "the type of a PLA is f, fd, fr or fdr",
                            ))
                        }
                    }
                }
                // how many rows there are is seen in the rows
                b".p" | b".label" => {}
                b".e" | b".end" => break,
                b".mv" | b".kiss" | b".symbolic" | b".phase" | b".pair" => {
                    return Err(fault(
                        file,
                        first.place,
                        format!(
                            "a PLA with {} cannot be read: it is no plain table of zeros and ones",
                            first.shown()
                        ),
                    ));
                }
                text if text.starts_with(b".") => {
                    return Err(fault(
                        file,
                        first.place,
                        format!("{} is no command that can be read here", first.shown()),
                    ));
                }
                _ => pla.rows.push(line),
            }
        }
        Ok(pla)
    }

    /// Returns the number of inputs and of outputs.
    fn size(&self) -> Result<(usize, usize), Fault> {
        let missing = |what: &str| {
            fault(
                self.file,
                0,
                format!("`{what}` is missing, which says how many there are"),
            )
        };
        let (inputs, place) = self.inputs.ok_or_else(|| missing(".i"))?;
        let (outputs, output_place) = self.outputs.ok_or_else(|| missing(".o"))?;
        if !(2..=MOST_INPUTS).contains(&inputs) {
            let words = format!(
                "a sheet of two levels has 2 to {MOST_INPUTS} inputs, and this PLA has {inputs}"
            );
            return Err(fault(self.file, place, words));
        }
        if outputs == 0 {
            return Err(fault(
                self.file,
                output_place,
                "a PLA without outputs has no table",
            ));
        }
        for (names, count, what) in [
            (&self.input_names, inputs, ".ilb"),
            (&self.output_names, outputs, ".ob"),
        ] {
            if let Some(last) = names.last().filter(|_| names.len() != count) {
                let words = format!("`{what}` names {}, and there are {count}", names.len());
                return Err(fault(self.file, last.place, words));
            }
        }
        for (k, name) in self.input_names.iter().enumerate() {
            if self.input_names[..k]
                .iter()
                .any(|other| other.text == name.text)
            {
                return Err(fault(
                    self.file,
                    name.place,
                    format!("the input {} is listed twice", name.shown()),
                ));
            }
        }
        Ok((inputs, outputs))
    }

    /// Returns the place of an output in a row: the only one, or the one that is asked for.
    fn column(&self, outputs: usize, output: Option<&str>) -> Result<usize, Fault> {
        let place = self.outputs.map_or(0, |(_, place)| place);
        let listed = match &self.output_names[..] {
            [] => format!("1 to {outputs}"),
            names => {
                let names: Vec<String> = names.iter().take(8).map(Word::shown).collect();
                names.join(", ")
            }
        };
        let Some(name) = output else {
            return match outputs {
                1 => Ok(0),
                _ => Err(fault(
                    self.file,
                    place,
                    format!("the PLA has {outputs} outputs, and a table has one; `--output NAME` takes one of them: {listed}"),
                )),
            };
        };
        let named = self
            .output_names
            .iter()
            .position(|output| output.text == name.as_bytes());
        let number = name
            .parse()
            .ok()
            .filter(|number| (1..=outputs).contains(number) && self.output_names.is_empty());
        let column = named.or(number.map(|number| number - 1));
        column.ok_or_else(|| {
            fault(
                self.file,
                place,
                format!("there is no output `{name}`; there is {listed}"),
            )
        })
    }

    /// Returns the ink of every row.
    fn cells(&self, inputs: usize, outputs: usize, column: usize) -> Result<Vec<u8>, Fault> {
        let mut cells: Vec<Cell> = vec![None; 1 << inputs];
        for row in &self.rows {
            self.put(&mut cells, row, inputs, outputs, column)?;
        }
        let other = match self.kind {
            Type::F | Type::Fd => Some(0),
            Type::Fr => Some(OPEN),
            Type::Fdr => None,
        };
        let inks = cells.iter().enumerate().map(|(index, cell)| {
            cell.map(|(ink, _)| ink).or(other).ok_or_else(|| {
                let words = format!(
                    "no row holds `{index:0inputs$b}`, and a PLA of type fdr lists everything"
                );
                fault(self.file, self.file.len(), words)
            })
        });
        inks.collect()
    }

    /// Puts what a row says of its output into the cells that it holds.
    fn put(
        &self,
        cells: &mut [Cell],
        row: &[Word],
        inputs: usize,
        outputs: usize,
        column: usize,
    ) -> Result<(), Fault> {
        let letters = row.iter().flat_map(|word| {
            word.text
                .iter()
                .enumerate()
                .map(|(k, &byte)| (byte, word.place + k))
        });
        let letters: Vec<(u8, usize)> = letters.filter(|(byte, _)| *byte != b'|').collect();
        if letters.len() != inputs + outputs {
            let words = format!("this row has {} digits, and {inputs} for the inputs and {outputs} for the outputs are due", letters.len());
            return Err(fault(self.file, row[0].place, words));
        }
        let (mut ones, mut free) = (0, 0);
        for &(byte, place) in &letters[..inputs] {
            (ones, free) = (2 * ones, 2 * free);
            match byte {
                b'0' => {}
                b'1' => ones += 1,
                b'-' | b'2' => free += 1,
                _ => return Err(fault(self.file, place, "an input of a row is 0, 1 or -")),
            }
        }
        let (byte, place) = letters[inputs + column];
        let ink = match (byte, self.kind) {
            (b'1' | b'4', _) => 1,
            (b'0', Type::Fr | Type::Fdr) => 0,
            (b'-' | b'2', Type::Fd | Type::Fdr) => OPEN,
            // nothing is said
            (b'0' | b'-' | b'2' | b'~' | b'3', _) => return Ok(()),
            _ => {
                return Err(fault(
                    self.file,
                    place,
                    "an output of a row is 0, 1, - or ~",
                ))
            }
        };
        for part in parts(free) {
            let index = ones | part;
            if let Some((before, at)) = cells[index].filter(|(before, _)| *before != ink) {
                let line = fault(self.file, at, "").line;
                let value = |ink: u8| ["0", "1", "-"][usize::from(ink)];
                let words = format!(
                    "at `{index:0inputs$b}` this row has {}, and line {line} has {}",
                    value(ink),
                    value(before)
                );
                return Err(fault(self.file, row[0].place, words));
            }
            cells[index] = Some((ink, row[0].place));
        }
        Ok(())
    }
}

/// Lists the parts of a set of bits: all numbers that have only these.
fn parts(bits: usize) -> impl Iterator<Item = usize> {
    let below = move |part: &usize| part.checked_sub(1).map(|part| part & bits);
    std::iter::successors(Some(bits), below)
}
