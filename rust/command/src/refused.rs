//! A refusal as it is said: the file, the line and the column, what is due there, the line itself with a caret, and the likely cause.

use crate::cause::{causes, causes_in_csv};
use crate::csv::{narrow, Csv, Flaw, Separator};
use crate::excerpt::{excerpt, line_start};
use crate::input::Sheet;
use crate::json::Json;
use crate::sentence::{blank_cell, sentence, Due, Front};
use crate::words::{self, thousands};
use sitgurp::{Kind, Named, Net, Refusal, Table};
use std::fmt;

/// The number of a refusal that is not the library's.
const NO_NUMBER: usize = 0;

/// A refusal in words.
pub struct Refused {
    /// What the file is called in words.
    name: String,
    /// The file itself, for programs.
    file: String,
    refusal: Refusal,
    sentence: String,
    excerpt: String,
    causes: Vec<String>,
    /// What to do next.
    hint: Option<String>,
}

impl Refused {
    /// Of a sheet that is not accepted. `inputs` are the names that an arrival sheet is for.
    fn of_sheet(due: Due, sheet: &Sheet, refusal: Refusal, inputs: &[String]) -> Refused {
        let front = Front::of(due, &sheet.bytes, &refusal, inputs);
        // a gate that is never used is known at the sheet's end, and shown where it stands
        let place = match refusal.kind() {
            Kind::UnusedGate => line_start(&sheet.bytes, front.unused_gates()[0] + 3),
            _ => refusal.place,
        };
        Refused {
            name: sheet.name.clone(),
            file: sheet.file(),
            sentence: sentence(refusal.kind(), &front),
            excerpt: excerpt(&sheet.bytes, place),
            causes: causes(due, &sheet.bytes, &refusal, inputs),
            hint: tidy(due, sheet),
            refusal: Refusal {
                position: Some(position(&sheet.bytes, place)),
                ..refusal
            },
        }
    }

    /// Of a loosely laid table.
    pub fn of_loose(sheet: &Sheet, refusal: Refusal) -> Refused {
        Refused::of_sheet(Due::Loose, sheet, refusal, &[])
    }

    /// Of CSV that was turned into a loose table. The place is the one in the file.
    pub fn of_csv(sheet: &Sheet, csv: &Csv, refusal: Refusal) -> Refused {
        let mut front = Front::of(Due::Csv, &csv.text, &refusal, &[]);
        front.given = csv.shown(refusal.place);
        front.lines = csv.lines.clone();
        let sentence = match csv.flaw(refusal.place) {
            Some(Flaw::Blank) => blank_cell(refusal.kind(), &front),
            _ => sentence(refusal.kind(), &front),
        };
        let place = csv.source(refusal.place);
        let causes = causes_in_csv(&sheet.bytes, csv, &refusal);
        let refused = Refused::at(sheet, place, Refusal { place, ..refusal }, sentence);
        let words = csv.separator.words();
        let hint = format!("{words} separate the fields of this file");
        Refused { causes, ..refused }.hinted(match csv.inferred {
            None => hint,
            Some([levels, inputs]) => {
                let (inputs, program, operand) = (words::count(inputs, "input"), words::program(), sheet.operand());
                format!(
                    "{hint}; by its digits and columns it has {levels} levels and {inputs}\n\
                     `{program} tidy --csv --drop NAME{operand}` leaves a column out, and `--ink NAME` says which is the ink"
                )
            }
        })
    }

    /// Of two sheets together.
    fn of_headers(first: &Sheet, second: &Sheet, refusal: Refusal, differ: String) -> Refused {
        Refused {
            name: format!("{} and {}", first.name, second.name),
            file: format!("{} and {}", first.file(), second.file()),
            sentence: differ,
            excerpt: String::new(),
            causes: Vec::new(),
            hint: None,
            refusal,
        }
    }

    /// Of a place in a file that is told by its line and column.
    pub fn at(file: &Sheet, place: usize, refusal: Refusal, sentence: String) -> Refused {
        Refused {
            name: file.name.clone(),
            file: file.file(),
            sentence,
            excerpt: excerpt(&file.bytes, place),
            causes: Vec::new(),
            hint: None,
            refusal: Refusal {
                position: Some(position(&file.bytes, place)),
                ..refusal
            },
        }
    }

    /// Of a place in a file of another format, which the library does not judge: it has no number.
    pub fn of_format(file: &Sheet, place: usize, sentence: String) -> Refused {
        let refusal = Refusal {
            number: NO_NUMBER,
            place,
            named: Named::Neither,
            position: None,
            inputs: Vec::new(),
        };
        Refused::at(file, place, refusal, sentence)
    }

    /// Of a file as a whole.
    pub fn of_file(file: &Sheet, refusal: Refusal, sentence: String) -> Refused {
        Refused {
            name: file.name.clone(),
            file: file.file(),
            sentence,
            excerpt: String::new(),
            causes: Vec::new(),
            hint: None,
            refusal,
        }
    }

    /// With a likely cause.
    pub fn caused(mut self, words: String) -> Refused {
        self.causes.push(words);
        self
    }

    /// With what to do next.
    pub fn hinted(self, words: String) -> Refused {
        Refused {
            hint: Some(words),
            ..self
        }
    }

    /// Of an accepted table that has open cells.
    fn of_open_cells(sheet: &Sheet, table: &Table, refusal: Refusal) -> Refused {
        let others = match table.open().len() {
            1 => String::new(),
            cells => format!(", the first of {}", thousands(cells)),
        };
        let sentence = format!("this cell is open{others}, and a full table is needed here");
        // behind the row's levels, each with a space after it
        let row = line_start(&sheet.bytes, refusal.place + 3);
        let place = row + 2 * table.names().len();
        let (program, operand) = (words::program(), sheet.operand());
        Refused::at(sheet, place, refusal, sentence).hinted(format!(
            "`{program} fill{operand}` finds inks for open cells; `{program} check NET{operand}` passes over them"
        ))
    }

    /// Of an accepted table that has open cells, no tree, or none of this number.
    pub fn of_table(sheet: &Sheet, table: &Table, refusal: Refusal) -> Refused {
        if refusal.kind() == Kind::OpenCell {
            return Refused::of_open_cells(sheet, table, refusal);
        }
        let none = "no tree of two-input gates computes this table";
        let (program, operand) = (words::program(), sheet.operand());
        let why = format!("`{program} why{operand}` says what to change");
        let (sentence, hint) = match refusal.kind() {
            Kind::NoTree => {
                let inputs = words::list(&refusal.inputs);
                (format!("{none}; at fault are {inputs} together"), Some(why))
            }
            Kind::NoSuchTree => match table.family().map_or(0, |trees| trees.size()) {
                0 => (
                    format!("{none}, so it has no number {}", refusal.place),
                    Some(why),
                ),
                size => {
                    let numbers = match size - 1 {
                        0 => "number 0".to_string(),
                        last => format!("0 to {last}"),
                    };
                    let trees = trees(table, size);
                    let words = format!(
                        "the table has {trees}, {numbers}, and none of number {}",
                        refusal.place
                    );
                    (words, None)
                }
            },
            _ => (refusal.words().to_string(), None),
        };
        Refused {
            name: sheet.name.clone(),
            file: sheet.file(),
            sentence,
            excerpt: String::new(),
            causes: Vec::new(),
            hint,
            refusal,
        }
    }

    pub fn json(&self) -> Json {
        let optional = |number: Option<usize>| number.map_or(Json::Null, Json::number);
        let position = self.refusal.position;
        let number = Some(self.refusal.number).filter(|&number| number != NO_NUMBER);
        let kind = match number {
            Some(_) => format!("{:?}", self.refusal.kind()),
            None => "Format".to_string(),
        };
        Json::object([
            ("file", Json::text(&self.file)),
            ("number", optional(number)),
            ("kind", Json::text(kind)),
            ("place", Json::number(self.refusal.place)),
            ("line", optional(position.map(|(line, _)| line))),
            ("column", optional(position.map(|(_, column)| column))),
            ("words", Json::text(&self.sentence)),
            ("causes", Json::texts(&self.causes)),
        ])
    }
}

impl fmt::Display for Refused {
    fn fmt(&self, f: &mut fmt::Formatter<'_>) -> fmt::Result {
        write!(f, "{}:", self.name)?;
        if let Some((line, column)) = self.refusal.position {
            write!(f, "{line}:{column}:")?;
        }
        match self.refusal.number {
            NO_NUMBER => writeln!(f, " {}", self.sentence)?,
            number => writeln!(f, " {} (refusal {number})", self.sentence)?,
        }
        f.write_str(&self.excerpt)?;
        for cause in &self.causes {
            writeln!(f, "likely cause: {cause}")?;
        }
        match &self.hint {
            Some(hint) => writeln!(f, "{hint}"),
            None => Ok(()),
        }
    }
}

/// Line and column of a byte, both from 1.
fn position(bytes: &[u8], place: usize) -> (usize, usize) {
    let before = &bytes[..place.min(bytes.len())];
    let lines: Vec<&[u8]> = before.split(|&byte| byte == b'\n').collect();
    (lines.len(), lines.last().map_or(0, |line| line.len()) + 1)
}

/// Says which `tidy` reads a table that is laid loosely or is CSV.
fn tidy(due: Due, sheet: &Sheet) -> Option<String> {
    let is_table = matches!(due, Due::Table | Due::Loose);
    if !is_table || Net::read(&sheet.bytes).is_ok() {
        return None;
    }
    let (program, operand) = (words::program(), sheet.operand());
    if due == Due::Table && sitgurp::tidied(&sheet.bytes).is_ok() {
        return Some(format!(
            "`{program} tidy{operand}` writes it as a table sheet"
        ));
    }
    let is_mark = |byte: &u8| matches!(byte, b',' | b';' | b'\t' | b'\r' | b'"' | 0xef | 0xfe);
    let text = narrow(&sheet.bytes);
    let csv = Csv::of(&text);
    if sheet.bytes.iter().any(is_mark) && sitgurp::tidied(&csv.text).is_ok() {
        return Some(format!(
            "`{program} tidy --csv{operand}` writes it as a table sheet"
        ));
    }
    let is_csv = due == Due::Loose && csv.separator != Separator::Space;
    is_csv.then(|| {
        format!("`{program} tidy --csv{operand}` takes commas, semicolons or tabs between fields")
    })
}

/// What the library says of a sheet of this kind.
pub fn judged(due: Due, sheet: &[u8], inputs: &[String]) -> Result<(), Refusal> {
    match due {
        Due::Table => Table::read(sheet).map(drop),
        Due::Loose | Due::Csv => sitgurp::tidied(sheet).map(drop),
        Due::Net => Net::read(sheet).map(drop),
        Due::Arrivals => sitgurp::arrivals(&any_net(inputs), sheet, 0).map(drop),
    }
}

/// A net of these inputs, whatever its levels and gates.
fn any_net(inputs: &[String]) -> Vec<u8> {
    let mut sheet = format!(
        "levels inputs\n2 {}\n{}\nleft right table\n",
        inputs.len(),
        inputs.join(" ")
    );
    for (k, name) in inputs.iter().enumerate().skip(1) {
        let left = if k == 1 {
            inputs[0].clone()
        } else {
            (k - 1).to_string()
        };
        sheet += &format!("{left} {name} 0000\n");
    }
    sheet.into_bytes()
}

/// Reads a table sheet, or says in words why not.
pub fn table(sheet: &Sheet) -> Result<Table, Box<Refused>> {
    Table::read(&sheet.bytes)
        .map_err(|refusal| Box::new(Refused::of_sheet(Due::Table, sheet, refusal, &[])))
}

/// Reads a table sheet that leaves no cell open, or says in words why not.
pub fn full_table(sheet: &Sheet) -> Result<Table, Box<Refused>> {
    let table = table(sheet)?;
    // whatever needs a full table is refused alike
    match table.multiplicity(1) {
        Err(refusal) => Err(Box::new(Refused::of_table(sheet, &table, refusal))),
        Ok(_) => Ok(table),
    }
}

/// Reads a net sheet, or says in words why not.
pub fn net(sheet: &Sheet) -> Result<Net, Box<Refused>> {
    Net::read(&sheet.bytes)
        .map_err(|refusal| Box::new(Refused::of_sheet(Due::Net, sheet, refusal, &[])))
}

/// Reads the net sheet and the table sheet of a command that takes both. The net is judged first.
pub fn net_and_table(sheets: &[Sheet; 2]) -> Result<(Net, Table), Box<Refused>> {
    Ok((net(&sheets[0])?, table(&sheets[1])?))
}

/// Of two sheets whose first lines differ.
pub fn headers_differ(
    sheets: &[Sheet; 2],
    first: &Table,
    second: &Table,
    refusal: Refusal,
) -> Refused {
    Refused::of_headers(&sheets[0], &sheets[1], refusal, headers(first, second))
}

/// Of an arrival sheet for these inputs.
pub fn arrivals(sheet: &Sheet, refusal: Refusal, inputs: &[String]) -> Refused {
    Refused::of_sheet(Due::Arrivals, sheet, refusal, inputs)
}

/// Says how many trees a table has: `1 tree`, or `3 trees on a and b` where other inputs never matter. Trees with those are not counted.
pub fn trees(table: &Table, size: u64) -> String {
    let trees = match size {
        1 => "1 tree".to_string(),
        size => format!("{size} trees"),
    };
    match leaves(table) {
        Some((used, unused)) if !unused.is_empty() => format!("{trees} on {}", words::list(&used)),
        _ => trees,
    }
}

/// Lists the inputs that the trees of a table have as leaves, and those that they leave out.
pub fn leaves(table: &Table) -> Option<(Vec<&str>, Vec<&str>)> {
    let unused = table.settled().ok()?.unused();
    let names = table.names().iter().map(String::as_str).enumerate();
    let (out, used): (Vec<_>, Vec<_>) = names.partition(|(input, _)| unused.contains(input));
    Some((
        used.into_iter().map(|(_, name)| name).collect(),
        out.into_iter().map(|(_, name)| name).collect(),
    ))
}

/// In what the first lines of two sheets differ.
fn headers(first: &Table, second: &Table) -> String {
    let differ = |what: &str, one: String, other: String| {
        format!("the two differ in {what}: {one} against {other}")
    };
    let (names, others) = (first.names(), second.names());
    if first.levels() != second.levels() {
        differ(
            "levels",
            first.levels().to_string(),
            second.levels().to_string(),
        )
    } else if names.len() != others.len() {
        differ(
            "the number of inputs",
            names.len().to_string(),
            others.len().to_string(),
        )
    } else {
        let quoted = |names: &[String]| format!("`{}`", names.join(" "));
        differ(
            "the inputs' names or their order",
            quoted(names),
            quoted(others),
        )
    }
}
