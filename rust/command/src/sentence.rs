//! What is due at the place of a refusal, said so that one sees what to change. The library has judged: all before the place is as it should be.

use crate::excerpt;
use crate::words::{self, count, thousands};
use sitgurp::{Kind, Refusal};

/// Which sheet was due.
#[derive(Clone, Copy, Debug, PartialEq, Eq)]
pub enum Due {
    Table,
    /// A table sheet, loosely laid: any spaces between fields, rows in any order.
    Loose,
    /// A table in CSV, turned into a loose sheet.
    Csv,
    Net,
    Arrivals,
}

impl Due {
    pub fn name(self) -> &'static str {
        match self {
            Due::Table => "a table sheet",
            Due::Loose | Due::Csv => "a table",
            Due::Net => "a net sheet",
            Due::Arrivals => "an arrival sheet",
        }
    }

    fn is_table(self) -> bool {
        matches!(self, Due::Table | Due::Loose | Due::Csv)
    }

    fn is_loose(self) -> bool {
        matches!(self, Due::Loose | Due::Csv)
    }

    /// Says what separates fields.
    fn apart(self) -> &'static str {
        match self {
            Due::Loose => "with spaces between them",
            Due::Csv => "each in a cell of its own",
            _ => "one space apart",
        }
    }
}

/// A refused sheet up to its place: its lines so far, and what was read in them.
pub struct Front<'a> {
    pub due: Due,
    pub sheet: &'a [u8],
    pub place: usize,
    /// The line of the place, from 1.
    pub line: usize,
    pub levels: usize,
    pub inputs: usize,
    pub names: Vec<String>,
    /// The field at the place as it is in the file, where the sheet was made from one.
    pub given: Option<String>,
    /// The file's line of each line, where the sheet was made from one.
    pub lines: Vec<usize>,
}

impl<'a> Front<'a> {
    /// `inputs` are the names that an arrival sheet is for.
    pub fn of(due: Due, sheet: &'a [u8], refusal: &Refusal, inputs: &[String]) -> Front<'a> {
        let place = refusal.place.min(sheet.len());
        let lines = sheet[..place].split(|&byte| byte == b'\n');
        let before: Vec<Vec<String>> = lines.map(|line| fields_in(due, line)).collect();
        let number = |line: usize, field: usize| {
            let line = before.get(line).filter(|_| due != Due::Arrivals);
            let text = line.and_then(|line| line.get(field));
            text.and_then(|text| text.parse().ok()).unwrap_or(0)
        };
        let (levels, count) = (number(1, 0), number(1, 1));
        let names = match due {
            Due::Arrivals => inputs.to_vec(),
            _ => before.get(2).cloned().unwrap_or_default(),
        };
        Front {
            due,
            sheet,
            place,
            line: before.len(),
            levels,
            inputs: if due == Due::Arrivals {
                inputs.len()
            } else {
                count
            },
            names: names.into_iter().take(count.max(inputs.len())).collect(),
            given: None,
            lines: Vec::new(),
        }
    }

    /// Returns the number of a line in the file.
    fn number(&self, line: usize) -> usize {
        self.lines.get(line - 1).copied().unwrap_or(line)
    }

    /// Returns the field that begins at the place, as it is in the file.
    pub fn field(&self) -> String {
        let given = self.given.clone();
        given.unwrap_or_else(|| self.own_field())
    }

    /// Returns the field that begins at the place of the sheet.
    fn own_field(&self) -> String {
        let is_end = |&byte: &u8| byte == b' ' || byte == b'\n';
        let rest = &self.sheet[self.place..];
        let length = rest.iter().position(is_end).unwrap_or(rest.len());
        excerpt::field(&rest[..length])
    }

    /// How many lines the sheet should have, a net sheet at most, once its second line is read.
    fn lines_due(&self) -> usize {
        match self.due {
            Due::Table | Due::Loose | Due::Csv => 3 + self.rows(),
            Due::Net => 4 + self.inputs - 1,
            Due::Arrivals => 1 + self.inputs,
        }
    }

    /// Returns how many names line 3 has, if all names that line 2 says come before the place, and more names follow.
    pub fn names_too_many(&self) -> Option<usize> {
        let is_names = self.line == 3 && self.due != Due::Arrivals;
        if !is_names || fields_of_line(self).len() != self.inputs {
            return None;
        }
        let line = self.sheet.split(|&byte| byte == b'\n').nth(2)?;
        let mut fields = fields(line);
        fields.retain(|field| !field.is_empty());
        if self.due.is_table() && fields.pop()? != "ink" {
            return None;
        }
        let names = !fields.iter().any(|field| field == "ink");
        (names && fields.len() > self.inputs).then_some(fields.len())
    }

    /// The two references of each gate line before the place.
    pub fn references(&self) -> Vec<Vec<String>> {
        let lines = self.sheet[..self.place].split(|&byte| byte == b'\n');
        let lines = lines.skip(4).filter(|line| !line.is_empty());
        let references = |line| fields(line).into_iter().take(2).collect();
        lines.map(references).collect()
    }

    /// The numbers of the gates before the last that no gate line refers to.
    pub fn unused_gates(&self) -> Vec<usize> {
        let gates = self.references();
        let is_used = |number: &usize| gates.concat().contains(&number.to_string());
        (1..gates.len()).filter(|number| !is_used(number)).collect()
    }

    /// How many rows a table sheet should have.
    pub fn rows(&self) -> usize {
        self.levels
            .checked_pow(self.inputs as u32)
            .unwrap_or(usize::MAX)
    }

    /// The levels of a row of a table sheet, from 0.
    pub fn row(&self, mut index: usize) -> Vec<u8> {
        let mut levels = vec![0; self.inputs];
        for level in levels.iter_mut().rev() {
            *level = (index % self.levels) as u8;
            index /= self.levels;
        }
        levels
    }

    /// The index of a row by its levels, whatever spaces part them.
    pub fn index_of(&self, line: &[u8]) -> Option<usize> {
        let fields: Vec<&[u8]> = line
            .split(|&byte| byte == b' ')
            .filter(|field| !field.is_empty())
            .collect();
        let levels = fields.get(..self.inputs)?;
        levels.iter().try_fold(0, |index, field| match field {
            [digit] if digit.is_ascii_digit() && usize::from(digit - b'0') < self.levels => {
                Some(index * self.levels + usize::from(digit - b'0'))
            }
            _ => None,
        })
    }

    fn at_line_start(&self) -> bool {
        self.place == 0 || self.sheet[self.place - 1] == b'\n'
    }

    fn at_end(&self) -> bool {
        self.place == self.sheet.len()
    }
}

/// The fields of a line; in a loose sheet any number of spaces parts them.
fn fields_in(due: Due, line: &[u8]) -> Vec<String> {
    let mut fields = fields(line);
    if due.is_loose() {
        fields.retain(|field| !field.is_empty());
    }
    fields
}

fn fields(line: &[u8]) -> Vec<String> {
    let fields = line.split(|&byte| byte == b' ');
    fields.map(excerpt::field).collect()
}

/// The sentence of a refusal that has a place in a sheet.
pub fn sentence(kind: Kind, front: &Front) -> String {
    let field = front.field();
    match kind {
        Kind::Levels => format!("levels should be one digit from 2 to 9, not `{field}`"),
        Kind::Inputs => inputs(front, &field),
        Kind::Name => name(front, &field),
        Kind::Row if front.due.is_loose() => format!("{}, not `{field}`", level_due(front)),
        Kind::Row => row(front),
        Kind::RepeatedRow => repeated(front),
        Kind::Digits if front.due != Due::Net => format!("{}, not `{field}`", ink_due(front)),
        Kind::Digits => gate_table(front, &field),
        Kind::UnknownReference => unknown(front, &field),
        Kind::UsedReference => used(front, &field),
        Kind::ArrivalName => {
            let due = front.line.checked_sub(2).and_then(|k| front.names.get(k));
            let due = due.map_or("another input", String::as_str);
            format!("this line is for the input `{due}`, not `{field}`: one line an input, in the net's order")
        }
        Kind::ArrivalTime => time(front, &field),
        Kind::UnusedGate => unused(front),
        _ => layout(front),
    }
}

/// The sentence of a refusal at a blank cell of CSV.
pub fn blank_cell(kind: Kind, front: &Front) -> String {
    let due = match kind {
        Kind::Row => format!(
            "{}; only an ink may be left open, with `-`",
            level_due(front)
        ),
        Kind::Digits => ink_due(front),
        _ => line_due(front),
    };
    format!("this cell is blank: {due}")
}

fn level_due(front: &Front) -> String {
    let most = front.levels - 1;
    format!("an input's level should be one digit from 0 to {most}")
}

fn ink_due(front: &Front) -> String {
    let most = front.levels - 1;
    format!("an ink should be one digit from 0 to {most}, or `-` for an open cell")
}

/// A fixed word, a separator, or the sheet's end.
fn layout(front: &Front) -> String {
    let line = front.line;
    if front.sheet.is_empty() {
        return format!("there is nothing to read: {} is due", front.due.name());
    }
    let size_known = front.due == Due::Arrivals || line > 2;
    if size_known && line > front.lines_due() {
        let rest = front.sheet[front.place..].trim_ascii();
        let all = match front.due {
            Due::Table | Due::Loose | Due::Csv => {
                format!("all {} come before it", count(front.rows(), "row"))
            }
            Due::Net => format!(
                "{} before it, and {} inputs need no more",
                come(front.inputs - 1, "gate"),
                front.inputs
            ),
            Due::Arrivals => format!("all {} come before it", count(front.inputs, "input")),
        };
        return match rest.is_empty() {
            true => format!("the sheet should end before this line, which is blank: {all}"),
            false => format!("the sheet should end before this line: {all}"),
        };
    }
    if front.at_end() {
        return early_end(front);
    }
    if let Some(names) = front.names_too_many() {
        let ink = if front.due.is_table() {
            " before `ink`"
        } else {
            ""
        };
        return format!(
            "line {} has {}{ink}, and line {} says {}",
            front.number(3),
            count(names, "name"),
            front.number(2),
            count(front.inputs, "input")
        );
    }
    let all_names = fields_of_line(front).len() == front.inputs;
    if front.due.is_table() && line == 3 && all_names && !front.field().is_empty() {
        return format!(
            "`{}` is where `ink` should be, after the names of the {}",
            front.field(),
            count(front.inputs, "input")
        );
    }
    if front.at_line_start() && front.sheet[front.place] == b'\n' {
        let line = front.number(line);
        return format!("line {line} is blank: {}", line_due(front));
    }
    line_due(front)
}

/// The sheet ends before it should.
fn early_end(front: &Front) -> String {
    let line = front.line;
    if !front.at_line_start() {
        return match front.sheet.last() {
            Some(b' ') => format!(
                "the sheet ends in the middle of line {line}: {}",
                line_due(front)
            ),
            _ => format!(
                "line {line} has no line feed at its end, or the sheet is cut: {}",
                line_due(front)
            ),
        };
    }
    match (front.due, line) {
        (Due::Table, 4..) => {
            let first = line - 4;
            let left = front.rows() - first;
            let row = words::levels(&front.row(first));
            match left {
                1 => {
                    format!("the sheet ends here, and the last row is missing: `{row}` and its ink")
                }
                _ => format!(
                    "the sheet ends here, and {} are missing: from `{row}` on",
                    count(left, "row")
                ),
            }
        }
        (Due::Loose | Due::Csv, 4..) => {
            let known = rows_above(front);
            let missing = (0..front.rows()).filter(|row| !known.iter().any(|(one, _)| one == row));
            let missing: Vec<usize> = missing.collect();
            let row = words::levels(&front.row(missing.first().copied().unwrap_or(0)));
            match missing.len() {
                1 => format!("the sheet ends here, and the row `{row}` is missing"),
                left => format!(
                    "the sheet ends here, and {left} rows are missing, `{row}` the first of them"
                ),
            }
        }
        (Due::Net, 5) => {
            "the sheet ends here, and there is no gate line: a net has one or more".to_string()
        }
        (Due::Arrivals, 2..) => {
            let left = front.lines_due() + 1 - line;
            format!("the sheet ends here, and {} missing", are(left, "line"))
        }
        _ => format!("the sheet ends here: {}", line_due(front)),
    }
}

fn are(number: usize, one: &str) -> String {
    let verb = if number == 1 { "is" } else { "are" };
    format!("{} {verb}", count(number, one))
}

fn come(number: usize, one: &str) -> String {
    let verb = if number == 1 { "comes" } else { "come" };
    format!("{} {verb}", count(number, one))
}

/// Says what the line of the place should be.
fn line_due(front: &Front) -> String {
    let (inputs, apart) = (front.inputs, front.due.apart());
    let line = front.number(front.line);
    match (front.due, front.line) {
        (Due::Arrivals, 1) => "line 1 should be `name from to`".to_string(),
        (Due::Arrivals, _) => {
            format!("a line should have an input's name and two times, {apart}")
        }
        (Due::Csv, 1) => {
            format!(
                "line {line} should have the columns' names, or be `levels` and `inputs`, {apart}"
            )
        }
        (_, 1) => "line 1 should be `levels inputs`".to_string(),
        (_, 2) => format!("line {line} should have two numbers, levels and inputs, {apart}"),
        (Due::Net, 3) => format!("line 3 should have the names of the {inputs} inputs, {apart}"),
        (_, 3) => {
            format!(
                "line {line} should have the names of the {inputs} inputs and then `ink`, {apart}"
            )
        }
        (Due::Net, 4) => "line 4 should be `left right table`".to_string(),
        (Due::Net, _) => format!("a gate line should have left, right and table, {apart}"),
        (_, _) => {
            let levels = count(inputs, "level");
            format!("a row should have {levels} and an ink, {apart}")
        }
    }
}

fn inputs(front: &Front, field: &str) -> String {
    let plain = "inputs should be a number from 2 to 12";
    match field.parse::<u32>() {
        Ok(inputs @ 2..=12) if *field == inputs.to_string() => {
            let levels: usize = fields_of_line(front)[0].parse().unwrap_or(0);
            let fit = (2..=12)
                .rev()
                .find(|&fewer| levels.pow(fewer) <= sitgurp::MOST_CELLS);
            format!(
                "{levels} levels with {inputs} inputs are {} cells, and {} is the most: {} inputs fit",
                thousands(levels.pow(inputs)),
                thousands(sitgurp::MOST_CELLS),
                fit.unwrap_or(2)
            )
        }
        _ => format!("{plain}, not `{field}`"),
    }
}

/// The fields of the place's line before the place.
fn fields_of_line(front: &Front) -> Vec<String> {
    let before = &front.sheet[..front.place];
    let line = before.split(|&byte| byte == b'\n').next_back();
    let mut fields = fields(line.unwrap_or(&[]));
    fields.retain(|field| !field.is_empty());
    fields
}

fn name(front: &Front, field: &str) -> String {
    let earlier = fields_of_line(front);
    let own = front.own_field();
    if own == "ink" {
        return match front.due {
            Due::Table | Due::Loose | Due::Csv => format!(
                "`ink` is where a name should be: line {} says {}, and there {}",
                front.number(2),
                count(front.inputs, "input"),
                match earlier.len() {
                    1 => "is 1 name".to_string(),
                    names => format!("are {}", count(names, "name")),
                }
            ),
            _ => "`ink` is no input's name".to_string(),
        };
    }
    if earlier.contains(&own) {
        return format!("the name `{field}` is there twice");
    }
    let rule = "a name has 1 to 8 lowercase letters and digits, a letter first";
    match field.len() > 8 && field.bytes().all(|byte| byte.is_ascii_alphanumeric()) {
        true => format!("the name `{field}` is too long: {rule}"),
        false => format!("`{field}` is no name: {rule}"),
    }
}

/// A row that is not the next in the count.
fn row(front: &Front) -> String {
    let due = words::levels(&front.row(front.line - 4));
    format!("this row should begin `{due}`, the next in the count")
}

/// A row of a loose sheet that stands in an earlier line already.
fn repeated(front: &Front) -> String {
    let line = &front.sheet[front.place..];
    let line = line.split(|&byte| byte == b'\n').next().unwrap_or(&[]);
    let levels = fields_in(front.due, line);
    let row = front.index_of(line);
    let earlier = rows_above(front)
        .into_iter()
        .find(|(one, _)| Some(*one) == row);
    let levels: Vec<String> = levels.into_iter().take(front.inputs).collect();
    match earlier {
        Some((_, line)) => {
            let line = front.number(line);
            format!("the row `{}` is already in line {line}", levels.join(" "))
        }
        None => format!("the row `{}` is already above", levels.join(" ")),
    }
}

/// The rows of a loose sheet above the place's line, each with its line.
fn rows_above(front: &Front) -> Vec<(usize, usize)> {
    let lines = front.sheet[..front.place].split(|&byte| byte == b'\n');
    let lines = lines
        .enumerate()
        .skip(3)
        .take((front.line - 1).saturating_sub(3));
    let rows = lines.filter_map(|(k, line)| {
        let row = front.index_of(line)?;
        Some((row, k + 1))
    });
    rows.collect()
}

fn gate_table(front: &Front, field: &str) -> String {
    let (m, due) = (front.levels, front.levels * front.levels);
    let rule = format!("a gate's table should be {due} digits from 0 to {}", m - 1);
    match field.bytes().all(|byte| byte.is_ascii_digit()) {
        true if field.len() != due => format!("{rule}, and this has {}", field.len()),
        true => {
            let wrong = field.bytes().find(|byte| usize::from(byte - b'0') >= m);
            format!(
                "{rule}, and this has a {}",
                char::from(wrong.unwrap_or(b'?'))
            )
        }
        false => format!("{rule}, not `{field}`"),
    }
}

fn unknown(front: &Front, field: &str) -> String {
    let earlier = front.line - 5;
    let gates = match earlier {
        0 => "there is no gate before the first".to_string(),
        1 => "the only earlier gate is 1".to_string(),
        last => format!("the earlier gates are 1 to {last}"),
    };
    format!(
        "`{field}` is no input and no earlier gate: the inputs are {}, and {gates}",
        words::list(&front.names)
    )
}

fn used(front: &Front, field: &str) -> String {
    let lines = front.sheet[..front.place].split(|&byte| byte == b'\n');
    let lines: Vec<Vec<String>> = lines.map(fields).collect();
    let earlier = lines.iter().enumerate().skip(4);
    let mut uses = earlier.filter(|(_, line)| line.iter().take(2).any(|one| one == field));
    let place = match uses.next() {
        Some((k, _)) if k + 1 == front.line => "in this line".to_string(),
        Some((k, _)) => format!("in line {}", k + 1),
        None => "before".to_string(),
    };
    let what = if field.starts_with(|c: char| c.is_ascii_digit()) {
        "gate "
    } else {
        ""
    };
    format!("{what}`{field}` is used already, {place}: no input and no gate is used twice")
}

/// Gates that no later line refers to.
fn unused(front: &Front) -> String {
    let numbers: Vec<String> = front.unused_gates().iter().map(usize::to_string).collect();
    let gates = match &numbers[..] {
        [gate] => format!("gate {gate} is"),
        gates => format!("gates {} are", words::list(gates)),
    };
    format!(
        "{gates} never used: a later line refers to each gate but the last, which is the output"
    )
}

fn time(front: &Front, field: &str) -> String {
    let rule = "a time should be a whole number of quarter microseconds from 0 to 65535";
    let line = fields_of_line(front);
    match (
        field.parse::<u32>(),
        line.get(1).and_then(|from| from.parse::<u32>().ok()),
    ) {
        (Ok(to), Some(from)) if line.len() == 2 && to < from => {
            format!("`to` is {to}, which is before `from`, {from}")
        }
        _ => format!("{rule}, not `{field}`"),
    }
}
