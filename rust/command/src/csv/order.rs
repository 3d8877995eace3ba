//! Which columns of a file the sheet has, in which order and under which names.

use super::names;
use super::record::{Cell, Flaw, Record};
use crate::words::list;

/// What was asked of the columns: the one that is the ink, and those that are left out, by their names.
#[derive(Default)]
pub struct Choice {
    pub ink: Option<String>,
    pub drop: Vec<String>,
}

/// A column of the sheet.
#[derive(Clone)]
pub struct Column {
    /// Its name in the file.
    pub written: String,
    /// Its name in the sheet. None where its cell is blank or has a flaw, which the library then refuses.
    pub name: String,
}

/// More inputs than any sheet has. The library refuses a sheet before it reads further names, so they stay as they are written.
const MOST: usize = 64;

/// The columns of a file as the sheet has them.
pub struct Order {
    /// The numbers of the kept columns, from 0, the ink last.
    pub kept: Vec<usize>,
    /// These columns.
    pub columns: Vec<Column>,
    /// How many columns the file has.
    pub count: usize,
}

impl Order {
    /// Chooses among the columns of the line of names. `is_said` where the file says how many inputs there are: then no column but one called ink is the ink.
    pub fn of(
        file: &[u8],
        names: &Record,
        rows: &[Record],
        choice: &Choice,
        is_said: bool,
    ) -> Result<Order, String> {
        let cells = &names.cells[..names.used()];
        let text = |cell: &Cell| match cell.flaw {
            Some(Flaw::Blank) => String::new(),
            _ => {
                let bytes: Vec<u8> = cell.bytes(file).map(|(byte, _)| byte).collect();
                names::written(&bytes)
            }
        };
        let written: Vec<String> = cells.iter().map(text).collect();
        let all = Named { written: &written };
        let mut is_used: Vec<bool> = cells.iter().map(is_filled).collect();
        for (k, cell) in rows.iter().flat_map(|row| row.cells.iter().enumerate()) {
            if k < cells.len() && is_filled(cell) {
                is_used[k] = true;
            }
        }
        let mut kept: Vec<usize> = (0..cells.len()).filter(|&k| is_used[k]).collect();
        for name in &choice.drop {
            let dropped = all.listed(name, &kept)?;
            kept.retain(|k| !dropped.contains(k));
        }
        let ink = match &choice.ink {
            Some(name) => Some(all.one(name, &kept)?),
            None if is_said => all.ink(&kept),
            None => all.ink(&kept).or(kept.last().copied()),
        };
        kept.retain(|&k| Some(k) != ink);
        let inputs = kept.iter().copied().filter(|&k| cells[k].flaw.is_none());
        let inputs: Vec<usize> = inputs.take(MOST).collect();
        let written_inputs: Vec<String> = inputs.iter().map(|&k| written[k].clone()).collect();
        let mut valid: Vec<String> = vec![String::new(); cells.len()];
        for (&k, name) in inputs.iter().zip(names::unique(&written_inputs)) {
            valid[k] = name;
        }
        if let Some(k) = ink.filter(|&k| cells[k].flaw.is_none()) {
            valid[k] = "ink".to_string();
        }
        kept.extend(ink);
        let column = |&k: &usize| Column {
            written: written[k].clone(),
            name: valid[k].clone(),
        };
        Ok(Order {
            columns: kept.iter().map(column).collect(),
            kept,
            count: cells.len(),
        })
    }
}

fn is_filled(cell: &Cell) -> bool {
    cell.flaw != Some(Flaw::Blank)
}

/// The columns by the names that are written in the file.
struct Named<'a> {
    written: &'a [String],
}

impl Named<'_> {
    /// Returns the columns of a name among these: those that are written so, or else with other capitals, or else those that become this name.
    fn matching(&self, name: &str, among: &[usize]) -> Vec<usize> {
        let name = name.trim();
        let lower = name.to_lowercase();
        let of = |way: usize| {
            let columns = among.iter().copied();
            let is = |&k: &usize| match way {
                0 => self.written[k] == name,
                1 => self.written[k].to_lowercase() == lower,
                _ => names::nearest(&self.written[k], k + 1) == name,
            };
            columns.filter(is).collect::<Vec<usize>>()
        };
        let mut ways = (0..3).map(of);
        ways.find(|found| !found.is_empty()).unwrap_or_default()
    }

    /// Returns the columns of a name, or of a list of names with commas between.
    fn listed(&self, names: &str, among: &[usize]) -> Result<Vec<usize>, String> {
        let whole = self.matching(names, among);
        if !whole.is_empty() {
            return Ok(whole);
        }
        let mut columns = Vec::new();
        for name in names.split(',') {
            match &self.matching(name, among)[..] {
                [] => return Err(self.unknown(name, among)),
                found => columns.extend_from_slice(found),
            }
        }
        Ok(columns)
    }

    /// Returns the column of a name, which only one may have.
    fn one(&self, name: &str, among: &[usize]) -> Result<usize, String> {
        match self.matching(name, among)[..] {
            [column] => Ok(column),
            [] => Err(self.unknown(name, among)),
            _ => Err(format!("more than one column is called `{name}`")),
        }
    }

    /// Returns the column that is called ink.
    fn ink(&self, among: &[usize]) -> Option<usize> {
        let exact = |k: &&usize| self.written[**k] == "ink";
        let near = |k: &&usize| names::nearest(&self.written[**k], 0) == "ink";
        let found = among
            .iter()
            .rfind(exact)
            .or_else(|| among.iter().rfind(near));
        found.copied()
    }

    fn unknown(&self, name: &str, among: &[usize]) -> String {
        let columns: Vec<String> = among
            .iter()
            .map(|&k| format!("`{}`", self.written[k]))
            .collect();
        format!(
            "no column is called `{}`; the columns are {}",
            name.trim(),
            list(&columns)
        )
    }
}
