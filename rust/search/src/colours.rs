//! Columns of two wires as a gate makes them alike: a colouring of the columns with a given number of colours, in which no two columns of one colour
//! have different inks in a row. In such a colouring the inks of a colour agree in every row, so only pairs need to be compared.

use crate::grid::OPEN;
use crate::random::Random;

/// How often a colouring may backtrack before the search gives up.
const MOST_STEPS: usize = 4_000;

/// What is computed about some columns before they are coloured.
pub struct Columns {
    /// For each column those that conflict with it.
    conflicts: Vec<u128>,
    /// In how many rows two columns have the same ink.
    agreeing: Vec<Vec<u32>>,
}

impl Columns {
    /// Compares every two columns. There are at most 81, since a wire has at most 9 values.
    pub fn of(columns: &[Vec<u8>]) -> Columns {
        let count = columns.len();
        let mut conflicts = vec![0; count];
        let mut agreeing = vec![vec![0; count]; count];
        for second in 1..count {
            for first in 0..second {
                match agreement(&columns[first], &columns[second]) {
                    None => {
                        conflicts[first] |= 1 << second;
                        conflicts[second] |= 1 << first;
                    }
                    Some(rows) => {
                        agreeing[first][second] = rows;
                        agreeing[second][first] = rows;
                    }
                }
            }
        }
        Columns {
            conflicts,
            agreeing,
        }
    }

    /// Returns how many pairs of columns conflict.
    pub fn conflicting(&self) -> usize {
        let pairs: u32 = self.conflicts.iter().map(|with| with.count_ones()).sum();
        pairs as usize / 2
    }

    /// Returns a colour for each column, with at most `most` colours, or None if none was found. Columns that agree in many rows share a colour
    /// first, unless `chance` is 1. All colours are used if there are enough columns: a gate that keeps more columns apart never rules
    /// out a tree.
    pub fn coloured(&self, most: usize, chance: f64, random: &mut Random) -> Option<Vec<usize>> {
        let count = self.conflicts.len();
        let mut work = Work {
            columns: self,
            most,
            order: (0..count).map(|_| random.part()).collect(),
            colours: vec![None; count],
            members: Vec::new(),
            steps: MOST_STEPS,
            chance,
            random,
        };
        if !work.rest() {
            return None;
        }
        work.split();
        Some(
            work.colours
                .into_iter()
                .map(|colour| colour.unwrap_or(0))
                .collect(),
        )
    }
}

/// Returns in how many rows two columns have the same ink, or None if they have different inks in some row.
fn agreement(first: &[u8], second: &[u8]) -> Option<u32> {
    let mut rows = 0;
    for (&a, &b) in first.iter().zip(second) {
        if a != OPEN && b != OPEN {
            if a != b {
                return None;
            }
            rows += 1;
        }
    }
    Some(rows)
}

/// A partial colouring.
struct Work<'a> {
    columns: &'a Columns,
    most: usize,
    /// Decides which of two columns comes first if nothing else does.
    order: Vec<f64>,
    colours: Vec<Option<usize>>,
    /// The columns of each colour.
    members: Vec<u128>,
    steps: usize,
    /// How much the choices are left to chance.
    chance: f64,
    random: &'a mut Random,
}

impl Work<'_> {
    /// Colours the remaining columns, or leaves them as they are and returns false.
    fn rest(&mut self) -> bool {
        let Some(column) = self.next() else {
            return true;
        };
        for colour in self.choices(column) {
            if self.steps == 0 {
                return false;
            }
            self.steps -= 1;
            if colour == self.members.len() {
                self.members.push(0);
            }
            self.members[colour] |= 1 << column;
            self.colours[column] = Some(colour);
            if self.rest() {
                return true;
            }
            self.colours[column] = None;
            self.members[colour] &= !(1 << column);
            if self.members[colour] == 0 {
                self.members.pop();
            }
        }
        false
    }

    /// Returns the column with the fewest colours to choose from; among these the one with the most conflicts.
    fn next(&self) -> Option<usize> {
        let left = (0..self.colours.len()).filter(|&column| self.colours[column].is_none());
        let key = |column: &usize| {
            let conflicts = self.columns.conflicts[*column];
            let barred = self
                .members
                .iter()
                .filter(|members| **members & conflicts != 0)
                .count();
            (barred, conflicts.count_ones(), self.order[*column])
        };
        left.max_by(|a, b| key(a).partial_cmp(&key(b)).expect("numbers"))
    }

    /// Returns the colours that a column may have. The colour whose columns agree with it in most rows comes first, a new one last. Chance may
    /// change the order.
    fn choices(&mut self, column: usize) -> Vec<usize> {
        let conflicts = self.columns.conflicts[column];
        let mut free: Vec<(f64, usize)> = Vec::new();
        for colour in 0..self.members.len() {
            if self.members[colour] & conflicts == 0 {
                let agreeing = f64::from(self.agreeing(column, colour)) + 1.0;
                free.push((self.perhaps(agreeing), colour));
            }
        }
        if self.members.len() < self.most {
            let last = if self.random.part() < self.chance / 2.0 {
                f64::INFINITY
            } else {
                0.0
            };
            free.push((last, self.members.len()));
        }
        free.sort_by(|a, b| b.0.total_cmp(&a.0));
        free.into_iter().map(|(_, colour)| colour).collect()
    }

    /// Returns the number, reduced by chance.
    fn perhaps(&mut self, number: f64) -> f64 {
        number * (1.0 - self.chance * self.random.part())
    }

    fn agreeing(&self, column: usize, colour: usize) -> u32 {
        let members = bits(self.members[colour] & !(1 << column));
        members
            .map(|member| self.columns.agreeing[column][member])
            .sum()
    }

    /// Gives unused colours to the columns that agree least with the others of their colour.
    fn split(&mut self) {
        while self.members.len() < self.most {
            let mut least: Option<(f64, usize, usize)> = None;
            for column in 0..self.colours.len() {
                let colour = self.colours[column].unwrap_or(0);
                let others = self.members[colour].count_ones() - 1;
                if others > 0 {
                    let agreeing = f64::from(self.agreeing(column, colour)) + 1.0;
                    let agreeing = self.perhaps(agreeing / f64::from(others));
                    if least.is_none_or(|(known, _, _)| agreeing < known) {
                        least = Some((agreeing, column, colour));
                    }
                }
            }
            let Some((_, column, colour)) = least else {
                return;
            };
            self.members[colour] &= !(1 << column);
            self.colours[column] = Some(self.members.len());
            self.members.push(1 << column);
        }
    }
}

/// Lists the bits that are set.
fn bits(mut set: u128) -> impl Iterator<Item = usize> {
    std::iter::from_fn(move || {
        let next = (set != 0).then(|| set.trailing_zeros() as usize)?;
        set &= set - 1;
        Some(next)
    })
}
