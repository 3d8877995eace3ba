//! Counts how many calls of each kind ended in each way, and at how many sizes a kind was accepted.

use crate::calls::{Call, Kind};
use std::collections::BTreeSet;
use std::fmt;

/// Refusals are numbered from 1; 0 means an accepted call.
const ENDS: usize = 28;

#[derive(Clone, Default)]
struct Row {
    ends: [u64; ENDS],
    sizes: BTreeSet<(usize, usize)>,
}

/// A row for each kind of call.
#[derive(Default)]
pub struct Tally {
    rows: [Row; Kind::ALL.len()],
}

impl Tally {
    pub fn add(&mut self, call: &Call) {
        self.count(call.kind, call.size, call.proved.answer.number());
    }

    fn count(&mut self, kind: Kind, size: (usize, usize), number: usize) {
        let row = &mut self.rows[kind as usize];
        row.ends[number] += 1;
        if number == 0 {
            row.sizes.insert(size);
        }
    }

    /// Adds the counts of another tally.
    pub fn with(mut self, other: &Tally) -> Tally {
        for (row, more) in self.rows.iter_mut().zip(&other.rows) {
            let ends = row.ends.iter_mut().zip(&more.ends);
            ends.for_each(|(count, further)| *count += further);
            row.sizes.extend(&more.sizes);
        }
        self
    }

    /// Returns the kinds that were never accepted (0), and the refusals of a kind that never occurred.
    fn unseen(&self) -> Vec<(Kind, usize)> {
        let mut unseen = Vec::new();
        for (kind, row) in Kind::ALL.into_iter().zip(&self.rows) {
            let due = [0].iter().chain(kind.refusals());
            let missing = due.filter(|&&number| row.ends[number] == 0);
            unseen.extend(missing.map(|&number| (kind, number)));
        }
        unseen
    }
}

/// Returns `number: count` for every refusal that occurred, or that there is none.
fn refusals(ends: &[u64; ENDS]) -> String {
    let seen = (1..ENDS).filter(|&number| ends[number] > 0);
    let counts: Vec<String> = seen
        .map(|number| format!("{number}: {}", ends[number]))
        .collect();
    match counts[..] {
        [] => "none".to_string(),
        _ => counts.join(" "),
    }
}

impl fmt::Display for Tally {
    fn fmt(&self, f: &mut fmt::Formatter<'_>) -> fmt::Result {
        for (kind, row) in Kind::ALL.iter().zip(&self.rows) {
            let calls: u64 = row.ends.iter().sum();
            let (accepted, sizes) = (row.ends[0], row.sizes.len());
            writeln!(
                f,
                "{kind:?}: {calls} calls, {accepted} accepted at {sizes} sizes; refused:"
            )?;
            writeln!(f, "    {}", refusals(&row.ends))?;
        }
        match self.unseen()[..] {
            [] => writeln!(
                f,
                "each call was accepted, and refused with each of its numbers"
            ),
            ref unseen => writeln!(f, "not seen: {unseen:?}"),
        }
    }
}

#[cfg(test)]
mod tests {
    use super::*;

    /// Returns a tally with every end of every kind once, except one.
    fn all_but(kind: Kind, number: usize) -> Tally {
        let mut tally = Tally::default();
        for one in Kind::ALL {
            for &end in [0].iter().chain(one.refusals()) {
                if (one, end) != (kind, number) {
                    tally.count(one, (2, 2), end);
                }
            }
        }
        tally
    }

    #[test]
    fn what_was_not_seen_is_named() {
        assert_eq!(all_but(Kind::Make, 8).unseen(), []);
        for (kind, number) in [
            (Kind::Make, 16),
            (Kind::FamilyTree, 17),
            (Kind::Arrivals, 19),
            (Kind::Tidy, 20),
            (Kind::Job, 22),
            (Kind::Keep, 23),
            (Kind::Glyph, 25),
            (Kind::Multiplicity, 0),
            (Kind::Listing, 8),
            (Kind::Settle, 26),
            (Kind::Marking, 27),
        ] {
            assert_eq!(all_but(kind, number).unseen(), [(kind, number)]);
        }
    }

    #[test]
    fn two_tallies_are_one() {
        let (mut one, mut other) = (Tally::default(), Tally::default());
        one.count(Kind::Check, (2, 3), 0);
        other.count(Kind::Check, (3, 2), 0);
        other.count(Kind::Check, (3, 2), 12);
        let text = one.with(&other).to_string();
        assert!(text.contains("Check: 3 calls, 2 accepted at 2 sizes; refused:\n    12: 1\n"));
    }

    #[test]
    fn counts_are_by_kind_and_number() {
        let mut tally = Tally::default();
        tally.count(Kind::Check, (3, 2), 0);
        tally.count(Kind::Check, (2, 3), 0);
        tally.count(Kind::Check, (2, 3), 0);
        tally.count(Kind::Check, (2, 3), 12);
        let text = tally.to_string();
        assert!(text.contains("Check: 4 calls, 3 accepted at 2 sizes; refused:\n    12: 1\n"));
        assert!(text.contains("Settle: 0 calls, 0 accepted at 0 sizes; refused:\n    none\n"));
    }
}
