//! The first lines of an accepted sheet. The library has judged them; nothing is judged here.

/// Levels and input names.
#[derive(Clone, Debug, PartialEq, Eq, Hash)]
pub(crate) struct Header {
    pub levels: usize,
    pub names: Vec<String>,
}

impl Header {
    /// Of an accepted sheet, of either kind. In a table sheet `ink` follows the names.
    pub fn of(sheet: &str) -> Header {
        let mut lines = sheet.lines().skip(1);
        let mut line = || lines.next().expect("an accepted sheet has three lines");
        let values: Vec<usize> = fields(line())
            .map(|value| value.parse().expect("a number"))
            .collect();
        Header {
            levels: values[0],
            names: fields(line()).take(values[1]).map(String::from).collect(),
        }
    }

    /// The index of an assignment, the last input fastest. None where it has not one level below `levels` for each input.
    pub fn index_of(&self, assignment: &[u8]) -> Option<usize> {
        let good = |&level: &u8| usize::from(level) < self.levels;
        if assignment.len() != self.names.len() || !assignment.iter().all(good) {
            return None;
        }
        let next = |index, &level: &u8| index * self.levels + usize::from(level);
        Some(assignment.iter().fold(0, next))
    }

    /// The assignment of an index.
    pub fn assignment(&self, mut index: usize) -> Vec<u8> {
        let mut levels = vec![0; self.names.len()];
        for level in levels.iter_mut().rev() {
            *level = (index % self.levels) as u8;
            index /= self.levels;
        }
        levels
    }
}

pub(crate) fn fields(line: &str) -> impl Iterator<Item = &str> {
    line.split(' ')
}

/// The text of an accepted sheet, which is ASCII.
pub(crate) fn text_of(sheet: Vec<u8>) -> String {
    String::from_utf8(sheet).expect("an accepted sheet is ASCII")
}
