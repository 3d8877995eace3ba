//! The partition matrix of a table over a group of inputs: a column for each assignment of the group, a row for each assignment of the other inputs, and the
//! inks in it. Equal columns form a class.

use sitgurp::Table;

pub struct Partition<'a> {
    table: &'a Table,
    /// The places of the group's inputs among all inputs, and of the others.
    pub members: Vec<usize>,
    pub others: Vec<usize>,
    /// The index that each column, and each row, adds to a cell's.
    column_offsets: Vec<usize>,
    row_offsets: Vec<usize>,
    /// The columns of each class. The classes are in the order of their first columns.
    pub classes: Vec<Vec<usize>>,
}

impl<'a> Partition<'a> {
    /// Returns the matrix of a group. Bit i of its number is input i. The group is not empty and has no other bits: the library refuses any other.
    pub fn of(table: &'a Table, group: usize) -> Partition<'a> {
        let inputs = table.names().len();
        let (members, others): (Vec<usize>, Vec<usize>) =
            (0..inputs).partition(|input| group >> input & 1 == 1);
        let column_offsets = offsets(table, &members);
        let row_offsets = offsets(table, &others);
        let mut partition = Partition {
            table,
            members,
            others,
            column_offsets,
            row_offsets,
            classes: Vec::new(),
        };
        for column in 0..partition.columns() {
            let same = |class: &Vec<usize>| partition.first_apart(class[0], column).is_none();
            match partition.classes.iter().position(same) {
                Some(class) => partition.classes[class].push(column),
                None => partition.classes.push(vec![column]),
            }
        }
        partition
    }

    pub fn columns(&self) -> usize {
        self.column_offsets.len()
    }

    pub fn rows(&self) -> usize {
        self.row_offsets.len()
    }

    /// Returns the index of a cell in the table.
    ///
    /// # Panics
    ///
    /// If there is no such row or column, here and in the functions below.
    pub fn index(&self, row: usize, column: usize) -> usize {
        self.row_offsets[row] + self.column_offsets[column]
    }

    pub fn ink(&self, row: usize, column: usize) -> u8 {
        self.table.inks()[self.index(row, column)]
    }

    /// Returns the first row in which two columns differ.
    pub fn first_apart(&self, first: usize, second: usize) -> Option<usize> {
        (0..self.rows()).find(|&row| self.ink(row, first) != self.ink(row, second))
    }

    /// Returns the levels of the group's inputs in a column.
    pub fn column(&self, column: usize) -> Vec<u8> {
        levels(self.table, self.members.len(), column)
    }

    /// Returns the levels of the other inputs in a row.
    pub fn row(&self, row: usize) -> Vec<u8> {
        levels(self.table, self.others.len(), row)
    }

    /// Returns the names of the group's inputs.
    pub fn member_names(&self) -> Vec<&str> {
        self.names(&self.members)
    }

    /// Returns the names of the other inputs.
    pub fn other_names(&self) -> Vec<&str> {
        self.names(&self.others)
    }

    fn names(&self, inputs: &[usize]) -> Vec<&str> {
        let name = |&input: &usize| self.table.names()[input].as_str();
        inputs.iter().map(name).collect()
    }
}

/// Returns what each assignment of some inputs adds to a cell's index; the first-listed input changes slowest.
fn offsets(table: &Table, inputs: &[usize]) -> Vec<usize> {
    let (levels, count) = (table.levels(), table.names().len());
    let mut offsets = vec![0];
    for input in inputs {
        let step = levels.pow((count - 1 - input) as u32);
        let next = |offset: &usize| (0..levels).map(|level| offset + level * step).collect();
        offsets = offsets.iter().flat_map::<Vec<usize>, _>(next).collect();
    }
    offsets
}

/// Returns the levels of an assignment of this many inputs, by its place in counting order.
fn levels(table: &Table, inputs: usize, mut place: usize) -> Vec<u8> {
    let mut levels = vec![0; inputs];
    for level in levels.iter_mut().rev() {
        *level = (place % table.levels()) as u8;
        place /= table.levels();
    }
    levels
}
