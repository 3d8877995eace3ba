//! Seeded good sheets of every allowed size; `damage` damages them. The same seed
//! gives the same sheets.

use crate::arrivals::Arrival;
use crate::limits::{allowed_sizes, MOST_NAME_BYTES, MOST_QUARTERS};
use crate::net::{all_inputs, place_in_count, Gate, Net, Table, Wire};
use crate::rng::Rng;
use crate::sheet::{print_arrival_sheet, print_net_sheet, print_table_sheet, Header};

/// The origin of a table.
#[derive(Clone, Copy, Debug, PartialEq, Eq)]
pub enum TableKind {
    /// The table of a random net of all inputs: it has a tree.
    OfNet,
    /// The table of a random net that leaves inputs out: it has a tree too.
    OfSomeInputs,
    /// The same with one ink changed.
    OneInkChanged,
    /// Any inks: at the larger sizes hardly ever with a tree.
    Random,
    /// One ink everywhere: no input matters.
    Constant,
    /// The sum of the levels modulo m: every wiring computes it.
    Sum,
    /// Least and greatest alternately, along the list of inputs.
    MinMaxChain,
    /// One random gate after another, each with one more input, in any order.
    AnyChain,
    /// All 0 except for a few cells near the end.
    FewCells,
    /// Random inks that depend on three inputs only.
    ThreeMatter,
    /// Random inks that depend on at most two inputs.
    TwoMatter,
}

impl TableKind {
    pub const ALL: [TableKind; 11] = [
        TableKind::OfNet,
        TableKind::OfSomeInputs,
        TableKind::OneInkChanged,
        TableKind::Random,
        TableKind::Constant,
        TableKind::Sum,
        TableKind::MinMaxChain,
        TableKind::AnyChain,
        TableKind::FewCells,
        TableKind::ThreeMatter,
        TableKind::TwoMatter,
    ];
}

pub struct Generator {
    pub rng: Rng,
}

impl Generator {
    pub fn new(seed: u64) -> Generator {
        Generator {
            rng: Rng::new(seed),
        }
    }

    /// Returns a random allowed (m, n).
    pub fn size(&mut self) -> (usize, usize) {
        let (m, n) = *self.rng.pick(&allowed_sizes());
        (m as usize, n as usize)
    }

    /// Returns n different good names of 1 to 8 bytes.
    pub fn names(&mut self, n: usize) -> Vec<Vec<u8>> {
        let mut names: Vec<Vec<u8>> = Vec::new();
        while names.len() < n {
            let name = self.name();
            if name != b"ink" && !names.contains(&name) {
                names.push(name);
            }
        }
        names
    }

    fn name(&mut self) -> Vec<u8> {
        let mut name = vec![b'a' + self.rng.below(26) as u8];
        for _ in 0..self.rng.below(MOST_NAME_BYTES) {
            name.push(*self.rng.pick(b"abcdefghijklmnopqrstuvwxyz0123456789"));
        }
        name
    }

    pub fn header(&mut self, m: usize, n: usize) -> Header {
        let names = self.names(n);
        Header { m, n, names }
    }

    /// Returns a net with any wiring; half of them may leave inputs out.
    pub fn net(&mut self, m: usize, n: usize) -> Net {
        match self.rng.below(2) {
            0 => self.net_of_all_inputs(m, n),
            _ => self.net_of_some_inputs(m, n),
        }
    }

    pub fn net_of_all_inputs(&mut self, m: usize, n: usize) -> Net {
        self.net_of(m, n, &all_inputs(n))
    }

    /// Returns a net that leaves out one input or more, if there are more than two.
    pub fn net_of_some_inputs(&mut self, m: usize, n: usize) -> Net {
        let used = 2 + self.rng.below(n.max(3) - 2);
        let inputs = self.some_inputs(n, used);
        self.net_of(m, n, &inputs)
    }

    /// Returns `count` of n inputs, in any order.
    fn some_inputs(&mut self, n: usize, count: usize) -> Vec<usize> {
        let mut inputs = all_inputs(n);
        self.rng.shuffle(&mut inputs);
        inputs.truncate(count);
        inputs
    }

    /// Returns a net with any wiring of these inputs: a gate joins two loose ends
    /// until one is left, so the gates are in a random valid order.
    fn net_of(&mut self, m: usize, n: usize, inputs: &[usize]) -> Net {
        let mut loose: Vec<Wire> = inputs.iter().map(|&input| Wire::Input(input)).collect();
        let mut gates = Vec::new();
        while loose.len() > 1 {
            let left = loose.swap_remove(self.rng.below(loose.len()));
            let right = loose.swap_remove(self.rng.below(loose.len()));
            let digits = self.digits(m);
            gates.push(Gate {
                left,
                right,
                digits,
            });
            loose.push(Wire::Gate(gates.len()));
        }
        Net { m, n, gates }
    }

    /// Returns a gate's digits. Random digits alone would make deep nets nearly
    /// constant. Therefore many gates pass on all their information; some give only two levels,
    /// so that the gate after them has digits that no assignment reaches.
    fn digits(&mut self, m: usize) -> Vec<u8> {
        let kind = self.rng.below(6);
        let shift = self.rng.below(m);
        let mut digits = Vec::new();
        for u in 0..m {
            for v in 0..m {
                let digit = match kind {
                    0 => (u + v + shift) % m,
                    1 => u.min(v),
                    2 => u.max(v),
                    3 => self.rng.below(2),
                    _ => self.rng.below(m),
                };
                digits.push(digit as u8);
            }
        }
        digits
    }

    pub fn table(&mut self, m: usize, n: usize, kind: TableKind) -> Table {
        match kind {
            TableKind::OfNet => self.net_of_all_inputs(m, n).table(),
            TableKind::OfSomeInputs => self.net_of_some_inputs(m, n).table(),
            TableKind::OneInkChanged => self.one_ink_changed(m, n),
            TableKind::Random => self.random_table(m, n),
            TableKind::Constant => {
                let ink = self.rng.level(m);
                Table::of(m, n, |_| ink)
            }
            TableKind::Sum => Table::of(m, n, |levels| sum(levels, m)),
            TableKind::MinMaxChain => Table::of(m, n, min_max_chain),
            TableKind::AnyChain => self.any_chain(m, n).table(),
            TableKind::FewCells => self.few_cells(m, n),
            TableKind::ThreeMatter => self.few_matter(m, n, 3),
            TableKind::TwoMatter => {
                let most = self.rng.below(3);
                self.few_matter(m, n, most)
            }
        }
    }

    /// Returns the table with a few of its cells left open, or with many.
    pub fn with_open_cells(&mut self, table: Table) -> Table {
        let mut table = table;
        let cells = table.inks.len();
        let most = *self.rng.pick(&[1, 3, cells, 4 * cells]);
        for _ in 0..1 + self.rng.below(most) {
            let cell = self.rng.below(cells);
            table.inks[cell] = table.m as u8;
        }
        table
    }

    fn one_ink_changed(&mut self, m: usize, n: usize) -> Table {
        let mut table = self.net_of_all_inputs(m, n).table();
        let cell = self.rng.below(table.inks.len());
        let step = 1 + self.rng.below(m - 1);
        table.inks[cell] = ((usize::from(table.inks[cell]) + step) % m) as u8;
        table
    }

    fn random_table(&mut self, m: usize, n: usize) -> Table {
        let mut table = Table::of(m, n, |_| 0);
        for ink in &mut table.inks {
            *ink = self.rng.level(m);
        }
        table
    }

    /// Returns a chain of the inputs in a random order, each joined to the gate before it,
    /// on either side.
    fn any_chain(&mut self, m: usize, n: usize) -> Net {
        let mut inputs: Vec<Wire> = (0..n).map(Wire::Input).collect();
        self.rng.shuffle(&mut inputs);
        let mut end = inputs[0];
        let mut gates = Vec::new();
        for &input in &inputs[1..] {
            let (left, right) = match self.rng.below(2) {
                0 => (end, input),
                _ => (input, end),
            };
            let digits = self.digits(m);
            gates.push(Gate {
                left,
                right,
                digits,
            });
            end = Wire::Gate(gates.len());
        }
        Net { m, n, gates }
    }

    /// Returns a table in which one to four cells of the last eighth are not 0.
    fn few_cells(&mut self, m: usize, n: usize) -> Table {
        let mut table = Table::of(m, n, |_| 0);
        let cells = table.inks.len();
        for _ in 0..1 + self.rng.below(4) {
            let from_the_end = self.rng.below(cells.div_ceil(8));
            table.inks[cells - 1 - from_the_end] = 1 + self.rng.level(m - 1);
        }
        table
    }

    /// Returns random inks that depend on at most `most` inputs.
    fn few_matter(&mut self, m: usize, n: usize, most: usize) -> Table {
        let inputs = self.some_inputs(n, most);
        let inner = self.random_table(m, inputs.len());
        Table::of(m, n, |levels| {
            inner.inks[place_in_count(levels, &inputs, m)]
        })
    }

    /// Returns a good net sheet.
    pub fn net_sheet(&mut self, m: usize, n: usize) -> Vec<u8> {
        let header = self.header(m, n);
        let net = self.net(m, n);
        print_net_sheet(&header, &net)
    }

    /// Returns a good arrival sheet for the inputs of a header.
    pub fn arrival_sheet(&mut self, header: &Header) -> Vec<u8> {
        let arrivals: Vec<Arrival> = (0..header.n).map(|_| self.arrival()).collect();
        print_arrival_sheet(header, &arrivals)
    }

    /// Returns a fixed time as often as a range; the times of one sheet may be near each
    /// other or at the bounds, so that any input may determine when the output settles.
    fn arrival(&mut self) -> Arrival {
        let (one, other) = (self.time(), self.time());
        match self.rng.below(2) {
            0 => Arrival::of(one, one),
            _ => Arrival::of(one.min(other), one.max(other)),
        }
    }

    fn time(&mut self) -> u64 {
        match self.rng.below(5) {
            0 => 0,
            1 => MOST_QUARTERS,
            2 => self.rng.below(1_000) as u64,
            3 => MOST_QUARTERS - self.rng.below(1_000) as u64,
            _ => self.rng.number() % (MOST_QUARTERS + 1),
        }
    }

    /// Returns a good table sheet with open cells.
    pub fn open_table_sheet(&mut self, m: usize, n: usize, kind: TableKind) -> Vec<u8> {
        let header = self.header(m, n);
        let table = self.table(m, n, kind);
        print_table_sheet(&header, &self.with_open_cells(table))
    }

    /// Returns a good sheet of a full table.
    pub fn table_sheet(&mut self, m: usize, n: usize, kind: TableKind) -> Vec<u8> {
        let header = self.header(m, n);
        let table = self.table(m, n, kind);
        print_table_sheet(&header, &table)
    }
}

/// Returns a table in which the group of the first `size` inputs has as many classes as
/// possible: an assignment's place in counting order, as digits, last digit first, is
/// its column.
pub fn most_classes_table(m: usize, n: usize, size: usize) -> Table {
    let column = m.pow((n - size) as u32);
    let digit = |place: usize, at: usize| (0..at).fold(place, |rest, _| rest / m) % m;
    let ink = |index: usize| digit(index / column, index % column) as u8;
    let inks = (0..m.pow(n as u32)).map(ink).collect();
    Table { m, n, inks }
}

fn sum(levels: &[u8], m: usize) -> u8 {
    let total: usize = levels.iter().map(|&level| usize::from(level)).sum();
    (total % m) as u8
}

fn min_max_chain(levels: &[u8]) -> u8 {
    let mut value = levels[0];
    for (turn, &level) in levels[1..].iter().enumerate() {
        value = if turn % 2 == 0 {
            value.min(level)
        } else {
            value.max(level)
        };
    }
    value
}
