//! The arguments of a call. One seed determines everything.

use reference::damage::{Damage, TELLING_BYTES};
use reference::generate::{Generator, TableKind};
use reference::sheet::{print_net_sheet, print_table_sheet};

/// Bare cells with a group: mostly good, sometimes with one thing wrong.
pub struct Bare {
    pub m: usize,
    pub n: usize,
    pub cells: Vec<u8>,
    pub group: usize,
}

/// A picture with offsets: mostly good, sometimes with one thing wrong.
pub struct Drawn {
    pub width: usize,
    pub height: usize,
    pub picture: Vec<u8>,
    pub offsets: Vec<i8>,
}

/// Numbers that no caller should send.
const ODD_NUMBERS: [usize; 9] = [0, 1, 10, 13, 64, 255, 1 << 16, 1 << 32, usize::MAX];

/// Damage that leaves a gate unused, or makes a net sheet a line shorter or longer.
const OF_GATES: [Damage; 3] = [
    Damage::DropLastLine,
    Damage::AddGate,
    Damage::OtherReference,
];

/// Sizes with at least this many inputs take most of a run's time, and are used about a third as often as the others.
const MANY_INPUTS: usize = 10;

/// The most bytes of noise in place of a sheet.
const MOST_NOISE: usize = 300;

pub struct Inputs {
    generator: Generator,
    pub m: usize,
    pub n: usize,
}

impl Inputs {
    /// Returns inputs of a random allowed size.
    pub fn new(seed: u64) -> Inputs {
        let mut generator = Generator::new(seed);
        let (mut m, mut n) = generator.size();
        if n >= MANY_INPUTS && generator.rng.below(4) > 0 {
            (m, n) = generator.size();
        }
        Inputs { generator, m, n }
    }

    /// Returns a number below the bound, which is at least 1.
    pub fn below(&mut self, bound: usize) -> usize {
        self.generator.rng.below(bound)
    }

    pub fn cells_needed(&self) -> usize {
        self.m.pow(self.n as u32)
    }

    /// Returns how many groups there are, including the empty one.
    pub fn groups(&self) -> usize {
        1 << self.n
    }

    /// Returns the length of the marks: four marks per byte.
    pub fn marks_needed(&self) -> usize {
        self.groups() / 4
    }

    /// Returns a net sheet, which may leave inputs out, good half of the time.
    pub fn net_sheet(&mut self) -> Vec<u8> {
        let good = self.generator.net_sheet(self.m, self.n);
        match self.below(8) {
            0 => self.other_gates(good),
            _ => self.perhaps_damaged(good),
        }
    }

    /// Returns the sheet with other gate lines. It may still be good.
    fn other_gates(&mut self, sheet: Vec<u8>) -> Vec<u8> {
        let damage = *self.generator.rng.pick(&OF_GATES);
        let mut sheet = self.generator.damage(&sheet, damage);
        sheet.shrink_to_fit();
        sheet
    }

    /// Returns a second net sheet: of the same size, so that both often have equally many layers, or of any size.
    pub fn other_net_sheet(&mut self) -> Vec<u8> {
        let (m, n) = match self.below(2) {
            0 => (self.m, self.n),
            _ => self.generator.size(),
        };
        let good = self.generator.net_sheet(m, n);
        self.perhaps_damaged(good)
    }

    pub fn table_sheet(&mut self) -> Vec<u8> {
        let good = self.any_table_sheet();
        self.perhaps_damaged(good)
    }

    /// Returns a good table sheet; one in eight has open cells.
    fn any_table_sheet(&mut self) -> Vec<u8> {
        let kind = *self.generator.rng.pick(&TableKind::ALL);
        match self.below(8) {
            0 => self.generator.open_table_sheet(self.m, self.n, kind),
            _ => self.generator.table_sheet(self.m, self.n, kind),
        }
    }

    /// Returns a loose table sheet, good half of the time.
    pub fn loose_sheet(&mut self) -> Vec<u8> {
        let strict = self.any_table_sheet();
        let mut sheet = self.generator.loosened(&strict);
        match self.below(8) {
            0..4 => {}
            4..7 => sheet = self.generator.loosely_damaged(&sheet),
            _ => sheet = self.perhaps_damaged(sheet),
        }
        sheet.shrink_to_fit();
        sheet
    }

    /// Returns about the length of a table sheet with the same first lines.
    pub fn table_sheet_length(&self, sheet: &[u8]) -> usize {
        let rows = self.cells_needed() * (2 * self.n + 2);
        let first_lines = sheet.split_inclusive(|&byte| byte == b'\n').take(3);
        let names: usize = first_lines.map(<[u8]>::len).sum();
        rows + names
    }

    /// Returns how many steps a job makes: all, some, or a few more than there are.
    pub fn steps(&mut self) -> usize {
        let groups = self.groups();
        match self.below(4) {
            0 => self.below(groups),
            1 => groups,
            _ => groups - 1,
        }
    }

    /// Returns any group, or a number that is not a group.
    pub fn group(&mut self) -> usize {
        match self.below(8) {
            0 => *self.generator.rng.pick(&ODD_NUMBERS),
            _ => self.below(self.groups() + 1),
        }
    }

    /// Returns the order number of a tree of this table sheet, or a number at or beyond their count.
    pub fn order_number(&mut self, sheet: &[u8]) -> u64 {
        let count = sitgurp::Family::of(sheet).map_or(0, |family| family.size());
        match self.below(8) {
            0 => 0,
            1 => count,
            2 => count.saturating_sub(1),
            3 => count + self.below(1 << 20) as u64,
            4 => *self.generator.rng.pick(&ODD_NUMBERS) as u64,
            _ => self.generator.rng.number() % count.max(1),
        }
    }

    /// Returns a net sheet and a table sheet: the net's own table, the same with an ink changed or with open cells, or one with another header.
    pub fn net_and_table_sheet(&mut self) -> (Vec<u8>, Vec<u8>) {
        let header = self.generator.header(self.m, self.n);
        let net = self.generator.net(self.m, self.n);
        let mut table = net.table();
        if self.below(2) == 0 {
            let cell = self.below(table.inks.len());
            table.inks[cell] = self.generator.rng.level(self.m);
        }
        if self.below(4) == 0 {
            table = self.generator.with_open_cells(table);
        }
        let table_sheet = match self.below(8) {
            0 => self.other_table_sheet(),
            1 => {
                let mut other = header.clone();
                other.names.rotate_left(1);
                print_table_sheet(&other, &table)
            }
            _ => print_table_sheet(&header, &table),
        };
        let net_sheet = print_net_sheet(&header, &net);
        (
            self.rarely_damaged(net_sheet),
            self.rarely_damaged(table_sheet),
        )
    }

    fn other_table_sheet(&mut self) -> Vec<u8> {
        let (m, n) = self.generator.size();
        self.generator.table_sheet(m, n, TableKind::OfNet)
    }

    /// Returns a net sheet and an arrival sheet: for its inputs, for these in another order, or for others.
    pub fn net_and_arrival_sheet(&mut self) -> (Vec<u8>, Vec<u8>) {
        let header = self.generator.header(self.m, self.n);
        let net = self.generator.net(self.m, self.n);
        let mut other = header.clone();
        match self.below(10) {
            0 => other.names.rotate_left(1),
            1 => other.names = self.generator.names(self.n),
            2 => other.names[self.n - 1].push(b'0'),
            _ => {}
        }
        let arrivals = self.generator.arrival_sheet(&other);
        let net_sheet = print_net_sheet(&header, &net);
        let arrivals = self.perhaps_damaged(arrivals);
        (self.rarely_damaged(net_sheet), arrivals)
    }

    /// Returns a delay in quarter microseconds: any byte, often 0 or the largest.
    pub fn delay(&mut self) -> u8 {
        match self.below(4) {
            0 => 0,
            1 => u8::MAX,
            _ => self.below(256) as u8,
        }
    }

    /// Damages a sheet rarely: both sheets of a check are good most of the time.
    fn rarely_damaged(&mut self, sheet: Vec<u8>) -> Vec<u8> {
        match self.below(16) {
            0..4 => self.perhaps_damaged(sheet),
            4 => self.other_gates(sheet),
            _ => sheet,
        }
    }

    /// Returns the sheet itself, the sheet with some damage, a sheet of the other kind, or noise.
    fn perhaps_damaged(&mut self, sheet: Vec<u8>) -> Vec<u8> {
        let mut sheet = match self.below(20) {
            0..10 => sheet,
            10..15 => self.generator.damaged(&sheet),
            15..18 => self.damaged_again(sheet),
            18 => self.other_kind(),
            _ => self.noise(),
        };
        // lets valgrind see a read past the end
        sheet.shrink_to_fit();
        sheet
    }

    fn damaged_again(&mut self, mut sheet: Vec<u8>) -> Vec<u8> {
        for _ in 0..2 + self.below(4) {
            sheet = self.generator.damaged(&sheet);
        }
        sheet
    }

    fn other_kind(&mut self) -> Vec<u8> {
        match self.below(2) {
            0 => self.generator.net_sheet(self.m, self.n),
            _ => self.other_table_sheet(),
        }
    }

    /// Returns noise: bytes that matter in sheets, or any bytes, sometimes after a good beginning.
    fn noise(&mut self) -> Vec<u8> {
        let mut sheet = match self.below(3) {
            0 => b"levels inputs\n".to_vec(),
            _ => Vec::new(),
        };
        let telling = self.below(2) == 0;
        for _ in 0..self.below(MOST_NOISE) {
            sheet.push(match telling {
                true => *self.generator.rng.pick(&TELLING_BYTES),
                false => self.below(256) as u8,
            });
        }
        sheet
    }

    pub fn bare(&mut self) -> Bare {
        let kind = *self.generator.rng.pick(&TableKind::ALL);
        let cells = self.generator.table(self.m, self.n, kind).inks;
        let group = 1 + self.below(self.groups() - 1);
        let (m, n) = (self.m, self.n);
        let good = Bare { m, n, cells, group };
        match self.below(2) {
            0 => good,
            _ => self.one_thing_wrong(good),
        }
    }

    fn one_thing_wrong(&mut self, mut bare: Bare) -> Bare {
        let odd = *self.generator.rng.pick(&ODD_NUMBERS);
        let place = self.below(bare.cells.len());
        match self.below(7) {
            0 => bare.m = odd,
            1 => bare.n = odd,
            2 => bare.group = odd,
            3 => bare.group = self.groups(),
            4 => bare.cells.truncate(place),
            5 => bare.cells[place] = (self.m + self.below(256 - self.m)) as u8,
            _ => bare.cells[place] = self.m as u8,
        }
        bare
    }

    /// Returns a picture of up to 64 cells per side, usually a small one, and the offsets of every input.
    pub fn drawn(&mut self) -> Drawn {
        let most = *self.generator.rng.pick(&[1, 5, 5, 5, 20, 64]);
        let (width, height) = (1 + self.below(most), 1 + self.below(most));
        let picture = (0..width * height).map(|_| self.generator.rng.level(self.m));
        let picture = picture.collect();
        let offsets = (0..2 * self.n).map(|_| self.below(5) as i8 - 2).collect();
        let good = Drawn {
            width,
            height,
            picture,
            offsets,
        };
        match self.below(2) {
            0 => good,
            _ => self.drawn_wrong(good),
        }
    }

    fn drawn_wrong(&mut self, mut drawn: Drawn) -> Drawn {
        let odd = *self.generator.rng.pick(&ODD_NUMBERS);
        match self.below(8) {
            0 => drawn.width = odd,
            1 => drawn.height = odd,
            2 => std::mem::swap(&mut drawn.width, &mut drawn.height),
            3 => drawn.picture.truncate(self.below(drawn.picture.len())),
            4 => {
                let place = self.below(drawn.picture.len());
                drawn.picture[place] = (self.m + self.below(256 - self.m)) as u8;
            }
            5 => drawn.offsets.truncate(self.below(drawn.offsets.len())),
            6 => drawn.offsets.push(0),
            _ => {
                let place = self.below(drawn.offsets.len());
                drawn.offsets[place] = self.below(256) as u8 as i8;
            }
        }
        drawn
    }

    /// Returns a buffer full of random bytes. Its length is around the need, usually enough.
    pub fn buffer(&mut self, need: usize) -> Vec<u8> {
        let length = match self.below(12) {
            0 => 0,
            1 => self.below(need + 1),
            2 => need.saturating_sub(1),
            3..7 => need,
            7 => need + 1,
            _ => need + self.below(need + 64),
        };
        (0..length).map(|_| self.below(256) as u8).collect()
    }
}
