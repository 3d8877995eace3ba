//! Finds inks for open cells with which a table has a tree.
//!
//! If there are few fillings, all are tried, and the library judges each. Otherwise wires are joined two by two, starting from single inputs: a
//! gate joins two wires if their columns can be coloured with as many colours as there are levels. Cells that remain open take any ink. The
//! library makes the tree of the result, and checks it against the open table.

use crate::colours::Columns;
use crate::counts::Counts;
use crate::grid::Grid;
use crate::random::Random;
use sitgurp::{Net, Refusal, Table, Verdict};
use std::time::{Duration, Instant};

/// The largest number of fillings that are all tried.
pub const MOST_FILLINGS: u64 = 65_536;
/// If this many fillings remain when some cells are filled, checking the class counts pays off.
const MANY: u64 = 512;
/// The least number of attempts if nobody asks for more time, and the number of cells that further attempts may process. After this many
/// attempts everything is left to chance.
const ATTEMPTS: u64 = 64;
const CELLS: u64 = 200_000;
/// How many gates an attempt tries, for each gate of the tree.
const GATES: usize = 6;
/// How many ways to continue are tried at each step.
const WAYS: usize = 3;

/// What to search for, and how long.
pub struct Wish<'a> {
    /// Prefers fewest layers.
    pub shallow: bool,
    /// How long to continue if the search is not exhaustive.
    pub time: Option<Duration>,
    /// Called now and then with the time that the search has taken.
    pub tell: &'a mut dyn FnMut(Duration),
}

/// The result of a search.
pub enum Filling {
    Found(Box<Filled>),
    /// No filling has a tree: all were tried, or class counts show it.
    Impossible(Ground),
    /// None was found. There may be one.
    NotFound {
        attempts: u64,
        gates: u64,
    },
}

/// A table with all cells filled, and its tree.
pub struct Filled {
    pub table: Table,
    pub net: Net,
    /// Whether every filling that comes before this one was tried: those with lower inks, or with fewer layers.
    pub every: bool,
}

/// Why no filling has a tree.
#[derive(Clone, Copy, Debug, PartialEq, Eq)]
pub enum Ground {
    /// The library refuses each of this many fillings. Class counts may have ruled out some of them.
    Tried(u64),
    /// Every way to join the inputs has a group with more classes than levels, whatever the open cells hold.
    Counted,
}

/// Searches for inks for the open cells of a table. A table without open cells has one filling, itself.
///
/// ```
/// use search::{fill, Filling, Wish};
///
/// // ink 1 when at least two of three inputs are 1 has no tree; with one row left open it has
/// let majority = |levels: &[u8]| u8::from(levels.iter().sum::<u8>() >= 2);
/// let open = |levels: &[u8]| if levels == [1, 0, 0] { 2 } else { majority(levels) };
/// let table = sitgurp::Table::from_rule(2, &["a", "b", "c"], open)?;
/// let wish = Wish { shallow: false, time: None, tell: &mut |_| () };
/// let Filling::Found(found) = fill(&table, wish) else { panic!() };
/// assert_eq!((found.table.ink(&[1, 0, 0]), found.every), (Some(1), true));
/// assert_eq!(found.net, found.table.settled()?);
/// # Ok::<(), sitgurp::Refusal>(())
/// ```
pub fn fill<'a>(table: &'a Table, wish: Wish<'a>) -> Filling {
    let (m, n) = (table.levels(), table.names().len());
    let grid = Grid::of(m, n, table.inks());
    let counts = Counts::of(m, n, &grid.inks);
    if !counts.may_join(&grid.groups) {
        return Filling::Impossible(Ground::Counted);
    }
    match fillings(m, table.open().len()) {
        Some(count) if count <= MOST_FILLINGS => Every::of(table, wish).run(count),
        _ => Attempts::of(table, grid, counts, wish).run(),
    }
}

/// Returns how many fillings there are, or None if there are too many to count.
pub fn fillings(levels: usize, open: usize) -> Option<u64> {
    (levels as u64).checked_pow(open as u32)
}

/// Returns a table of the same names with other inks.
pub fn with_inks(table: &Table, inks: &[u8]) -> Result<Table, Refusal> {
    let mut inks = inks.iter().copied();
    Table::from_rule(table.levels(), table.names(), |_| inks.next().unwrap_or(0))
}

/// Returns the tree of a filling and its layers, if it has one and the library confirms that it agrees with the open table.
fn judged(open: &Table, inks: &[u8], shallow: bool) -> Option<(Table, Net, usize)> {
    let table = with_inks(open, inks).ok()?;
    let net = match shallow {
        true => table.shallow().ok()?.net,
        false => table.settled().ok()?,
    };
    let layers = net.layers();
    matches!(net.check(open), Ok(Verdict::Agree)).then_some((table, net, layers))
}

/// Returns the fewest layers that a tree of a table can have. An input certainly matters if two cells that differ only in it have different inks.
fn least_layers(table: &Table) -> usize {
    let (m, n) = (table.levels(), table.names().len());
    let full = |ink: u8| usize::from(ink) < m;
    let inks = table.inks();
    let matters = |input: &usize| {
        let step = m.pow((n - 1 - input) as u32);
        (0..inks.len()).any(|index| {
            let higher = (1..m - index / step % m).map(|k| inks[index + k * step]);
            let mut others = higher.filter(|&ink| full(ink));
            full(inks[index]) && others.any(|ink| ink != inks[index])
        })
    };
    let count = (0..n).filter(matters).count().max(2);
    count.next_power_of_two().trailing_zeros() as usize
}

/// All fillings, the lowest inks in index order first.
struct Every<'a> {
    table: &'a Table,
    open: Vec<usize>,
    cells: Vec<u8>,
    wish: Wish<'a>,
    started: Instant,
    least: usize,
    best: Option<(Table, Net, usize)>,
}

impl<'a> Every<'a> {
    fn of(table: &'a Table, wish: Wish<'a>) -> Every<'a> {
        Every {
            open: table.open(),
            cells: table.inks().to_vec(),
            least: least_layers(table),
            started: Instant::now(),
            best: None,
            table,
            wish,
        }
    }

    fn run(mut self, count: u64) -> Filling {
        self.below(0, count);
        match self.best {
            Some((table, net, _)) => {
                let every = true;
                Filling::Found(Box::new(Filled { table, net, every }))
            }
            None => Filling::Impossible(Ground::Tried(count)),
        }
    }

    /// Tries all fillings of the open cells from the k-th on. Returns whether no better filling can follow.
    fn below(&mut self, k: usize, count: u64) -> bool {
        let m = self.table.levels();
        let Some(&index) = self.open.get(k) else {
            return self.judge();
        };
        if count >= MANY && k > 0 {
            (self.wish.tell)(self.started.elapsed());
            let grid = Grid::of(m, self.table.names().len(), &self.cells);
            if !Counts::of(m, grid.sizes.len(), &grid.inks).may_join(&grid.groups) {
                return false;
            }
        }
        for ink in 0..m {
            self.cells[index] = ink as u8;
            if self.below(k + 1, count / m as u64) {
                return true;
            }
        }
        self.cells[index] = m as u8;
        false
    }

    /// Asks the library for the mark of the whole group and, if that is 2, for the tree.
    fn judge(&mut self) -> bool {
        let (m, n) = (self.table.levels(), self.table.names().len());
        if sitgurp::marking(m, n, &self.cells, &mut [0; sitgurp::MOST_MARKS]) != Ok(2) {
            return false;
        }
        let Some(found) = judged(self.table, &self.cells, self.wish.shallow) else {
            return false;
        };
        let known = self
            .best
            .as_ref()
            .map_or(usize::MAX, |(_, _, layers)| *layers);
        if found.2 < known {
            self.best = Some(found);
        }
        !self.wish.shallow
            || self
                .best
                .as_ref()
                .is_some_and(|(_, _, layers)| *layers <= self.least)
    }
}

/// Attempts to join the inputs, each with different choices.
struct Attempts<'a> {
    table: &'a Table,
    grid: Grid,
    counts: Counts,
    wish: Wish<'a>,
    started: Instant,
    random: Random,
    /// How much the order of the ways to continue is left to chance.
    chance: f64,
    /// How many gates this attempt may still try, and how many were tried in total.
    left: usize,
    gates: u64,
}

/// A way to continue: two wires, and the colours of their columns.
struct Way {
    score: f64,
    wires: (usize, usize),
    colours: Vec<usize>,
}

impl<'a> Attempts<'a> {
    fn of(table: &'a Table, grid: Grid, counts: Counts, wish: Wish<'a>) -> Attempts<'a> {
        Attempts {
            table,
            grid,
            counts,
            wish,
            started: Instant::now(),
            random: Random::new(1),
            chance: 0.0,
            left: 0,
            gates: 0,
        }
    }

    fn run(mut self) -> Filling {
        let least = least_layers(self.table);
        let mut best: Option<(Table, Net, usize)> = None;
        let mut attempts = 0;
        while self.goes_on(attempts) {
            self.chance = (attempts as f64 / ATTEMPTS as f64).min(1.0);
            self.left = GATES * self.grid.sizes.len();
            attempts += 1;
            let grid = self.grid.clone();
            let Some(inks) = self.join(&grid) else {
                continue;
            };
            let Some(found) = judged(self.table, &inks, self.wish.shallow) else {
                continue;
            };
            let layers = found.2;
            if best.as_ref().is_none_or(|(_, _, known)| layers < *known) {
                best = Some(found);
            }
            if !self.wish.shallow || layers <= least {
                break;
            }
        }
        match best {
            Some((table, net, _)) => {
                let every = false;
                Filling::Found(Box::new(Filled { table, net, every }))
            }
            None => Filling::NotFound {
                attempts,
                gates: self.gates,
            },
        }
    }

    /// Returns whether there is time for another attempt.
    fn goes_on(&mut self, attempts: u64) -> bool {
        let taken = self.started.elapsed();
        (self.wish.tell)(taken);
        let most = ATTEMPTS + CELLS / self.grid.inks.len() as u64;
        attempts < most || self.wish.time.is_some_and(|time| taken < time)
    }

    /// Joins the wires of a grid until two are left, and returns the inks of all cells.
    fn join(&mut self, grid: &Grid) -> Option<Vec<u8>> {
        if grid.sizes.len() <= 2 {
            return Some(grid.filled());
        }
        for way in self.ways(grid) {
            if self.left == 0 {
                return None;
            }
            self.left -= 1;
            self.gates += 1;
            let next = grid.joined(way.wires.0, way.wires.1, &way.colours);
            if self.counts.may_join(&next.groups) {
                if let Some(inks) = self.join(&next) {
                    return Some(inks);
                }
            }
        }
        None
    }

    /// Lists the best ways to join two wires. If columns can be coloured although many of them conflict, this is hardly an accident.
    fn ways(&mut self, grid: &Grid) -> Vec<Way> {
        let levels = self.table.levels();
        let mut ways = Vec::new();
        for second in 1..grid.sizes.len() {
            for first in 0..second {
                if !self.counts.may_be(grid.groups[first] | grid.groups[second]) {
                    continue;
                }
                let columns = grid.columns(first, second);
                let compared = Columns::of(&columns);
                if let Some(colours) = compared.coloured(levels, self.chance, &mut self.random) {
                    let pairs = columns.len() * (columns.len() - 1) / 2;
                    let score = compared.conflicting() as f64 / pairs.max(1) as f64;
                    let score = score + self.chance * self.random.part();
                    let wires = (first, second);
                    ways.push(Way {
                        score,
                        wires,
                        colours,
                    });
                }
            }
        }
        ways.sort_by(|a, b| b.score.total_cmp(&a.score));
        ways.truncate(WAYS);
        ways
    }
}
