//! Every call of documents 01 and 02, with its buffers.
//!
//! "15 and 16 leave cells and marks written where the call has them, the output
//! untouched. Every other refusal changes no buffer." "Longer buffers keep their
//! further bytes." 17 "takes the place of 16 in the second call" of a family "and
//! leaves what 16 leaves". "Everything that counts classes, marks groups or fills
//! gates needs a full table": 27, "open cell where a full table is needed, place the
//! lowest such index, judged after 12 and before 13, for bare cells between 10 and
//! 11".

use crate::arrivals::{self, Settling};
use crate::family::{self, family_net};
use crate::glyph::{offsets_of, printed, Picture};
use crate::groups::{self, whole};
use crate::kept::{changed, refilled};
use crate::limits::cell_count;
use crate::marks::{self, first_stuck, marks_of};
use crate::net::{Net, Table};
use crate::refusal::{self, require, Refusal, Sheet};
use crate::settled::settled_net;
use crate::shallow::shallow_net;
use crate::sheet::{
    print_net_sheet, print_table_sheet, read_arrival_sheet, read_loose_table_sheet, read_net_sheet,
    read_table_sheet, Header,
};

/// The answer of a check: "agreement or the lowest index that differs".
#[derive(Clone, Copy, Debug, PartialEq, Eq)]
pub enum Verdict {
    Agree,
    Differ(u64),
}

/// The answer of shallow making or settling: the length of the sheet written,
/// and "the answer carries the count" of layers too.
#[derive(Clone, Copy, Debug, PartialEq, Eq)]
pub struct Layered {
    pub length: usize,
    pub layers: usize,
}

/// The answer of keeping a wiring: the length of the sheet written, and "the
/// set of the gates whose table field differs from the old one".
#[derive(Clone, Copy, Debug, PartialEq, Eq)]
pub struct Kept {
    pub length: usize,
    pub changed: u64,
}

/// "The multiplicity call gives the true number of classes, however large."
/// Refusals 9, 10, 27, 11.
pub fn multiplicity(m: u64, n: u64, cells: &[u8], group: u64) -> Result<u64, Refusal> {
    let table = bare_table(m, n, cells)?;
    require_full(&table)?;
    if group == 0 || group > whole(table.n) as u64 {
        return Err(Refusal::new(refusal::GROUP, 0));
    }
    Ok(groups::multiplicity(&table, group as usize) as u64)
}

/// Returns every group's multiplicity, at its number, for a table sheet; 0 for group 0,
/// which has none. Refusals 1 to 6, 27.
pub fn multiplicities(sheet: &[u8]) -> Result<Vec<usize>, Refusal> {
    let (_, table) = read_full_table_sheet(sheet)?;
    Ok(groups::multiplicities(&table))
}

/// Returns the fewest levels that the gates' wires would have to carry for a table
/// sheet to have a tree: at most m exactly when it has one. Refusals 1 to 6, 27.
pub fn fewest_levels(sheet: &[u8]) -> Result<usize, Refusal> {
    let (_, table) = read_full_table_sheet(sheet)?;
    Ok(marks::fewest_levels(&table))
}

/// "Marking takes bare cells, writes the marks buffer and answers the whole
/// group's mark." Refusals 9, 10, 27, 14.
pub fn marking(m: u64, n: u64, cells: &[u8], marks: &mut [u8]) -> Result<u8, Refusal> {
    let table = bare_table(m, n, cells)?;
    require_full(&table)?;
    require(refusal::MARKS_SHORT, marks.len(), marks::needed(table.n))?;
    let of_groups = marks_of(&table);
    marks::store(&of_groups, marks);
    Ok(of_groups[whole(table.n)])
}

/// Turns a net sheet into the settled net sheet of its table.
/// Refusals 1 to 8, 26, 13, 14, 15.
pub fn settle(
    sheet: &[u8],
    cells: &mut [u8],
    marks: &mut [u8],
    out: &mut [u8],
) -> Result<usize, Refusal> {
    let (header, net) = read_net_sheet(sheet)?;
    let written = write_tree(settled_net, &header, &net.table(), cells, marks, out)?;
    Ok(written.length)
}

/// Turns a table sheet into the settled net sheet of its table.
/// Refusals 1 to 6, 27, 13, 14, 16, 15.
pub fn make(
    sheet: &[u8],
    cells: &mut [u8],
    marks: &mut [u8],
    out: &mut [u8],
) -> Result<usize, Refusal> {
    let (header, table) = read_full_table_sheet(sheet)?;
    let written = write_tree(settled_net, &header, &table, cells, marks, out)?;
    Ok(written.length)
}

/// Turns a net sheet into the sheet of the shallow net of its table: "a making and a
/// settling that choose the tree with the fewest layers and are otherwise as
/// document 01 has them". Refusals 1 to 8, 26, 13, 14, 15.
pub fn settle_shallow(
    sheet: &[u8],
    cells: &mut [u8],
    marks: &mut [u8],
    out: &mut [u8],
) -> Result<Layered, Refusal> {
    let (header, net) = read_net_sheet(sheet)?;
    write_tree(shallow_net, &header, &net.table(), cells, marks, out)
}

/// Turns a table sheet into the sheet of the shallow net of its table.
/// Refusals 1 to 6, 27, 13, 14, 16, 15.
pub fn make_shallow(
    sheet: &[u8],
    cells: &mut [u8],
    marks: &mut [u8],
    out: &mut [u8],
) -> Result<Layered, Refusal> {
    let (header, table) = read_full_table_sheet(sheet)?;
    write_tree(shallow_net, &header, &table, cells, marks, out)
}

/// "One call takes a table sheet with making's cells and marks buffers, no
/// output, and answers the count of the trees." "A table with no tree gets count
/// 0, never 16." Refusals 1 to 6, 27, 13, 14.
pub fn family_count(sheet: &[u8], cells: &mut [u8], marks: &mut [u8]) -> Result<u64, Refusal> {
    let (_, table) = read_full_table_sheet(sheet)?;
    let of_groups = write_marks(&table, cells, marks)?;
    Ok(family::count(&table, &of_groups))
}

/// "The other takes a table sheet, an order number and all of making's buffers,
/// and writes the tree of that number, from 0." 17: "order number not below the
/// count, place the number, judged after 14 and before 15".
/// Refusals 1 to 6, 27, 13, 14, 17, 15.
pub fn family_tree(
    sheet: &[u8],
    number: u64,
    cells: &mut [u8],
    marks: &mut [u8],
    out: &mut [u8],
) -> Result<usize, Refusal> {
    let (header, table) = read_full_table_sheet(sheet)?;
    let of_groups = write_marks(&table, cells, marks)?;
    let net = family_net(&table, &of_groups, number)
        .ok_or_else(|| Refusal::new(refusal::ORDER_NUMBER, number))?;
    write_sheet(&print_net_sheet(&header, &net), out)
}

/// The tree chosen for a table with these marks, or nothing if it has no tree.
type Choice = fn(&Table, &[u8]) -> Option<Net>;

/// What settling and making share: writes the table to the cells, the marks to the
/// marks buffer and the sheet of the chosen tree to the output.
fn write_tree(
    choice: Choice,
    header: &Header,
    table: &Table,
    cells: &mut [u8],
    marks: &mut [u8],
    out: &mut [u8],
) -> Result<Layered, Refusal> {
    let of_groups = write_marks(table, cells, marks)?;
    let net = choice(table, &of_groups).ok_or_else(|| no_tree(&of_groups, table.n))?;
    let length = write_sheet(&print_net_sheet(header, &net), out)?;
    let layers = net.layers();
    Ok(Layered { length, layers })
}

/// Writes what making writes, for a table whose marks are known. Refusals 13, 14, 16, 15.
pub(crate) fn write_settled(
    header: &Header,
    table: &Table,
    of_groups: &[u8],
    cells: &mut [u8],
    marks: &mut [u8],
    out: &mut [u8],
) -> Result<usize, Refusal> {
    require_room(table, cells, marks)?;
    put(cells, &table.inks);
    marks::store(of_groups, marks);
    let net = settled_net(table, of_groups).ok_or_else(|| no_tree(of_groups, table.n))?;
    write_sheet(&print_net_sheet(header, &net), out)
}

/// Writes the table to the cells and its marks to the marks buffer, and returns the marks.
fn write_marks(table: &Table, cells: &mut [u8], marks: &mut [u8]) -> Result<Vec<u8>, Refusal> {
    require_room(table, cells, marks)?;
    let of_groups = marks_of(table);
    put(cells, &table.inks);
    marks::store(&of_groups, marks);
    Ok(of_groups)
}

/// Checks the room for a table and its marks: refusals 13 and 14.
fn require_room(table: &Table, cells: &[u8], marks: &[u8]) -> Result<(), Refusal> {
    require(refusal::CELLS_SHORT, cells.len(), table.inks.len())?;
    require(refusal::MARKS_SHORT, marks.len(), marks::needed(table.n))
}

fn no_tree(marks: &[u8], n: usize) -> Refusal {
    let stuck = first_stuck(marks, n)
        .expect("the leaves have at most m inks, so they have mark 1 when they have not 2");
    Refusal::new(refusal::NO_TREE, stuck as u64)
}

/// Checks a net sheet against a table sheet. It "puts the table sheet's inks in the
/// cells buffer", whether they agree or not. "A check passes over open assignments,
/// for its agreement and for the lowest index that differs."
/// Refusals: the net's 1 to 8 and 26, the table's 1 to 6, 12, 13.
pub fn check(net_sheet: &[u8], table_sheet: &[u8], cells: &mut [u8]) -> Result<Verdict, Refusal> {
    let (_, net, table) = read_both(net_sheet, table_sheet)?;
    require(refusal::CELLS_SHORT, cells.len(), table.inks.len())?;
    put(cells, &table.inks);
    let values = net.table().inks;
    let differs = |&index: &usize| !table.is_open(index) && values[index] != table.inks[index];
    let differing = (0..values.len()).find(differs);
    Ok(match differing {
        Some(index) => Verdict::Differ(index as u64),
        None => Verdict::Agree,
    })
}

/// "Take a net sheet and a table sheet with the same m, n and names. Fill the gates
/// anew [..] over the given wiring, and write the sheet." The table sheet's inks go
/// to the cells buffer. 23: "place the number of the first gate whose group has
/// more than m classes, judged after 12 and 13 and before 15"; it "leaves the cells
/// written". A wiring "that leaves out an input that matters is refused with 23 at
/// place 0, before its gates are judged". Refusals: the net's 1 to 8 and 26, the
/// table's 1 to 6, 12, the table's 27, 13, 23, 15.
pub fn keep(
    net_sheet: &[u8],
    table_sheet: &[u8],
    cells: &mut [u8],
    out: &mut [u8],
) -> Result<Kept, Refusal> {
    let (header, old, table) = read_both(net_sheet, table_sheet)?;
    require_full(&table).map_err(|refusal| refusal.naming(Sheet::Table))?;
    require(refusal::CELLS_SHORT, cells.len(), table.inks.len())?;
    put(cells, &table.inks);
    let new = refilled(&old, &table).map_err(|gate| Refusal::new(refusal::WIRING, gate as u64))?;
    let length = write_sheet(&print_net_sheet(&header, &new), out)?;
    let changed = changed(&old, &new);
    Ok(Kept { length, changed })
}

/// Reads a net and a table with the same header. "A call that refuses either of two sheets
/// judges the net first"; 12: the "sheets differ in m, n or names; place 0".
fn read_both(net_sheet: &[u8], table_sheet: &[u8]) -> Result<(Header, Net, Table), Refusal> {
    let (header, net) = read_net_sheet(net_sheet)?;
    let (table_header, table) = read_table_sheet(table_sheet)?;
    if header != table_header {
        return Err(Refusal::new(refusal::UNLIKE_SHEETS, 0));
    }
    Ok((header, net, table))
}

/// "A call takes two net sheets and hands back the shallower sheet itself, the
/// first when level. An unreadable sheet loses to a readable one, and two
/// unreadable ones give an empty part of the first; in this call alone [..] no
/// number is given." Each sheet is taken as it is wired, for any m, n and names
/// of the other.
pub fn shallower<'a>(first: &'a [u8], second: &'a [u8]) -> &'a [u8] {
    let layers = |sheet| read_net_sheet(sheet).ok().map(|(_, net)| net.layers());
    match (layers(first), layers(second)) {
        (None, None) => &first[..0],
        (None, Some(_)) => second,
        (Some(_), None) => first,
        (Some(one), Some(other)) if other < one => second,
        (Some(_), Some(_)) => first,
    }
}

/// "The earliest and latest settling of the output in microseconds, as floats,
/// and it is exact." "Every gate takes one common delay, a byte of quarters." "The
/// net sheet is judged first, then this one."
/// Refusals: the net's 1 to 8 and 26, the arrival sheet's 1, 18, 19.
pub fn arrivals(net_sheet: &[u8], arrival_sheet: &[u8], delay: u8) -> Result<Settling, Refusal> {
    let (header, net) = read_net_sheet(net_sheet)?;
    let of_inputs = read_arrival_sheet(arrival_sheet, &header)?;
    Ok(arrivals::settling(&net, &of_inputs, u64::from(delay)))
}

/// Turns a net sheet into the table sheet of its table. Refusals 1 to 8, 26, 15.
pub fn write_table(net_sheet: &[u8], out: &mut [u8]) -> Result<usize, Refusal> {
    let (header, net) = read_net_sheet(net_sheet)?;
    write_sheet(&print_table_sheet(&header, &net.table()), out)
}

/// Turns a loose table sheet into the table sheet of document 01. It "puts the inks
/// in the cells buffer and writes the table sheet"; "13 and 15 follow" the sheet's
/// refusals. "Tidying carries the sign." Refusals 1 to 6, 20, 13, 15.
pub fn tidy(sheet: &[u8], cells: &mut [u8], out: &mut [u8]) -> Result<usize, Refusal> {
    let (header, table) = read_loose_table_sheet(sheet)?;
    require(refusal::CELLS_SHORT, cells.len(), table.inks.len())?;
    put(cells, &table.inks);
    write_sheet(&print_table_sheet(&header, &table), out)
}

/// Writes a net's value at every cell of a picture to the output, and returns the
/// number of cells. The offsets are across then down for each input. 24 and 25 are
/// "judged in that order after the net sheet and before 15, place 0".
/// Refusals: the net's 1 to 8 and 26, 24, 25, 15.
pub fn glyph(
    net_sheet: &[u8],
    width: u64,
    height: u64,
    picture: &[u8],
    offsets: &[i8],
    out: &mut [u8],
) -> Result<usize, Refusal> {
    let (_, net) = read_net_sheet(net_sheet)?;
    let picture = Picture::of(width, height, picture, net.m)
        .ok_or_else(|| Refusal::new(refusal::PICTURE, 0))?;
    let offsets = offsets_of(offsets, net.n).ok_or_else(|| Refusal::new(refusal::OFFSETS, 0))?;
    let new = printed(&net, picture, &offsets);
    require(refusal::OUTPUT_SHORT, out.len(), new.len())?;
    put(out, &new);
    Ok(new.len())
}

/// "A call that writes a sheet answers its length, and the sheet is that many
/// bytes from the front of the output."
fn write_sheet(sheet: &[u8], out: &mut [u8]) -> Result<usize, Refusal> {
    require(refusal::OUTPUT_SHORT, out.len(), sheet.len())?;
    put(out, sheet);
    Ok(sheet.len())
}

fn put(buffer: &mut [u8], bytes: &[u8]) {
    buffer[..bytes.len()].copy_from_slice(bytes);
}

/// Reads the table sheet of a full table. Refusals 1 to 6, 27; each names the sheet.
pub(crate) fn read_full_table_sheet(sheet: &[u8]) -> Result<(Header, Table), Refusal> {
    let (header, table) = read_table_sheet(sheet)?;
    require_full(&table).map_err(|refusal| refusal.naming(Sheet::Table))?;
    Ok((header, table))
}

/// 27, "open cell where a full table is needed, place the lowest such index".
fn require_full(table: &Table) -> Result<(), Refusal> {
    match table.first_open() {
        Some(index) => Err(Refusal::new(refusal::OPEN_CELL, index as u64)),
        None => Ok(()),
    }
}

/// Returns bare cells as a table. 9: "m, n or the cell count outside a sheet's bounds,
/// or length not m to the n". "Bare cells may be m, so 10 now means above m."
fn bare_table(m: u64, n: u64, cells: &[u8]) -> Result<Table, Refusal> {
    if cell_count(m, n) != Some(cells.len() as u64) {
        return Err(Refusal::new(refusal::BARE_SIZE, 0));
    }
    if let Some(index) = cells.iter().position(|&cell| u64::from(cell) > m) {
        return Err(Refusal::new(refusal::BARE_CELL, index as u64));
    }
    Ok(Table {
        m: m as usize,
        n: n as usize,
        inks: cells.to_vec(),
    })
}
