//! A partition matrix drawn as SVG: columns grouped by class, shaded by ink, the classes counted.

use crate::elements::Elements;
use crate::layout::Area;
use crate::partition::Partition;
use sitgurp::Table;

const STYLE: &str = "\
.head { font-size: 12px; text-anchor: end; }
.class { fill: none; stroke: #2f7a63; stroke-width: 2; }
";

const MARGIN: i32 = 24;
const CELL: i32 = 22;
/// The gap between two classes.
const GAP: i32 = 12;
/// A line of levels above the columns.
const LINE: i32 = 16;
/// At least the width of a letter.
const LETTER: i32 = 8;
/// The room for the title and for the classes' numbers, and above the first row.
const TITLE: i32 = 28;
const CLASS: i32 = 22;
const ABOVE: i32 = 8;

/// Draws the matrix of a group. Bit i of its number is input i.
pub fn draw(table: &Table, group: usize) -> String {
    let partition = Partition::of(table, group);
    let places = Places::of(&partition);
    let title = title(table, &partition);
    let width = places.right.max(MARGIN + LETTER * title.len() as i32) + MARGIN;
    let mut page = Elements::open(width, places.bottom + MARGIN, &title, STYLE);
    page.text("caption", MARGIN, MARGIN, &title);
    heads(&mut page, &partition, &places);
    for (class, columns) in partition.classes.iter().enumerate() {
        for &column in columns {
            draw_column(&mut page, table, &partition, &places, column);
        }
        frame(&mut page, &places, class, columns);
    }
    page.close()
}

/// Returns a title like `b, c: 3 classes; a wire carries 2 levels`.
fn title(table: &Table, partition: &Partition) -> String {
    let classes = match partition.classes.len() {
        1 => "1 class".to_string(),
        count => format!("{count} classes"),
    };
    let names = partition.member_names().join(", ");
    format!(
        "{names}: {classes}; a wire carries {} levels",
        table.levels()
    )
}

/// The place of each column, and of the rows.
struct Places {
    columns: Vec<i32>,
    left: i32,
    right: i32,
    top: i32,
    bottom: i32,
    /// The height of the first line of levels above the columns.
    levels: i32,
}

impl Places {
    fn of(partition: &Partition) -> Places {
        let left = MARGIN + LETTER * widest_head(partition) as i32 + GAP;
        let mut columns = vec![0; partition.columns()];
        let mut x = left;
        for class in &partition.classes {
            for &column in class {
                columns[column] = x;
                x += CELL;
            }
            x += GAP;
        }
        let levels = MARGIN + TITLE + CLASS;
        let names = if partition.others.is_empty() { 0 } else { LINE };
        let top = levels + LINE * partition.members.len() as i32 + names + ABOVE;
        Places {
            columns,
            left,
            right: x - GAP,
            top,
            bottom: top + CELL * partition.rows() as i32,
            levels,
        }
    }
}

/// Returns the number of letters of the widest text at the left: a name of the group, or the others' names or levels.
fn widest_head(partition: &Partition) -> usize {
    let names = partition.member_names();
    let longest = names.iter().map(|name| name.len()).max().unwrap_or(0);
    longest.max(partition.other_names().join(" ").len())
}

/// Adds the group's names next to the columns' levels, and the others' names above the rows' levels.
fn heads(page: &mut Elements, partition: &Partition, places: &Places) {
    let x = places.left - GAP;
    for (k, name) in partition.member_names().iter().enumerate() {
        page.text("head", x, places.levels + LINE * k as i32 + LINE / 2, name);
    }
    if partition.others.is_empty() {
        return;
    }
    let names = partition.other_names().join(" ");
    page.text("head", x, places.top - LINE / 2, &names);
    for row in 0..partition.rows() {
        let y = places.top + CELL * row as i32 + CELL / 2;
        let levels: Vec<String> = partition.row(row).iter().map(u8::to_string).collect();
        page.text("head", x, y, &levels.join(" "));
    }
}

/// Adds the frame around a class, and its number from 1.
fn frame(page: &mut Elements, places: &Places, class: usize, columns: &[usize]) {
    let x = places.columns[columns[0]];
    let width = CELL * columns.len() as i32;
    let area = Area {
        x,
        y: places.top,
        width,
        height: places.bottom - places.top,
    };
    page.rect("class", &area, "");
    let number = (class + 1).to_string();
    page.text("number", x + width / 2, places.levels - CLASS / 2, &number);
}

fn draw_column(
    page: &mut Elements,
    table: &Table,
    partition: &Partition,
    places: &Places,
    column: usize,
) {
    let x = places.columns[column];
    for (k, level) in partition.column(column).iter().enumerate() {
        let y = places.levels + LINE * k as i32 + LINE / 2;
        page.text("level", x + CELL / 2, y, &level.to_string());
    }
    for row in 0..partition.rows() {
        let area = Area {
            x,
            y: places.top + CELL * row as i32,
            width: CELL,
            height: CELL,
        };
        page.cell(partition.ink(row, column), table.levels(), &area);
    }
}
