//! `fill`, `widen` and `larger`: an answer for tables that are open, or that have no tree.

use crate::common::{answers, example, is_wrong, refuses, Folder, SUM_TABLE};
use reference::generate::{Generator, TableKind};
use sitgurp::{Net, Table, Verdict};

/// The majority's table, in which these rows are open.
fn majority(rows: &[&str]) -> String {
    let mut sheet = example("majority.table");
    for row in rows {
        assert!(sheet.contains(row), "{row}");
        sheet = sheet.replace(row, &format!("{} -", &row[..5]));
    }
    sheet
}

fn table(sheet: &str) -> Table {
    Table::read(sheet.as_bytes()).expect("a table")
}

/// A rule of three levels and four inputs without a tree, and with it a row in so many open.
fn open_rule(every: usize) -> Table {
    let mut index = 0;
    let names = ["a", "b", "c", "d"];
    let rule = |levels: &[u8]| {
        index += 1;
        let sum = levels[0] * levels[1] + levels[2] * levels[3] + levels[0] * levels[3];
        if index % every == 0 {
            3
        } else {
            sum % 3
        }
    };
    Table::from_rule(3, &names, rule).expect("a table")
}

#[test]
fn open_cells_are_filled() {
    let folder = Folder::new("fill");
    let open = majority(&["1 0 0 0"]);
    folder.put("my.table", &open);
    answers(folder.run("fill my.table"), &open.replace('-', "1"));
    let net = "levels inputs\n2 3\na b c\nleft right table\nb c 0001\na 1 0111\n";
    answers(folder.run("fill my.table --net"), net);
    let filled = folder.run("fill my.table").out;
    answers(folder.run_on("make", filled.as_bytes()), net);
    // the lowest inks that have a tree, in the order of the rows
    folder.put("my.table", majority(&["0 0 1 0", "1 0 0 0"]));
    let filled = table(&folder.run("fill my.table").out);
    assert_eq!(filled.inks(), [0, 0, 0, 1, 1, 1, 1, 1]);
    // a full table with a tree is its own filling
    folder.put("sum.table", SUM_TABLE);
    answers(folder.run("fill sum.table"), SUM_TABLE);
}

#[test]
fn fewest_layers() {
    let folder = Folder::new("fill_shallow");
    let mut rows = 0;
    let open = Table::from_rule(2, &["a", "b", "c", "d"], |levels| {
        rows += 1;
        if rows % 3 == 0 {
            2
        } else {
            levels[0] & (levels[1] | levels[2] & levels[3])
        }
    });
    let open = open.expect("a table");
    folder.put("my.table", open.as_str());
    let [first, shallow] = ["", "--shallow"].map(|option| {
        let sheet = folder.run(&format!("fill my.table --net {option}")).out;
        let net = Net::read(sheet.as_bytes()).expect("a net");
        assert_eq!(net.check(&open), Ok(Verdict::Agree));
        net.layers()
    });
    assert!(shallow < first, "{shallow} {first}");
}

#[test]
fn no_filling() {
    let folder = Folder::new("fill_none");
    folder.put("my.table", example("majority.table"));
    refuses(
        folder.run("fill my.table"),
        "my.table: no filling has a tree: no cell is open, and the table has none (refusal 16)\n",
    );
    folder.put("my.table", open_rule(40).as_str());
    refuses(
        folder.run("fill my.table"),
        "my.table: no filling has a tree: whatever the open cells hold, every way to join the inputs needs more levels (refusal 27)\n",
    );
    // nothing is written where there is nothing to write
    let ended = folder.run("fill my.table -o out.table");
    assert_eq!(
        (ended.status, folder.names()),
        (1, vec!["my.table".to_string()])
    );
    let json = folder.run("fill my.table --json").out;
    assert!(
        json.contains("\"words\":\"no filling has a tree: "),
        "{json}"
    );
}

/// A table of random inks with so many cells opened, some of them twice.
fn random(generator: &mut Generator, cells: usize) -> Table {
    let mut inks = generator.table(3, 4, TableKind::Random).inks;
    for _ in 0..cells {
        let cell = generator.rng.below(inks.len());
        inks[cell] = 3;
    }
    let mut inks = inks.into_iter();
    Table::from_rule(3, &["a", "b", "c", "d"], |_| inks.next().expect("an ink")).expect("a table")
}

/// Where not every filling can be tried, it says what was tried, and goes on for as long as it may.
#[test]
fn none_found() {
    let folder = Folder::new("fill_not_found");
    let mut generator = Generator::new(5);
    let not_found = (0..40)
        .map(|round| random(&mut generator, 20 + 2 * round))
        .find(|open| {
            folder.put("my.table", open.as_str());
            folder.run("fill my.table").err.contains("none found")
        });
    let open = not_found.expect("a table for which none is found");
    let err = folder.run("fill my.table").err;
    let cells = open.open().len();
    assert!(cells > 10, "{cells}");
    assert!(err.starts_with("my.table: none found: there are "), "{err}");
    assert!(err.contains(" fillings; 2,533 attempts tried "), "{err}");
    assert!(err.ends_with("`--for SECONDS` searches longer\n"), "{err}");
    let started = std::time::Instant::now();
    let longer = folder.run("fill my.table --for 1");
    assert!(longer.status == 0 || started.elapsed().as_secs_f64() >= 1.0);
    is_wrong(
        folder.run("fill my.table --for long"),
        "sitgurp fill: --for takes a whole number",
    );
}

#[test]
fn more_levels() {
    let folder = Folder::new("widen");
    folder.put("my.table", example("majority.table"));
    let wide = table(&folder.run("widen my.table").out);
    assert_eq!(wide.levels(), 3);
    assert!(wide.settled().is_ok());
    let narrow = table(&example("majority.table"));
    for row in wide.rows() {
        let capped: Vec<u8> = row.levels.iter().map(|&level| level.min(1)).collect();
        assert_eq!(Some(row.ink), narrow.ink(&capped));
    }
    assert_eq!(
        table(&folder.run("widen my.table --levels 4").out).levels(),
        4
    );
    is_wrong(
        folder.run("widen my.table --levels 1"),
        "sitgurp widen: --levels 1 is too few: the table has 2 levels\n",
    );
    // a table with a tree is written as it is, and open cells stay open
    folder.put("sum.table", SUM_TABLE);
    answers(folder.run("widen sum.table"), SUM_TABLE);
    folder.put("open.table", majority(&["1 0 0 0"]));
    let wide = table(&folder.run("widen open.table --levels 3").out);
    assert_eq!(wide.ink(&[2, 0, 0]), Some(3));
    refuses(
        folder.run("widen open.table"),
        "open.table:8:7: this cell is open, and a full table is needed here (refusal 27)\n    1 0 0 -\n          ^\n\
         `sitgurp fill open.table` finds inks for open cells; `sitgurp check NET open.table` passes over them\n",
    );
    // twelve inputs cannot have three levels
    let names: Vec<String> = (0..12).map(|k| format!("i{k}")).collect();
    let many = Table::from_rule(2, &names, |levels| {
        u8::from(levels[..3].iter().sum::<u8>() >= 2)
    });
    folder.put("many.table", many.expect("a table").as_str());
    let words = "many.table: a tree needs 3 levels, and a sheet of 12 inputs cannot have so many (refusal 16)\n";
    refuses(folder.run("widen many.table"), words);
    refuses(
        folder.run("widen many.table --levels 9"),
        "many.table: a sheet of 12 inputs cannot have 9 levels (refusal 3)\n",
    );
}

#[test]
fn larger_gates() {
    let folder = Folder::new("larger");
    let names = ["a", "b", "c", "d"];
    let rule = |levels: &[u8]| u8::from(levels[..3].iter().sum::<u8>() >= 2) ^ levels[3];
    let sheet = Table::from_rule(2, &names, rule).expect("a table");
    folder.put("my.table", sheet.as_str());
    answers(
        folder.run("larger my.table"),
        "\
A gate of 3 inputs is needed: no tree of smaller gates has this table. This tree has 1 gate of 3
inputs, and no tree has fewer. It was evaluated on all 16 rows and gives each ink. It is not a
net sheet: a net has two-input gates.

gate 2
|-- gate 1
|   |-- a
|   |-- b
|   `-- c
`-- d

gate 1: a b c 00010111
gate 2: 1 d 0110
",
    );
    let svg = folder.run("larger my.table --svg").out;
    assert!(
        svg.starts_with("<svg ") && svg.ends_with("</svg>\n"),
        "{svg}"
    );
    assert_eq!(svg.matches("class=\"gate\"").count(), 2);
    assert_eq!(svg.matches("class=\"cell\"").count(), 8 + 4);
    assert_eq!(svg.matches("class=\"wire\"").count(), 3 + 2 + 1);
    assert!(svg.contains("not a net"));
    let json = folder.run("larger my.table --json").out;
    assert!(json.starts_with("{\"largest\":3,\"of_that_size\":1,\"gates\":[{\"inputs\":[\"a\",\"b\",\"c\"],\"table\":[0,0,0,1,0,1,1,1]}"));
    // no command takes it for a net
    let tree = folder.run("larger my.table").out;
    assert_eq!(folder.run_on("settle", tree.as_bytes()).status, 1);
    folder.put("sum.table", SUM_TABLE);
    let words = folder.run("larger sum.table").out;
    assert!(
        words.starts_with("This table has a tree of two-input gates, and `make` writes one."),
        "{words}"
    );
}
