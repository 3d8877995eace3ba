//! `invert`: a table with other inks, and the tree that it keeps but for the last gate's table.

use crate::common::{answers, examples, is_wrong, Ended, Folder, SUM_TABLE};

/// A table sheet of two inputs with three levels and these inks.
fn table(inks: &str) -> String {
    let rows = inks.chars().enumerate().map(|(index, ink)| {
        let [a, b] = [index / 3, index % 3];
        format!("{a} {b} {ink}\n")
    });
    let rows: String = rows.collect();
    format!("levels inputs\n3 2\na b ink\n{rows}")
}

#[test]
fn dark_for_light() {
    let folder = Folder::new("invert");
    let dark = table("210122012");
    folder.put("light.table", table("012100210"));
    answers(folder.run("invert light.table"), &dark);
    answers(
        folder.run_on("invert", table("012100210").as_bytes()),
        &dark,
    );
    answers(
        folder.run_on("invert -", dark.as_bytes()),
        &table("012100210"),
    );
    answers(folder.run("invert light.table -o dark.table"), "");
    assert_eq!(folder.get("dark.table"), dark);
    // and back
    answers(folder.run("invert dark.table -o again.table"), "");
    assert_eq!(folder.get("again.table"), folder.get("light.table"));
    answers(
        folder.run("invert light.table --json"),
        "{\"table\":{\"levels\":3,\"inputs\":[\"a\",\"b\"],\"inks\":[2,1,0,1,2,2,0,1,2],\"sheet\":\"levels inputs\\n3 2\\na b ink\\n0 0 2\\n0 1 1\\n\
        0 2 0\\n1 0 1\\n1 1 2\\n1 2 2\\n2 0 0\\n2 1 1\\n2 2 2\\n\"}}\n",
    );
    folder.put("sum.table", SUM_TABLE);
    answers(
        folder.run("invert -d dark light.table sum.table"),
        "2 sheets: 2 written to dark\n",
    );
    assert_eq!(folder.get("dark/light.table"), dark);
}

/// A cell that is left open has no ink to turn around.
#[test]
fn an_open_cell_stays() {
    let folder = Folder::new("invert_open");
    folder.put("open.table", table("01210-210"));
    answers(folder.run("invert open.table"), &table("21012-012"));
    answers(
        folder.run("invert open.table --map 0=1,1=0"),
        &table("10201-201"),
    );
}

#[test]
fn some_inks_alone() {
    let folder = Folder::new("invert_map");
    folder.put("light.table", table("012100210"));
    let map = |pairs: &str| folder.run(&format!("invert light.table --map {pairs}"));
    answers(map("0=1,1=0"), &table("102011201"));
    answers(map("0=1,1=2,2=0"), &table("120211021"));
    answers(map("2=0,1=1,0=2"), &table("210122012"));
    answers(map("1=1"), &table("012100210"));
    let wrong = |pairs: &str, words: &str| {
        is_wrong(
            map(pairs),
            &format!("sitgurp invert: {words}\nusage: sitgurp invert [TABLE] [--map OLD=NEW,..]\n"),
        );
    };
    wrong(
        "0=2",
        "inks 0 and 2 would both be 2, and no two inks may become one",
    );
    wrong(
        "0=1,1=2,2=1",
        "inks 0 and 2 would both be 1, and no two inks may become one",
    );
    wrong("0=1,0=2", "ink 0 is given twice");
    for (pairs, ink) in [
        ("0=3,3=0", "3"),
        ("-=0", "-"),
        ("0=-1", "-1"),
        ("00=1", "00"),
        ("0=", ""),
        ("dark=light", "dark"),
    ] {
        let words = format!("an ink of this table is a digit from 0 to 2, and not `{ink}`");
        wrong(pairs, &words);
    }
    for pair in ["01", "0:1"] {
        let words =
            format!("--map takes OLD=NEW with commas between, such as 0=1,1=0, and not `{pair}`");
        wrong(pair, &words);
    }
    is_wrong(
        folder.run("invert light.table --map"),
        "sitgurp invert: --map needs a value: OLD=NEW,..\n",
    );
}

#[test]
fn a_sheet_that_is_refused() {
    let folder = examples("invert_refused");
    folder
        .put("bad.table", table("012100213"))
        .put("loose.table", table("012100210").replace(' ', "  "));
    let bad = folder.run("invert bad.table");
    assert!(bad.err.starts_with("bad.table:12:5: "), "{}", bad.err);
    assert_eq!(bad, folder.run("make bad.table"));
    let loose = folder.run("invert loose.table -o bad.table");
    assert_eq!(loose.status, 1);
    assert!(
        loose
            .err
            .ends_with("`sitgurp tidy loose.table` writes it as a table sheet\n"),
        "{}",
        loose.err
    );
    assert_eq!(folder.get("bad.table"), table("012100213"));
    assert_eq!(folder.run("invert shade.net").status, 1);
    is_wrong(
        folder.run("invert shade.table seven.table"),
        "sitgurp invert: `seven.table` is one operand too many; for several sheets add -d FOLDER\n",
    );
}

/// The lines of a sheet up to the last one's table, and that table.
fn last_table(sheet: &str) -> (&str, &str) {
    sheet
        .trim_end()
        .rsplit_once(' ')
        .expect("a net sheet ends in a gate's table")
}

/// "Designers invert a panel, dark for light, and expect the same masks."
#[test]
fn the_same_masks() {
    let folder = examples("invert_masks");
    for name in ["shade", "seven", "figure1"] {
        folder.run(&format!("invert {name}.table -o dark.table"));
        folder.run("make dark.table -o dark.net");
        let (light, dark) = (folder.get(&format!("{name}.net")), folder.get("dark.net"));
        let ((lines, digits), (others, dark_digits)) = (last_table(&light), last_table(&dark));
        assert_eq!(lines, others);
        assert_ne!(digits, dark_digits);
        // so the old net keeps all masks but the last
        let kept = folder.run(&format!("keep {name}.net dark.table"));
        let gate = lines.lines().count() - 4;
        let due = Ended {
            status: 0,
            out: dark.clone(),
            err: format!("gate {gate} has a new table\n"),
        };
        assert_eq!(kept, due);
    }
    // neither has a tree
    folder.run("invert majority.table -o dark.table");
    let (light, dark) = (
        folder.run("make majority.table"),
        folder.run("make dark.table"),
    );
    assert_eq!((light.status, dark.status), (1, 1));
    assert_eq!(light.err.replace("majority", "dark"), dark.err);
}
