//! Many sheets at once: one that is refused or cannot be read stops no other.

use crate::common::{answers, examples, is_wrong, SUM_TABLE};

#[test]
fn every_sheet_is_made() {
    let folder = examples("batch");
    folder.put("sum.table", SUM_TABLE);
    answers(
        folder.run("make -d nets shade.table seven.table sum.table figure1.table"),
        "4 sheets: 4 written to nets\n",
    );
    for name in ["shade", "seven", "figure1"] {
        assert_eq!(
            folder.get(&format!("nets/{name}.net")),
            folder.get(&format!("{name}.net"))
        );
    }
    answers(
        folder.run("draw -d drawn shade.net seven.net"),
        "2 sheets: 2 written to drawn\n",
    );
    assert!(folder.get("drawn/seven.svg").starts_with("<svg "));
    answers(
        folder.run("draw --dot -d drawn shade.net"),
        "1 sheet: 1 written to drawn\n",
    );
    assert!(folder.get("drawn/shade.dot").starts_with("digraph "));
}

#[test]
fn a_refused_one_stops_no_other() {
    let folder = examples("batch_refused");
    folder.put("bad.table", "x\n");
    let ended = folder.run("make -d nets majority.table shade.table bad.table seven.table");
    assert_eq!(ended.status, 1);
    assert_eq!(ended.out, "4 sheets: 2 written to nets, 2 refused\n");
    assert_eq!(
        ended.err,
        "majority.table: no tree of two-input gates computes this table; at fault are a, b and c together (refusal 16)\n\
         `sitgurp why majority.table` says what to change\n\
         bad.table:1:1: line 1 should be `levels inputs` (refusal 1)\n    x\n    ^\n"
    );
    assert_eq!(folder.get("nets/shade.net"), folder.get("shade.net"));
    let ended = folder.run("make -d nets bad.table none.table shade.table");
    assert_eq!(ended.status, 2);
    assert_eq!(
        ended.out,
        "3 sheets: 1 written to nets, 1 refused, 1 not read or not written\n"
    );
    let json = folder.run("make --json -d nets bad.table none.table shade.table");
    assert_eq!(json.status, 2);
    assert!(json
        .out
        .starts_with("{\"sheets\":[{\"file\":\"bad.table\",\"refused\":[{"));
    assert!(json.out.contains("{\"file\":\"none.table\",\"error\":\"none.table: cannot be read: No such file or directory\"}"));
    assert!(json
        .out
        .ends_with("{\"file\":\"shade.table\",\"written\":\"nets/shade.net\"}]}\n"));
}

#[test]
fn no_sheet_is_written_over() {
    let folder = examples("batch_over");
    folder.put("copy.table", SUM_TABLE);
    std::fs::create_dir(folder.0.join("more")).expect("a folder");
    folder.put("more/shade.table", SUM_TABLE);
    is_wrong(
        folder.run("settle -d . shade.net"),
        "sitgurp settle: `./shade.net` is one of the sheets, and would be written over: name another folder\n",
    );
    is_wrong(
        folder.run("make -d nets shade.table more/shade.table"),
        "sitgurp make: `shade.table` and `more/shade.table` would be written to the same file\n",
    );
    is_wrong(
        folder.run("make -d nets -"),
        "sitgurp make: with -d every sheet is a file\n",
    );
    is_wrong(
        folder.run("make -d copy.table/nets shade.table"),
        "copy.table/nets: cannot be written: ",
    );
}

/// As many as there are, whatever the cores: each its own answer, in order.
#[test]
fn many() {
    let folder = examples("batch_many");
    let mut words = String::from("make -d nets");
    for k in 0..60 {
        let name = format!("t{k}.table");
        let ink = format!("0 0 0 {}\n", k % 2);
        folder.put(&name, SUM_TABLE.replace("0 0 0 0\n", &ink));
        words += &format!(" {name}");
    }
    let ended = folder.run(&words);
    assert_eq!(ended.out, "60 sheets: 30 written to nets, 30 refused\n");
    let order: Vec<&str> = ended
        .err
        .lines()
        .filter_map(|line| line.split_once(": no tree"))
        .map(|(name, _)| name)
        .collect();
    let due: Vec<String> = (0..60)
        .filter(|k| k % 2 == 1)
        .map(|k| format!("t{k}.table"))
        .collect();
    assert_eq!(order, due);
}
