//! Cells left open: what `check`, `tidy` and `page` say of them, and the commands that need a full table.

use crate::common::{answers, answers_with_note, refuses, Ended, Folder, SUM_NET, SUM_TABLE};

/// The sum's table with the cells of these rows open.
fn open(rows: &[&str]) -> String {
    let mut sheet = SUM_TABLE.to_string();
    for row in rows {
        let open = format!("{} -", &row[..5]);
        assert!(sheet.contains(row));
        sheet = sheet.replace(row, &open);
    }
    sheet
}

#[test]
fn a_check_passes_over_open_cells() {
    let folder = Folder::new("open_check");
    folder
        .put("sum.net", SUM_NET)
        .put("other.net", SUM_NET.replace("1 c 0110", "1 c 0111"))
        .put("one.table", open(&["0 1 1 0"]))
        .put("two.table", open(&["0 1 1 0", "1 0 1 0"]));
    answers(
        folder.run("check sum.net one.table"),
        "yes: the net has this table in 7 of 8 rows; the other is open\n",
    );
    answers(
        folder.run("check sum.net two.table"),
        "yes: the net has this table in 6 of 8 rows; the other 2 are open\n",
    );
    // it differs where a table is open, and nowhere else
    answers(
        folder.run("check other.net two.table"),
        "yes: the net has this table in 6 of 8 rows; the other 2 are open\n",
    );
    let no = "no: at a=1 b=0 c=1 the net gives 1 and the table has 0 (one.table line 9)\n";
    let due = Ended {
        status: 1,
        out: no.to_string(),
        err: String::new(),
    };
    assert_eq!(folder.run("check other.net one.table"), due);
    answers(
        folder.run("check sum.net two.table --json"),
        "{\"agree\":true,\"open\":2}\n",
    );
}

/// The first open cell is shown, and how many there are.
#[test]
fn a_full_table_is_needed() {
    let folder = Folder::new("open_refused");
    folder
        .put("sum.net", SUM_NET)
        .put("one.table", open(&["0 1 1 0"]))
        .put("two.table", open(&["1 0 1 0", "0 1 1 0"]));
    for command in [
        "make",
        "make --shallow",
        "make --number 7",
        "count",
        "why",
        "matrix --group a,b",
    ] {
        refuses(
            folder.run(&format!("{command} one.table")),
            "one.table:7:7: this cell is open, and a full table is needed here (refusal 27)\n    0 1 1 -\n          ^\n\
             `sitgurp fill one.table` finds inks for open cells; `sitgurp check NET one.table` passes over them\n",
        );
        refuses(
            folder.run(&format!("{command} two.table")),
            "two.table:7:7: this cell is open, the first of 2, and a full table is needed here (refusal 27)\n    0 1 1 -\n          ^\n\
             `sitgurp fill two.table` finds inks for open cells; `sitgurp check NET two.table` passes over them\n",
        );
    }
    refuses(
        folder.run("keep sum.net two.table"),
        "two.table:7:7: this cell is open, the first of 2, and a full table is needed here (refusal 27)\n    0 1 1 -\n          ^\n\
         `sitgurp fill two.table` finds inks for open cells; `sitgurp check NET two.table` passes over them\n",
    );
    let json = folder.run("make two.table --json").out;
    assert_eq!(
        json,
        "{\"refused\":[{\"file\":\"two.table\",\"number\":27,\"kind\":\"OpenCell\",\"place\":3,\"line\":7,\"column\":7,\
         \"words\":\"this cell is open, the first of 2, and a full table is needed here\",\"causes\":[]}]}\n"
    );
}

#[test]
fn tidying_carries_open_cells() {
    let folder = Folder::new("open_tidy");
    let loose = "levels inputs\n2 2\na  b  ink\n1 1 -\n0 1   0\n0 0 -  \n1 0 1\n";
    let table = "levels inputs\n2 2\na b ink\n0 0 -\n0 1 0\n1 0 1\n1 1 -\n";
    folder.put("my.txt", loose);
    answers(folder.run("tidy my.txt"), table);
    answers(
        folder.run("tidy my.txt --json"),
        "{\"table\":{\"levels\":2,\"inputs\":[\"a\",\"b\"],\"inks\":[null,0,1,null],\"sheet\":\"levels inputs\\n2 2\\na b ink\\n0 0 -\\n0 1 0\\n\
        1 0 1\\n1 1 -\\n\"}}\n",
    );
    let csv = "levels,inputs\n2,2\na,b,ink\n1,1,-\n0,1,0\n0,0,-\n1,0,1\n";
    folder.put("my.csv", csv);
    answers_with_note(
        folder.run("tidy --csv my.csv"),
        table,
        "my.csv: commas separate the fields\n",
    );
}

#[test]
fn a_page_shows_open_cells() {
    let folder = Folder::new("open_page");
    folder.put("two.table", open(&["0 1 1 0", "1 0 1 0"]));
    let page = folder.run("page two.table").out;
    assert!(page.contains("<p class=\"facts\">2 levels, 3 inputs: a, b, c; 8 rows, 2 open</p>"));
    assert!(page.contains("<h2>Open cells</h2>"));
    assert!(!page.contains("<h2>Its tree</h2>"));
    let row = "<tr><td>0</td><td>1</td><td>1</td><td class=\"open\">open</td></tr>";
    assert!(page.contains(row));
    assert_eq!(page.matches("<td class=\"open\">").count(), 2);
    assert_eq!(page.matches("<td style=\"background:rgb(").count(), 6);
}
