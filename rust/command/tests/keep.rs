//! `keep`: a net's wiring filled anew for a table, the gates that changed, and a wiring that no gate tables give the table.

use crate::common::{answers, examples, is_wrong, refuses, Ended, Folder, SUM_NET, SUM_TABLE};

/// A sheet of three inputs with two levels and these gates.
fn net(gates: &str) -> String {
    format!("levels inputs\n2 3\na b c\nleft right table\n{gates}")
}

/// The table sheet of three inputs with two levels and these inks.
fn table(inks: [u8; 8]) -> String {
    let rows = inks.iter().enumerate().map(|(index, ink)| {
        let [a, b, c] = [index / 4, index / 2 % 2, index % 2];
        format!("{a} {b} {c} {ink}\n")
    });
    format!(
        "levels inputs\n2 3\na b c ink\n{}",
        rows.collect::<String>()
    )
}

/// Status 0, the net on standard output, and the gates told on standard error.
fn keeps(ended: Ended, net: &str, told: &str) {
    let due = Ended {
        status: 0,
        out: net.to_string(),
        err: told.to_string(),
    };
    assert_eq!(ended, due);
}

#[test]
fn the_wiring_stays_and_the_changed_gates_are_told() {
    let folder = Folder::new("keep");
    let odd = net("c b 0001\n1 a 0110\n");
    folder
        .put("sum.net", SUM_NET)
        .put("sum.table", SUM_TABLE)
        .put("odd.net", &odd)
        .put("both.table", table([0, 1, 0, 1, 0, 1, 1, 1]));
    keeps(
        folder.run("keep sum.net sum.table"),
        SUM_NET,
        "no gate's table changed\n",
    );
    keeps(
        folder.run("keep odd.net sum.table"),
        &net("c b 0110\n1 a 0110\n"),
        "gate 1 has a new table\n",
    );
    // a and b, or c
    let both = net("a b 0001\n1 c 0111\n");
    keeps(
        folder.run("keep sum.net both.table"),
        &both,
        "gates 1 and 2 have new tables\n",
    );
    folder.put("both.net", &both);
    keeps(
        folder.run_on("keep both.net", folder.get("both.table").as_bytes()),
        &both,
        "no gate's table changed\n",
    );
    keeps(
        folder.run("keep sum.net both.table -o new.net"),
        "",
        "gates 1 and 2 have new tables\n",
    );
    assert_eq!(folder.get("new.net"), both);
    let yes = "yes: the net has this table, all 8 rows\n";
    answers(folder.run("check new.net both.table"), yes);
    answers(
        folder.run("keep odd.net sum.table --json"),
        "{\"changed\":[1],\"net\":{\"levels\":2,\"inputs\":[\"a\",\"b\",\"c\"],\"layers\":2,\
        \"gates\":[{\"left\":\"c\",\"right\":\"b\",\"table\":[0,1,1,0]},{\"left\":1,\"right\":\"a\",\"table\":[0,1,1,0]}],\
        \"sheet\":\"levels inputs\\n2 3\\na b c\\nleft right table\\nc b 0110\\n1 a 0110\\n\"}}\n",
    );
}

#[test]
fn a_wiring_that_cannot_have_the_table() {
    let folder = examples("keep_refused");
    folder
        .put("sum.net", SUM_NET)
        // a and c, added to b
        .put("cross.table", table([0, 0, 1, 1, 0, 1, 1, 0]));
    refuses(
        folder.run("keep sum.net cross.table"),
        "sum.net:5:1: gate 1 joins a and b, which have 4 classes in cross.table, and a wire carries 2 levels: \
        no gate tables give this wiring that table (refusal 23)\n    \
         a b 0110\n    ^\n\
         `sitgurp matrix cross.table --group a,b` shows the classes; `sitgurp make cross.table` makes a tree of another wiring\n",
    );
    refuses(
        folder.run("keep sum.net majority.table"),
        "sum.net:5:1: gate 1 joins a and b, which have 3 classes in majority.table, and a wire carries 2 levels: \
        no gate tables give this wiring that table (refusal 23)\n    \
         a b 0110\n    ^\n\
         `sitgurp matrix majority.table --group a,b` shows the classes; no other wiring has it either; `sitgurp why majority.table` says what to change\n",
    );
    let json = folder.run("keep sum.net majority.table --json");
    assert_eq!((json.status, json.err.as_str()), (1, ""));
    let refused = "{\"refused\":[{\"file\":\"sum.net\",\"number\":23,\"kind\":\"Wiring\",\"place\":1,\"line\":5,\"column\":1,";
    assert!(json.out.starts_with(refused), "{}", json.out);
    // the second gate, by all inputs below it
    folder.put(
        "four.net",
        "levels inputs\n2 4\na b c d\nleft right table\nb d 0110\nc 1 0110\n2 a 0110\n",
    );
    let rows = (0..16).map(|index| {
        let [a, b, c, d] = [index >> 3 & 1, index >> 2 & 1, index >> 1 & 1, index & 1];
        let ink = a & c ^ b ^ d;
        format!("{a} {b} {c} {d} {ink}\n")
    });
    let rows: String = rows.collect();
    folder.put(
        "four.table",
        format!("levels inputs\n2 4\na b c d ink\n{rows}"),
    );
    let second = folder.run("keep four.net four.table");
    assert!(
        second.err.starts_with("four.net:6:1: gate 2 joins b, c and d, which have 4 classes in four.table, and a wire carries 2 levels: "),
        "{}",
        second.err
    );
}

/// A net that leaves out inputs which the table needs, and one that leaves out others.
#[test]
fn a_wiring_that_leaves_inputs_out() {
    let folder = examples("keep_left_out");
    folder
        .put("pair.net", net("c b 0001\n"))
        .put("sum.table", SUM_TABLE)
        // b and c, and not a
        .put("pair.table", table([0, 1, 1, 0, 0, 1, 1, 0]));
    keeps(
        folder.run("keep pair.net pair.table"),
        &net("c b 0110\n"),
        "gate 1 has a new table\n",
    );
    refuses(
        folder.run("keep pair.net sum.table"),
        "pair.net: this net leaves out a, which matters in sum.table: no gate tables give this wiring that table (refusal 23)\n\
         `sitgurp make sum.table` makes a tree of another wiring\n",
    );
    refuses(
        folder.run("keep pair.net majority.table"),
        "pair.net: this net leaves out a, which matters in majority.table: no gate tables give this wiring that table (refusal 23)\n\
         no other wiring has it either; `sitgurp why majority.table` says what to change\n",
    );
    folder.put(
        "four.net",
        "levels inputs\n3 4\na b c d\nleft right table\nb d 012120201\n",
    );
    let two = folder.run("keep four.net seven.table");
    let said = "four.net: this net leaves out a and c, which matter in seven.table: ";
    assert!(two.err.starts_with(said), "{}", two.err);
    let json = folder.run("keep pair.net sum.table --json").out;
    let refused = "{\"refused\":[{\"file\":\"pair.net\",\"number\":23,\"kind\":\"Wiring\",\"place\":0,\"line\":null,\"column\":null,";
    assert!(json.starts_with(refused), "{json}");
}

#[test]
fn sheets_that_do_not_go_together() {
    let folder = examples("keep_sheets");
    folder.put("sum.net", SUM_NET).put("bad.net", "x\n");
    refuses(
        folder.run("keep sum.net figure1.table"),
        "sum.net and figure1.table: the two differ in levels: 2 against 3 (refusal 12)\n",
    );
    // the net is judged first
    let bad = folder.run("keep bad.net bad.net");
    assert!(bad.err.starts_with("bad.net:1:1: "), "{}", bad.err);
    is_wrong(
        folder.run("keep"),
        "sitgurp keep: it takes 2 sheets, and 0 are named\n",
    );
}
