//! Every command, end to end: what it answers in words and as JSON.

use crate::common::{answers, examples, is_wrong, refuses, Folder};
use crate::common::{CHAIN, SHALLOW, SUM_NET, SUM_SETTLED, SUM_TABLE};

/// A folder with the sum's sheets.
fn sums(name: &str) -> Folder {
    let folder = Folder::new(name);
    folder
        .put("sum.table", SUM_TABLE)
        .put("sum.net", SUM_NET)
        .put("chain.net", CHAIN)
        .put("shallow.net", SHALLOW);
    folder
}

const SUM_JSON: &str = "{\"net\":{\"levels\":2,\"inputs\":[\"a\",\"b\",\"c\"],\"layers\":2,\
    \"gates\":[{\"left\":\"b\",\"right\":\"c\",\"table\":[0,1,1,0]},{\"left\":\"a\",\"right\":1,\"table\":[0,1,1,0]}],\
    \"sheet\":\"levels inputs\\n2 3\\na b c\\nleft right table\\nb c 0110\\na 1 0110\\n\"}}\n";

#[test]
fn make() {
    let folder = sums("make");
    answers(folder.run("make sum.table"), SUM_SETTLED);
    answers(folder.run("make sum.table --json"), SUM_JSON);
    answers(folder.run("make sum.table --number 1"), SUM_NET);
    answers(folder.run("make --number=1 sum.table"), SUM_NET);
    let table = folder.run("table chain.net").out;
    answers(folder.run_on("make --shallow", table.as_bytes()), SHALLOW);
    refuses(
        folder.run("make sum.table --number 3"),
        "sum.table: the table has 3 trees, 0 to 2, and none of number 3 (refusal 17)\n",
    );
    is_wrong(
        folder.run("make sum.table --number 0 --shallow"),
        "sitgurp make: --shallow and --number do not go together\n",
    );
    is_wrong(
        folder.run("make sum.table --number first"),
        "sitgurp make: --number takes a whole number from 0, not `first`\n",
    );
    let folder = examples("make_examples");
    for name in ["shade", "seven", "figure1"] {
        let net = folder.get(&format!("{name}.net"));
        answers(folder.run(&format!("make {name}.table")), &net);
    }
    refuses(
        folder.run("make majority.table"),
        "majority.table: no tree of two-input gates computes this table; at fault are a, b and c together (refusal 16)\n\
         `sitgurp why majority.table` says what to change\n",
    );
    refuses(
        folder.run("make seven.table --number 1"),
        "seven.table: the table has 1 tree, number 0, and none of number 1 (refusal 17)\n",
    );
    refuses(
        folder.run("make majority.table --number 0"),
        "majority.table: no tree of two-input gates computes this table, so it has no number 0 (refusal 17)\n\
         `sitgurp why majority.table` says what to change\n",
    );
}

#[test]
fn settle() {
    let folder = sums("settle");
    answers(folder.run("settle sum.net"), SUM_SETTLED);
    answers(folder.run("settle sum.net --json"), SUM_JSON);
    answers(folder.run("settle --shallow chain.net"), SHALLOW);
}

#[test]
fn same() {
    let folder = sums("same");
    folder.put("settled.net", SUM_SETTLED);
    folder.put("other.net", SUM_NET.replace("1 c 0110", "1 c 0111"));
    folder.put("named.net", SUM_NET.replace("a b c", "b a c"));
    answers(
        folder.run("same sum.net settled.net"),
        "same: the two nets compute the same table\n",
    );
    answers(
        folder.run("same sum.net settled.net --json"),
        "{\"same\":true}\n",
    );
    let no = folder.run("same sum.net other.net");
    assert_eq!((no.status, no.err.as_str()), (1, ""));
    assert_eq!(
        no.out,
        "not the same: at a=0 b=1 c=1 the first net gives 0 and the second 1\n"
    );
    let no = folder.run("same sum.net --json other.net");
    assert_eq!(no.status, 1);
    assert_eq!(
        no.out,
        "{\"same\":false,\"at\":{\"a\":0,\"b\":1,\"c\":1},\"first\":0,\"second\":1}\n"
    );
    refuses(
        folder.run("same sum.net named.net"),
        "sum.net and named.net: the two differ in the inputs' names or their order: `a b c` against `b a c` (refusal 12)\n",
    );
    refuses(
        folder.run("same sum.net chain.net"),
        "sum.net and chain.net: the two differ in the number of inputs: 3 against 4 (refusal 12)\n",
    );
}

#[test]
fn check() {
    let folder = sums("check");
    folder.put("other.table", SUM_TABLE.replace("1 1 0 0", "1 1 0 1"));
    answers(
        folder.run("check sum.net sum.table"),
        "yes: the net has this table, all 8 rows\n",
    );
    answers(
        folder.run("check sum.net sum.table --json"),
        "{\"agree\":true,\"open\":0}\n",
    );
    let no = folder.run("check sum.net other.table");
    assert_eq!((no.status, no.err.as_str()), (1, ""));
    assert_eq!(
        no.out,
        "no: at a=1 b=1 c=0 the net gives 0 and the table has 1 (other.table line 10)\n"
    );
    let no = folder.run("check sum.net other.table --json");
    assert_eq!(
        no.out,
        "{\"agree\":false,\"at\":{\"a\":1,\"b\":1,\"c\":0},\"line\":10,\"net\":0,\"table\":1,\"open\":0}\n"
    );
    refuses(
        folder.run("check chain.net sum.table"),
        "chain.net and sum.table: the two differ in the number of inputs: 4 against 3 (refusal 12)\n",
    );
    // the net is judged first
    folder.put("bad.net", "x").put("bad.table", "x");
    let first = folder.run("check bad.net bad.table");
    assert!(first.err.starts_with("bad.net:1:1: "), "{}", first.err);
    let second = folder.run("check sum.net bad.table");
    assert!(second.err.starts_with("bad.table:1:1: "), "{}", second.err);
}

#[test]
fn table_and_eval() {
    let folder = sums("table");
    answers(folder.run("table sum.net"), SUM_TABLE);
    let json = folder.run("table sum.net --json").out;
    assert!(json.starts_with("{\"table\":{\"levels\":2,\"inputs\":[\"a\",\"b\",\"c\"],\"inks\":[0,1,1,0,1,0,0,1],\"sheet\":"));
    for (index, row) in SUM_TABLE.lines().skip(3).enumerate() {
        let levels: Vec<&str> = row.split(' ').collect();
        let [a, b, c, ink] = levels[..] else {
            panic!("row {index}")
        };
        answers(
            folder.run(&format!("eval sum.net c={c} a={a} b={b}")),
            &format!("{ink}\n"),
        );
    }
    answers(
        folder.run_on("eval a=1 b=0 c=0 --json", SUM_NET.as_bytes()),
        "{\"ink\":1}\n",
    );
    is_wrong(
        folder.run("eval sum.net a=1 c=0"),
        "sitgurp eval: no level is given for b\n",
    );
    is_wrong(
        folder.run("eval sum.net a=1 b=2 c=0"),
        "sitgurp eval: the level of b is a digit from 0 to 1, not `2`\n",
    );
    is_wrong(
        folder.run("eval sum.net a=1 d=0"),
        "sitgurp eval: `d` is no input of this net; its inputs are a, b and c\n",
    );
    is_wrong(
        folder.run("eval sum.net 1 0 0"),
        "sitgurp eval: `1` is no level of an input; write it as NAME=LEVEL\n",
    );
    is_wrong(
        folder.run("eval sum.net a=1 a=0"),
        "sitgurp eval: a is given twice\n",
    );
}

#[test]
fn gates_and_count() {
    let folder = sums("gates");
    answers(
        folder.run("gates sum.net"),
        "gate 1: a b 0110\ngate 2: 1 c 0110\n",
    );
    answers(
        folder.run("gates sum.net --json"),
        "{\"gates\":[{\"left\":\"a\",\"right\":\"b\",\"table\":[0,1,1,0]},{\"left\":1,\"right\":\"c\",\"table\":[0,1,1,0]}],\"layers\":2}\n",
    );
    answers(folder.run("count sum.table"), "3\n");
    answers(folder.run("count sum.table --json"), "{\"trees\":3}\n");
    answers(examples("count").run("count majority.table"), "0\n");
}

#[test]
fn shallower() {
    let folder = sums("shallower");
    folder.put("bad.net", "x\n").put("worse.net", "");
    answers(folder.run("shallower chain.net shallow.net"), SHALLOW);
    answers(folder.run("shallower shallow.net chain.net"), SHALLOW);
    // the first when level
    answers(folder.run("shallower sum.net shallow.net"), SUM_NET);
    let one = folder.run("shallower bad.net chain.net");
    assert_eq!((one.status, one.out.as_str()), (0, CHAIN));
    let bad = "bad.net:1:1: line 1 should be `levels inputs` (refusal 1)\n    x\n    ^\n";
    assert_eq!(one.err, bad);
    refuses(
        folder.run("shallower bad.net worse.net"),
        &format!("{bad}worse.net:1:1: there is nothing to read: a net sheet is due (refusal 1)\n"),
    );
    let json = folder.run("shallower chain.net shallow.net --json").out;
    assert!(
        json.starts_with("{\"file\":\"shallow.net\",\"which\":2,\"net\":"),
        "{json}"
    );
}

#[test]
fn arrivals() {
    let folder = sums("arrivals");
    folder
        .put("some.arrivals", "name from to\na 0 4\nb 2 2\nc 10 12\n")
        .put("fixed.arrivals", "name from to\na 4 4\nb 4 4\nc 0 0\n");
    answers(
        folder.run("arrivals sum.net some.arrivals --delay 4"),
        "the output settles between 3.5 and 4 microseconds\n",
    );
    answers(
        folder.run("arrivals sum.net some.arrivals --delay 4 --json"),
        "{\"earliest\":3.5,\"latest\":4}\n",
    );
    answers(
        folder.run("arrivals sum.net fixed.arrivals --delay 1"),
        "the output settles at 1.5 microseconds\n",
    );
    is_wrong(
        folder.run("arrivals sum.net some.arrivals"),
        "sitgurp arrivals: --delay is needed: what every gate takes, 0 to 255 quarters of a microsecond\n",
    );
    is_wrong(
        folder.run("arrivals sum.net some.arrivals --delay 256"),
        "sitgurp arrivals: --delay takes a whole number from 0 to 255, not `256`\n",
    );
    let refused = |sheet: &str, words: &str| {
        folder.put("bad.arrivals", sheet);
        refuses(folder.run("arrivals sum.net bad.arrivals --delay 1"), words);
    };
    refused(
        "name from to\na 0 0\nc 0 0\n",
        "bad.arrivals:3:1: this line is for the input `b`, not `c`: one line an input, in the net's order (refusal 18)\n    c 0 0\n    ^\n",
    );
    refused(
        "name from to\na 0 0\nb 5 4\n",
        "bad.arrivals:3:5: `to` is 4, which is before `from`, 5 (refusal 19)\n    b 5 4\n        ^\n",
    );
    refused(
        "name from to\na 0 0\nb 1.5 4\n",
        "bad.arrivals:3:3: a time should be a whole number of quarter microseconds from 0 to 65535, not `1.5` (refusal 19)\n    b 1.5 4\n      ^\n",
    );
    refused(
        "name from to\na 0 0\nb 0 4\n",
        "bad.arrivals:4:1: the sheet ends here, and 1 line is missing (refusal 1)\n",
    );
    refused(
        "name, from, to\na, 0, 0\nb, 0, 4\nc, 0, 0\n",
        "bad.arrivals:1:1: line 1 should be `name from to` (refusal 1)\n    name, from, to\n    ^\n\
         likely cause: commas separate the fields; put one space between two fields\n",
    );
    refused(
        SUM_NET,
        "bad.arrivals:1:1: line 1 should be `name from to` (refusal 1)\n    levels inputs\n    ^\n\
         likely cause: this is a net sheet, and an arrival sheet is due here\n",
    );
}
