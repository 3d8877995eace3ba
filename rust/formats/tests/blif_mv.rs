//! BLIF-MV files.

use formats::net_of_blif;

fn read(text: &str) -> String {
    let net = net_of_blif(text.as_bytes(), None)
        .unwrap_or_else(|fault| panic!("{fault}\n{text}"))
        .sheet;
    let lines: Vec<&str> = net.as_str().lines().skip(4).collect();
    lines.join("/")
}

fn refusal(text: &str) -> String {
    net_of_blif(text.as_bytes(), None)
        .expect_err("a refusal")
        .to_string()
}

const FRONT: &str = ".model m\n.inputs a b\n.outputs y\n.mv a, b 3\n.mv y 3\n";

#[test]
fn entries_of_rows() {
    let maximum = "a b 012112222";
    for rows in [
        "0 0 0\n0 1 1\n0 2 2\n1 0 1\n1 1 1\n1 2 2\n2 0 2\n2 1 2\n2 2 2\n",
        "0 - =b\n1 (0,1) 1\n1 2 2\n2 - 2\n",
        "0 - =b\n1 {0-1} 1\n1 !(0, 1) 2\n2 - 2\n",
        ".default 2\n0 0 0\n(0,1) !(0,2) 1\n1 !2 1\n",
        ".def =b\n1 0 1\n2 - 2\n",
    ] {
        assert_eq!(
            read(&format!("{FRONT}.table a b y\n{rows}.end\n")),
            maximum,
            "{rows}"
        );
        assert_eq!(
            read(&format!("{FRONT}.table a b -> y\n{rows}.end\n")),
            maximum,
            "{rows}"
        );
    }
}

#[test]
fn named_values_and_wires_of_fewer_values() {
    // a wire of two values, and an output of two, between inputs of three
    let text = "\
.model m
.inputs weight near
.outputs dark
.mv weight, near 3 low mid high
.mv dark 2 no yes
.table weight strong
high 1
!high 0
.table strong near dark
0 high yes
1 - yes
.default no
.end
";
    let found = net_of_blif(text.as_bytes(), None).expect("a net");
    assert_eq!(
        found.sheet.as_str().lines().last(),
        Some("weight near 001001111")
    );
    assert_eq!(
        found.notes,
        [
            "`weight`: `low` is 0, `mid` is 1, `high` is 2",
            "`near`: `low` is 0, `mid` is 1, `high` is 2",
            "`dark`: `no` is 0, `yes` is 1"
        ]
    );
    // levels that a wire never has have digit 0
    let text = ".inputs a b c\n.outputs y\n.mv a,b,c 3\n.mv y 3\n.table a b w\n0 0 0\n.default 1\n.table w c y\n0 - =c\n1 - 2\n";
    assert_eq!(read(text), "a b 011111111/1 c 012222000");
}

#[test]
fn covers_inside() {
    let text =
        ".model m\n.inputs a b\n.outputs y\n.table b n\n0 1\n1 0\n.names a n y\n11 1\n.end\n";
    assert_eq!(read(text), "a b 0010");
    // with spaces between, as in a table
    let text = ".model m\n.inputs a b\n.outputs y\n.table b n\n0 1\n1 0\n.names a n y\n1 1 1\n.default 0\n.end\n";
    assert_eq!(read(text), "a b 0010");
}

#[test]
fn refusals_give_line_and_reason() {
    for (rows, said) in [
        (
            "0 0 0\n",
            "line 6: the table of `y` has no row for `a=0 b=1`, and no `.default`",
        ),
        (
            ".default 0\n0 0 1\n- 0 2\n",
            "line 9: this row gives `y` a second value at `a=0 b=0`",
        ),
        (
            ".default 0\n0 3 1\n",
            "line 8: `3` is no value of `b`, which has 3",
        ),
        (
            ".default 0\n0 0\n",
            "line 8: this row has 2 entries, and 3 are due",
        ),
        (
            ".default 0\n0 0 -\n",
            "line 8: the output of a row is one value, and `-` is not",
        ),
        (
            ".default 0\n0 0 =c\n",
            "line 8: `c` is no input of this table",
        ),
        (
            ".default 0\n0 {2-1} 1\n",
            "line 8: `{2-1}` is no value of `b`, which has 3",
        ),
        (
            ".default 0\n0 (0 1\n",
            "line 8: this row has 2 entries, and 3 are due",
        ),
        (
            ".default\n",
            "line 7: `.default` has one value, and belongs below `.table`",
        ),
        (
            ".default 0\n.reset y\n",
            "line 8: a net has no memory: a model with latches cannot be read",
        ),
    ] {
        assert_eq!(refusal(&format!("{FRONT}.table a b y\n{rows}.end\n")), said);
    }
    let unequal = |name: &str| {
        format!("line 1: the input `{name}` has 2 values, and others have 3: on a sheet all have the same")
    };
    for (text, said) in [
        (".inputs a b\n.outputs y\n.mv a 3\n.table a b y\n.default 0\n", unequal("b").as_str()),
        (".inputs a b\n.outputs y\n.mv w 3\n.table a w\n0 2\n1 0\n.table w b y\n.default 0\n", unequal("a").as_str()),
        (".mv a 10\n", "line 1: a signal can have 1 to 9 values, and not `10`"),
        (".mv a,b\n", "line 1: `.mv` has names of signals with commas between, and then how many values they have"),
        (".mv a 3 low high\n", "line 1: there are 2 names for 3 values"),
        (".mv a 3\n.mv a 2\n", "line 2: `a` has its values twice"),
        (".inputs a b\n.outputs y z\n.table a b -> y z\n0 0 0 0\n", "line 3: this table has 2 outputs, and a gate has one"),
        (
            ".inputs a b c d e f g h\n.outputs y\n.mv a,b,c,d,e,f,g,h,y 3\n.table a b y\n.default 0\n",
            "line 1: 3 levels and 8 inputs are over 4096 rows, and a sheet has no more",
        ),
    ] {
        assert_eq!(refusal(text), said);
    }
}
