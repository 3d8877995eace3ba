//! BLIF files as other programs write them.

use formats::{net_of_blif, table_of_blif};

/// The gate lines of the net of a model with these lines behind `.inputs` and `.outputs`.
fn gates(inputs: &str, lines: &str) -> String {
    let text = format!(".model m\n.inputs {inputs}\n.outputs y\n{lines}.end\n");
    let net = net_of_blif(text.as_bytes(), None)
        .unwrap_or_else(|fault| panic!("{fault}\n{text}"))
        .sheet;
    let lines: Vec<&str> = net.as_str().lines().skip(4).collect();
    lines.join("/")
}

/// The line and the words of a refusal.
fn refusal(text: &str) -> String {
    net_of_blif(text.as_bytes(), None)
        .expect_err("a refusal")
        .to_string()
}

#[test]
fn covers() {
    let and = "a b 0001";
    assert_eq!(gates("a b", ".names a b y\n11 1\n"), and);
    // the other polarity, don't-cares, rows that overlap, rows that are there twice
    assert_eq!(gates("a b", ".names a b y\n0- 0\n-0 0\n"), and);
    assert_eq!(gates("a b", ".names a b y\n1- 1\n-1 1\n"), "a b 0111");
    assert_eq!(gates("a b", ".names a b y\n01 1\n10 1\n01 1\n"), "a b 0110");
    assert_eq!(gates("a b", ".names a b y\n-- 1\n"), "a b 1111");
    assert_eq!(gates("a b", ".names a b y\n-- 0\n"), "a b 0000");
    assert_eq!(gates("a b", ".names a b y\n"), "a b 0000");
    // the inputs of a table in the order of the table, and of the sheet in that of `.inputs`
    assert_eq!(gates("a b", ".names b a y\n10 1\n"), "b a 0010");
}

#[test]
fn tables_of_one_input_and_constants() {
    // inverters before, between and after gates
    assert_eq!(
        gates("a b", ".names a n\n0 1\n.names n b y\n11 1\n"),
        "a b 0100"
    );
    assert_eq!(
        gates("a b", ".names a b n\n11 1\n.names n y\n0 1\n"),
        "a b 1110"
    );
    let chain = ".names a n\n1 1\n.names n o\n1 0\n.names b o p\n11 1\n.names p q\n0 1\n.names q c y\n11 1\n";
    assert_eq!(gates("a b c", chain), "b a 0010/1 c 0100");
    // the output is an input, its inverse, or a constant: a gate of two inputs all the same
    assert_eq!(gates("a b c", ".names b y\n1 1\n"), "a b 0101");
    assert_eq!(gates("a b c", ".names a y\n0 1\n"), "a b 1100");
    assert_eq!(gates("a b c", ".names c y\n0 1\n"), "a c 1010");
    assert_eq!(gates("a b c", ".names y\n1\n"), "a b 1111");
    assert_eq!(gates("a b c", ".names y\n"), "a b 0000");
    assert_eq!(gates("a b c", ".names y\n0\n"), "a b 0000");
    // a constant may be read twice, and what reads a constant is a table of one input
    let constants =
        ".names one\n1\n.names a one p\n11 1\n.names b one q\n10 1\n01 1\n.names p q y\n11 1\n";
    assert_eq!(gates("a b", constants), "a b 0010");
    assert_eq!(
        gates(
            "a b",
            ".names $false\n.names $false $false x\n00 1\n.names a x n\n11 1\n.names n b y\n11 1\n"
        ),
        "a b 0001"
    );
    let direct = ".inputs a b\n.outputs b\n";
    assert_eq!(
        net_of_blif(direct.as_bytes(), None)
            .expect("a net")
            .sheet
            .as_str()
            .lines()
            .last(),
        Some("a b 0101")
    );
}

#[test]
fn tables_of_more_inputs_are_split_by_the_library() {
    assert_eq!(
        gates("a b c", ".names a b c y\n111 1\n"),
        "b c 0001/a 1 0001"
    );
    // one that does not matter is left out with all that it depends on
    assert_eq!(
        gates("a b c d", ".names a b x\n11 1\n.names x c d y\n-11 1\n"),
        "c d 0001"
    );
    assert_eq!(
        refusal(".inputs a b c\n.outputs y\n.names a b c y\n11- 1\n1-1 1\n-11 1\n"),
        "line 3: the table of `y` has 3 inputs and is no tree of two-input gates itself"
    );
    // a constant makes three inputs two
    assert_eq!(
        gates(
            "a b",
            ".names one\n1\n.names a b one y\n11- 1\n1-1 1\n-11 1\n"
        ),
        "a b 0111"
    );
}

#[test]
fn files_as_they_are() {
    let text = "\
# a comment\r
.model top.level
.inputs Data[0] \\
  Data[1] \\
  $auto$17
.inputs ink
.outputs \\out[0]
.clock clk
.names ink $auto$17 n1 # behind
01 1
.names Data[0] Data[1] n2\t
1- 1
-1 1
.names n1 n2 \\out[0]

10 1
.end
";
    let read = net_of_blif(text.replace('\n', "\r\n").as_bytes(), None).expect("a net");
    assert_eq!(
        read.sheet.as_str(),
        "levels inputs\n2 4\ndata0 data1 auto17 xink\nleft right table\nxink auto17 0100\ndata0 data1 0111\n1 2 0010\n"
    );
    let renamed: Vec<String> = read
        .renamed
        .iter()
        .map(|(own, name)| format!("{own} {name}"))
        .collect();
    assert_eq!(
        renamed,
        [
            "Data[0] data0",
            "Data[1] data1",
            "$auto$17 auto17",
            "ink xink"
        ]
    );
    assert!(read.notes.is_empty());
}

#[test]
fn one_of_several_outputs() {
    let text =
        ".inputs a b c\n.outputs x y\n.names a b x\n11 1\n.names b c y\n10 1\n.names x y z\n11 1\n";
    assert_eq!(
        refusal(text),
        "line 2: the model has 2 outputs, and a net has one; `--output NAME` takes one of them: `x`, `y`"
    );
    let read = net_of_blif(text.as_bytes(), Some("y")).expect("a net");
    assert_eq!(
        read.sheet.as_str(),
        "levels inputs\n2 2\nb c\nleft right table\nb c 0010\n"
    );
    assert_eq!(
        read.notes,
        ["2 tables are left out, `x` first: the output does not read them"]
    );
    // fewer than two inputs are made up to two
    let text =
        ".inputs a b c\n.outputs x y z\n.names c x\n0 1\n.names y\n1\n.names a b c z\n111 1\n";
    for (output, gate) in [
        ("x", "a c\nleft right table\na c 1010\n"),
        ("y", "a b\nleft right table\na b 1111\n"),
    ] {
        let read = net_of_blif(text.as_bytes(), Some(output)).expect("a net");
        assert_eq!(read.sheet.as_str(), format!("levels inputs\n2 2\n{gate}"));
    }
    let text = ".inputs a b c\n.outputs x y\n.names a b x\n11 1\n";
    let fault = net_of_blif(text.as_bytes(), Some("w")).expect_err("a refusal");
    assert_eq!(
        fault.to_string(),
        "line 2: there is no output `w`; there is `x`, `y`"
    );
}

#[test]
fn a_table_of_any_wiring() {
    // the majority, with inputs that are read twice
    let text = ".inputs a b c\n.outputs y\n.names a b x\n11 1\n.names a b z\n1- 1\n-1 1\n.names z c w\n11 1\n.names x w y\n1- 1\n-1 1\n";
    assert_eq!(
        refusal(text),
        "line 5: `a` is read here and in line 3, and a tree uses each wire once"
    );
    assert_eq!(
        table_of_blif(text.as_bytes(), None)
            .expect("a table")
            .sheet
            .inks(),
        [0, 0, 0, 1, 0, 1, 1, 1]
    );
}

#[test]
fn refusals_give_line_and_reason() {
    let front = ".model m\n.inputs a b\n.outputs y\n";
    for (lines, said) in [
        (".latch a y re clk 0\n", "line 4: a net has no memory: a model with latches cannot be read"),
        (".subckt inv a=a y=y\n", "line 4: a model inside a model cannot be read: flatten the design first"),
        (".gate and2 a=a b=b o=y\n", "line 4: a gate of a library cannot be read: write the design as tables first (`.names`)"),
        (".exdc\n", "line 4: don't-cares of a model cannot be read; a PLA can have them"),
        (".nonsense\n", "line 4: `.nonsense` is no command that can be read here"),
        ("11 1\n", "line 4: `11` is in no table: a row belongs below `.names` or `.table`"),
        (".names a b y\n11 1\n.end\n.model n\n", "line 7: the file goes on after `.end`: it has more than one model, and only one can be read"),
        (".names a b y\n.model n\n", "line 5: this is a second model, and only one can be read: flatten the design first"),
        (".names a b y\n1 1\n", "line 5: this row should be 2 digits for the inputs, a space, and one for the output"),
        (".names a b y\n11\n", "line 5: this row should be 2 digits for the inputs, a space, and one for the output"),
        (".names a b y\n1x 1\n", "line 5: an input of a row is 0, 1 or -"),
        (".names a b y\n11 -\n", "line 5: the output of a row is 0 or 1"),
        (".names a b y\n11 1\n00 0\n", "line 6: all rows of a table have the same output, 0 or 1, and this one has the other"),
        (".names a b x\n11 1\n", "line 3: `y` is no input, and has no table"),
        (".names a z y\n11 1\n", "line 4: `z` is no input, and has no table"),
        (".names a y y\n11 1\n", "line 4: `y` depends on itself"),
        (".names a x y\n11 1\n.names b y x\n11 1\n", "line 6: `y` depends on itself"),
        (".names a b y\n11 1\n.names a b y\n11 1\n", "line 6: `y` has a second table here"),
        (".names b a\n1 1\n", "line 4: `a` is an input, and has a table too"),
        (".names a a y\n11 1\n", "line 4: `a` is read here and in line 4, and a tree uses each wire once"),
        (".names a b x\n11 1\n.names x n\n0 1\n.names x n y\n11 1\n", "line 8: `x` is read here and in line 6, and a tree uses each wire once"),
        (".names\n", "line 4: this table has 0 outputs, and a gate has one"),
        (".inputs a\n", "line 4: the input `a` is listed twice"),
    ] {
        assert_eq!(refusal(&format!("{front}{lines}")), said);
    }
    for (text, said) in [
        ("", "line 1: the model has no `.outputs`"),
        (
            ".inputs a\n.outputs y\n.names a y\n1 1\n",
            "line 1: a sheet has 2 to 12 inputs, and not 1",
        ),
        (
            ".outputs y\n.names y\n1\n",
            "line 1: a sheet has 2 to 12 inputs, and not 0",
        ),
        (
            ".outputs y\n.inputs a b c d e f g h i j k l m\n.names a b y\n11 1\n",
            "line 2: a sheet has 2 to 12 inputs, and not 13",
        ),
    ] {
        assert_eq!(refusal(text), said);
    }
    // any bytes are refused, or read
    for byte in 0..=255 {
        let text = [
            b".inputs a b\n.outputs y\n.names a b y\n1",
            &[byte][..],
            b" 1\n",
        ]
        .concat();
        net_of_blif(&text, None).ok();
    }
}

/// A long chain of buffers, which no recursion could follow.
#[test]
fn a_long_chain() {
    let mut lines = ".names a b n0\n11 1\n".to_string();
    for k in 1..100_000 {
        lines += &format!(".names n{} n{k}\n0 1\n", k - 1);
    }
    lines += ".names n99999 y\n1 1\n";
    assert_eq!(gates("a b", &lines), "a b 1110");
}

/// More tables than are evaluated at once.
#[test]
fn too_many_tables() {
    let names: Vec<String> = (0..12).map(|k| format!("i{k}")).collect();
    let mut text = format!(
        ".inputs {}\n.outputs y\n.names i0 i1 n0\n11 1\n",
        names.join(" ")
    );
    for k in 1..70_000 {
        text += &format!(".names n{} n{k}\n0 1\n", k - 1);
    }
    text += ".names n69999 y\n1 1\n";
    assert_eq!(
        refusal(&text),
        "line 2: the output `y` depends on 70001 tables, which are too many"
    );
}
