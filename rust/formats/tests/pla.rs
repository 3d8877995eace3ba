//! PLA files as espresso and others write them.

use formats::{pla, table_of_pla};
use sitgurp::Table;

/// The inks of a PLA, `-` for an open one.
fn inks(text: &str) -> String {
    let read =
        table_of_pla(text.as_bytes(), None).unwrap_or_else(|fault| panic!("{fault}\n{text}"));
    read.sheet
        .inks()
        .iter()
        .map(|&ink| ['0', '1', '-'][usize::from(ink)])
        .collect()
}

fn refusal(text: &str) -> String {
    table_of_pla(text.as_bytes(), None)
        .expect_err("a refusal")
        .to_string()
}

#[test]
fn what_is_written() {
    let table = Table::from_rule(2, &["a", "b"], |levels| {
        [0, 1, 2, 1][usize::from(2 * levels[0] + levels[1])]
    });
    let text = ".i 2\n.o 1\n.ilb a b\n.ob ink\n.type fd\n.p 4\n00 0\n01 1\n10 -\n11 1\n.e\n";
    assert_eq!(pla(&table.expect("a table")).as_deref(), Some(text));
}

#[test]
fn types_and_cubes() {
    let front = ".i 3\n.o 1\n";
    for (lines, all) in [
        ("", "00000000"),
        ("1-- 1\n", "00001111"),
        ("1-- 1\n-11 1\n", "00011111"),
        (".type f\n1-- 1\n01- -\n00- 0\n", "00001111"),
        ("1-- 1\n01- -\n00- 0\n", "00--1111"),
        ("1-- 1\n01- 2\n00- ~\n", "00--1111"),
        (".type fr\n1-- 1\n01- -\n00- 0\n", "00--1111"),
        (".type fr\n11- 1\n00- 0\n", "00----11"),
        (".type fdr\n1-- 1\n01- -\n00- 0\n", "00--1111"),
        ("1 - - | 1\n", "00001111"),
        ("1--1\n", "00001111"),
        ("122 4 # espresso's digits\n", "00001111"),
        (".p 1\n1-- 1\n.e\nwhatever\n", "00001111"),
    ] {
        assert_eq!(inks(&format!("{front}{lines}")), all, "{lines}");
    }
    let read = table_of_pla(b".i 2\n.o 1\n.ilb A b\n11 1\n00 -\n", None).expect("a table");
    assert_eq!(read.sheet.names(), ["a", "b"]);
    assert_eq!(read.renamed, [("A".to_string(), "a".to_string())]);
    assert_eq!(
        read.notes,
        ["1 of 4 cells are don't-cares, and open in the table; `fill` finds inks for them"]
    );
    assert_eq!(
        table_of_pla(b".i 2\n.o 1\n", None)
            .expect("a table")
            .sheet
            .names(),
        ["x0", "x1"]
    );
}

#[test]
fn one_of_several_outputs() {
    let text = b".i 2\n.o 2\n.ob x y\n11 11\n01 01\n";
    let inks = |output| table_of_pla(text, Some(output)).map(|read| read.sheet.inks().to_vec());
    assert_eq!(inks("x"), Ok(vec![0, 0, 0, 1]));
    assert_eq!(inks("y"), Ok(vec![0, 1, 0, 1]));
    assert_eq!(
        inks("1").expect_err("named").to_string(),
        "line 2: there is no output `1`; there is `x`, `y`"
    );
    let read = table_of_pla(b".i 2\n.o 2\n11 11\n01 01\n", Some("2")).expect("a table");
    assert_eq!(read.sheet.inks(), [0, 1, 0, 1]);
}

#[test]
fn refusals_give_line_and_reason() {
    for (text, said) in [
        ("", "line 1: `.i` is missing, which says how many there are"),
        (".i 2\n11 1\n", "line 1: `.o` is missing, which says how many there are"),
        (".i\n.o 1\n", "line 1: `.i` has one number behind it"),
        (".i 13\n.o 1\n", "line 1: a sheet of two levels has 2 to 12 inputs, and this PLA has 13"),
        (".i 1\n.o 1\n", "line 1: a sheet of two levels has 2 to 12 inputs, and this PLA has 1"),
        (".i 2\n.o 2\n", "line 2: the PLA has 2 outputs, and a table has one; `--output NAME` takes one of them: 1 to 2"),
        (".i 2\n.o 0\n", "line 2: a PLA without outputs has no table"),
        (".i 2\n.o 1\n.ilb a\n", "line 3: `.ilb` names 1, and there are 2"),
        (".i 2\n.o 1\n.ilb a a\n", "line 3: the input `a` is listed twice"),
        (".i 2\n.o 1\n.type r\n", "line 3: the type of a PLA is f, fd, fr or fdr"),
        (".i 2\n.o 1\n.mv 3 1 2\n", "line 3: a PLA with `.mv` cannot be read: it is no plain table of zeros and ones"),
        (".i 2\n.o 1\n.x\n", "line 3: `.x` is no command that can be read here"),
        (".i 2\n.o 1\n1 1\n", "line 3: this row has 2 digits, and 2 for the inputs and 1 for the outputs are due"),
        (".i 2\n.o 1\n1x 1\n", "line 3: an input of a row is 0, 1 or -"),
        (".i 2\n.o 1\n11 x\n", "line 3: an output of a row is 0, 1, - or ~"),
        (".i 2\n.o 1\n.type fr\n1- 1\n\n-1 0\n", "line 6: at `11` this row has 0, and line 4 has 1"),
        (".i 2\n.o 1\n1- 1\n-1 -\n", "line 4: at `11` this row has -, and line 3 has 1"),
        (".i 2\n.o 1\n.type fdr\n1- 1\n00 0\n.e\n", "line 7: no row holds `01`, and a PLA of type fdr lists everything"),
    ] {
        assert_eq!(refusal(text), said);
    }
}
