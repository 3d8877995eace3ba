//! Refusals 1 to 8 and 26: the number, the place and the sheet named, in every call that
//! reads the sheet. In the sheets below `/` is a line feed and `^` marks the place
//! (it is not part of the sheet).

use crate::common::*;
use reference::{check, make_program, settle_program, Lister, Refusal};

const NET: &str = "levels inputs/2 3/a b c/left right table/a b 0110/1 c 0001/";
const TABLE: &str = "levels inputs/2 2/a b ink/0 0 0/0 1 0/1 0 0/1 1 1/";

/// Returns the sheet and the marked place.
fn marked(text: &str) -> (Vec<u8>, u64) {
    let place = text.find('^').expect("a marked place");
    (lines(&text.replace('^', "")), place as u64)
}

/// Every call that reads a net sheet refuses it in the same way.
fn assert_net_refused(sheet: &[u8], refusal: Refusal, why: &str) {
    assert_eq!(settled(sheet), Err(refusal), "{why}");
    assert_eq!(table_written(sheet), Err(refusal), "{why}");
    assert_eq!(Lister::start(sheet).err(), Some(refusal), "{why}");
    // The net is judged first, even if the table sheet is refused too.
    for table in [TABLE, ""] {
        let verdict = check(sheet, &lines(table), &mut [7; CELLS]);
        assert_eq!(verdict, Err(refusal), "{why}");
    }
    let printed = format!("number place\n{} {}\n", refusal.number, refusal.place);
    assert_eq!(settle_program(sheet), printed.into_bytes(), "{why}");
}

/// Every call that reads a table sheet refuses it in the same way.
fn assert_table_refused(sheet: &[u8], refusal: Refusal, why: &str) {
    assert_eq!(made(sheet), Err(refusal), "{why}");
    let verdict = check(&lines(NET), sheet, &mut [7; CELLS]);
    assert_eq!(verdict, Err(refusal), "{why}");
    let printed = format!("number place\n{} {}\n", refusal.number, refusal.place);
    assert_eq!(make_program(sheet), printed.into_bytes(), "{why}");
}

fn assert_nets_refused(number: u8, texts: &[&str]) {
    for text in texts {
        let (sheet, place) = marked(text);
        assert_net_refused(&sheet, of_net(number, place), text);
    }
}

fn assert_tables_refused(number: u8, texts: &[&str]) {
    for text in texts {
        let (sheet, place) = marked(text);
        assert_table_refused(&sheet, of_table(number, place), text);
    }
}

/// Checks sheets that have a fault in the lines that both kinds share.
fn assert_both_refused(number: u8, texts: &[&str]) {
    assert_nets_refused(number, texts);
    assert_tables_refused(number, texts);
}

#[test]
fn the_sheets_without_a_fault_are_accepted() {
    assert!(settled(&lines(NET)).is_ok());
    assert!(made(&lines(TABLE)).is_ok());
}

#[test]
fn refusal_1_in_the_first_line() {
    assert_both_refused(
        1,
        &[
            "^",
            "^ ",
            "^/",
            "^lev",
            "^level inputs/2 3/",
            "^levelsx inputs/2 3/",
            "^Levels inputs/2 3/",
            "^ levels inputs/2 3/",
            "^/levels inputs/2 3/",
            "^levels\tinputs/2 3/",
            "levels^",
            "levels^/inputs/2 3/",
            "levels ^",
            "levels ^ inputs/2 3/",
            "levels ^/2 3/",
            "levels ^input/2 3/",
            "levels ^inputs\r/2 3/",
            "levels ^inputs\0/2 3/",
            "levels inputs^",
            "levels inputs^ /2 3/",
            "levels inputs^ 2 3/",
        ],
    );
}

#[test]
fn refusal_1_in_the_values_and_names_that_both_share() {
    assert_both_refused(
        1,
        &[
            "levels inputs/^",
            "levels inputs/^ 2 3/",
            "levels inputs/^/2 3/",
            "levels inputs/2^",
            "levels inputs/2^/3/",
            "levels inputs/2 ^",
            "levels inputs/2 ^ 3/",
            "levels inputs/2 ^/",
            "levels inputs/2 3^",
            "levels inputs/2 3^ /",
            "levels inputs/2 3^ a b c/",
            "levels inputs/2 3/^",
            "levels inputs/2 3/^ a b c/",
            "levels inputs/2 3/^/a b c/",
            "levels inputs/2 3/a^",
            "levels inputs/2 3/a^/",
            "levels inputs/2 3/a ^ b c/",
            "levels inputs/2 3/a ^/",
        ],
    );
}

#[test]
fn refusal_1_in_the_lines_before_the_gates() {
    assert_nets_refused(
        1,
        &[
            // Names: too few, too many, cut.
            "levels inputs/2 3/a b^/left right table/a b 0110/1 c 0001/",
            "levels inputs/2 3/a b c^ d/left right table/a b 0110/1 c 0001/",
            "levels inputs/2 3/a b c^ /left right table/a b 0110/1 c 0001/",
            "levels inputs/2 3/a b c^ ink/0 0 0 0/",
            "levels inputs/2 3/a b c^",
            // Line 4.
            "levels inputs/2 3/a b c/^",
            "levels inputs/2 3/a b c/^/left right table/a b 0110/1 c 0001/",
            "levels inputs/2 3/a b c/^lef right table/a b 0110/1 c 0001/",
            "levels inputs/2 3/a b c/left ^rights table/a b 0110/1 c 0001/",
            "levels inputs/2 3/a b c/left right^/table/a b 0110/1 c 0001/",
            "levels inputs/2 3/a b c/left right ^tables/a b 0110/1 c 0001/",
            "levels inputs/2 3/a b c/left right ^table\r/a b 0110/1 c 0001/",
            "levels inputs/2 3/a b c/left right table^ /a b 0110/1 c 0001/",
            "levels inputs/2 3/a b c/left right table^",
        ],
    );
}

#[test]
fn refusal_1_in_the_gate_lines() {
    assert_nets_refused(
        1,
        &[
            "levels inputs/2 3/a b c/left right table/^",
            "levels inputs/2 3/a b c/left right table/^ a b 0110/1 c 0001/",
            "levels inputs/2 3/a b c/left right table/^/a b 0110/1 c 0001/",
            "levels inputs/2 3/a b c/left right table/a^/b 0110/1 c 0001/",
            "levels inputs/2 3/a b c/left right table/a ^ b 0110/1 c 0001/",
            "levels inputs/2 3/a b c/left right table/a ^/",
            "levels inputs/2 3/a b c/left right table/a b^/0110/1 c 0001/",
            "levels inputs/2 3/a b c/left right table/a b ^ 0110/1 c 0001/",
            "levels inputs/2 3/a b c/left right table/a b ^/1 c 0001/",
            "levels inputs/2 3/a b c/left right table/a b 0110^ /1 c 0001/",
            "levels inputs/2 3/a b c/left right table/a b 0110^ 1 c 0001/",
            "levels inputs/2 3/a b c/left right table/a b 0110/^/1 c 0001/",
            "levels inputs/2 3/a b c/left right table/a b 0110/^/",
            "levels inputs/2 3/a b c/left right table/a b 0110/^ ",
            "levels inputs/2 3/a b c/left right table/a b 0110/1^",
            "levels inputs/2 3/a b c/left right table/a b 0110/1 c^",
            // The end.
            "levels inputs/2 3/a b c/left right table/a b 0110/1 c 0001^",
            "levels inputs/2 3/a b c/left right table/a b 0110/1 c 0001/^/",
            "levels inputs/2 3/a b c/left right table/a b 0110/1 c 0001/^ ",
            "levels inputs/2 3/a b c/left right table/a b 0110/1 c 0001/^\0",
            "levels inputs/2 3/a b c/left right table/a b 0110/1 c 0001/^2 a 0001/",
        ],
    );
}

#[test]
fn refusal_1_in_a_table_sheet() {
    assert_tables_refused(
        1,
        &[
            // The last field of line 3.
            "levels inputs/2 2/a b^/0 0 0/0 1 0/1 0 0/1 1 1/",
            "levels inputs/2 2/a b ^/0 0 0/0 1 0/1 0 0/1 1 1/",
            "levels inputs/2 2/a b ^c ink/0 0 0/0 1 0/1 0 0/1 1 1/",
            "levels inputs/2 2/a b ^inks/0 0 0/0 1 0/1 0 0/1 1 1/",
            "levels inputs/2 2/a b ^Ink/0 0 0/0 1 0/1 0 0/1 1 1/",
            "levels inputs/2 2/a b ^ink\r/0 0 0/0 1 0/1 0 0/1 1 1/",
            "levels inputs/2 2/a b ink^ /0 0 0/0 1 0/1 0 0/1 1 1/",
            "levels inputs/2 2/a b ink^",
            // Rows.
            "levels inputs/2 2/a b ink/^",
            "levels inputs/2 2/a b ink/^ 0 0 0/0 1 0/1 0 0/1 1 1/",
            "levels inputs/2 2/a b ink/^/0 0 0/0 1 0/1 0 0/1 1 1/",
            "levels inputs/2 2/a b ink/0^/",
            "levels inputs/2 2/a b ink/0 ^ 0 0/0 1 0/1 0 0/1 1 1/",
            "levels inputs/2 2/a b ink/0 0^/0 1 0/1 0 0/1 1 1/",
            "levels inputs/2 2/a b ink/0 0 ^/0 1 0/1 0 0/1 1 1/",
            "levels inputs/2 2/a b ink/0 0 ^ 0/0 1 0/1 0 0/1 1 1/",
            "levels inputs/2 2/a b ink/0 0 0^ /0 1 0/1 0 0/1 1 1/",
            "levels inputs/2 2/a b ink/0 0 0^ 0 1 0/1 0 0/1 1 1/",
            "levels inputs/2 2/a b ink/0 0 0/^/0 1 0/1 0 0/1 1 1/",
            // The end.
            "levels inputs/2 2/a b ink/0 0 0/0 1 0/1 0 0/^",
            "levels inputs/2 2/a b ink/0 0 0/0 1 0/1 0 0/1 1 1^",
            "levels inputs/2 2/a b ink/0 0 -^ /0 1 0/1 0 0/1 1 1/",
            "levels inputs/2 2/a b ink/0 0 0/0 1 0/1 0 0/1 1 -^",
            "levels inputs/2 2/a b ink/0 0 0/0 1 0/1 0 0/1 1 1/^/",
            "levels inputs/2 2/a b ink/0 0 0/0 1 0/1 0 0/1 1 1/^1 1 1/",
            "levels inputs/2 2/a b ink/0 0 0/0 1 0/1 0 0/1 1 1/^\0",
        ],
    );
}

#[test]
fn refusal_2_levels() {
    assert_both_refused(
        2,
        &[
            "levels inputs/^0 3/a b c/",
            "levels inputs/^1 3/a b c/",
            "levels inputs/^10 3/a b c/",
            "levels inputs/^02 3/a b c/",
            "levels inputs/^22 3/a b c/",
            "levels inputs/^x 3/a b c/",
            "levels inputs/^-2 3/a b c/",
            "levels inputs/^+2 3/a b c/",
            "levels inputs/^2.0 3/a b c/",
            "levels inputs/^2\t3/a b c/",
            "levels inputs/^2\r/3/a b c/",
            "levels inputs/^123456789012345678901234567890 3/a b c/",
            // The field is judged before the byte after it, even at the end.
            "levels inputs/^1/3/",
            "levels inputs/^1",
        ],
    );
}

#[test]
fn refusal_3_inputs() {
    assert_both_refused(
        3,
        &[
            "levels inputs/2 ^0/a b c/",
            "levels inputs/2 ^1/a b c/",
            "levels inputs/2 ^13/a b c/",
            "levels inputs/2 ^011/a b c/",
            "levels inputs/2 ^02/a b c/",
            "levels inputs/2 ^2x/a b c/",
            "levels inputs/2 ^3\r/a b c/",
            "levels inputs/2 ^3\t/a b c/",
            "levels inputs/2 ^3\0/a b c/",
            "levels inputs/2 ^-3/a b c/",
            // 3 more than 2 to the 32 and to the 64.
            "levels inputs/2 ^4294967299/a b c/",
            "levels inputs/2 ^18446744073709551619/a b c/",
            "levels inputs/2 ^123456789012345678901234567890/a b c/",
            // Over 4,096 cells.
            "levels inputs/3 ^8/a b c/",
            "levels inputs/4 ^7/a b c/",
            "levels inputs/5 ^6/a b c/",
            "levels inputs/6 ^5/a b c/",
            "levels inputs/7 ^5/a b c/",
            "levels inputs/8 ^5/a b c/",
            "levels inputs/9 ^4/a b c/",
            "levels inputs/9 ^12/a b c/",
            // The field is judged before the byte after it.
            "levels inputs/9 ^4 /",
            "levels inputs/9 ^4",
        ],
    );
}

#[test]
fn refusal_4_names() {
    assert_both_refused(
        4,
        &[
            "levels inputs/2 3/^A b c",
            "levels inputs/2 3/^1 b c",
            "levels inputs/2 3/^1a b c",
            "levels inputs/2 3/^aB b c",
            "levels inputs/2 3/^a_b b c",
            "levels inputs/2 3/^a\tb c d",
            "levels inputs/2 3/^a\0 b c",
            "levels inputs/2 3/^ninebytes b c",
            "levels inputs/2 3/^`a b c",
            "levels inputs/2 3/^{a b c",
            "levels inputs/2 3/^a: b c",
            "levels inputs/2 3/^ink b c",
            "levels inputs/2 3/a b ^ink/",
            "levels inputs/2 3/a ^a c",
            "levels inputs/2 3/a b ^a",
            "levels inputs/2 3/a b ^b/",
            "levels inputs/2 3/a b ^c\r/",
            // The field is judged before the byte after it.
            "levels inputs/2 3/a ^ink/",
            "levels inputs/2 3/a ^A/",
        ],
    );
    assert_tables_refused(4, &["levels inputs/2 2/a ^ink/0 0 0/0 1 0/1 0 0/1 1 1/"]);
}

#[test]
fn refusal_4_bytes_outside_ascii() {
    for byte in [0x80, 0xe4, 0xff] {
        let mut sheet = lines("levels inputs/2 2/a b");
        sheet.push(byte);
        sheet.extend(lines(" ink/"));
        assert_net_refused(&sheet, of_net(4, 20), "a name");
        assert_table_refused(&sheet, of_table(4, 20), "a name");
    }
}

#[test]
fn good_names() {
    let good = [
        "left right table",
        "levels inputs inks",
        "in i ik",
        "a2345678 z9 a",
    ];
    for names in good {
        let [x, y, z] = names.split(' ').collect::<Vec<_>>()[..] else {
            panic!("three names");
        };
        let sheet = net_sheet(2, names, &format!("{y} {z} 0110/{x} 1 0110"));
        assert_eq!(settled(&sheet), Ok(sheet.clone()), "{names}");
        let table = table_written(&sheet).expect("a net sheet");
        assert_eq!(made(&table), Ok(sheet), "{names}");
    }
}

#[test]
fn refusal_5_rows_out_of_count() {
    assert_tables_refused(
        5,
        &[
            "levels inputs/2 2/a b ink/^1 0 0/0 1 0/1 0 0/1 1 1/",
            "levels inputs/2 2/a b ink/0 ^1 0/0 0 0/1 0 0/1 1 1/",
            "levels inputs/2 2/a b ink/^00 0 0/0 1 0/1 0 0/1 1 1/",
            "levels inputs/2 2/a b ink/0 ^0\r 0/0 1 0/1 0 0/1 1 1/",
            "levels inputs/2 2/a b ink/^x 0 0/0 1 0/1 0 0/1 1 1/",
            "levels inputs/2 2/a b ink/^-0 0 0/0 1 0/1 0 0/1 1 1/",
            "levels inputs/2 2/a b ink/0 ^- 0/0 1 0/1 0 0/1 1 1/",
            // A repeated row, a missing row, a level that is not one.
            "levels inputs/2 2/a b ink/0 0 0/0 ^0 0/1 0 0/1 1 1/",
            "levels inputs/2 2/a b ink/0 0 0/^1 0 0/1 1 1/",
            "levels inputs/2 2/a b ink/0 0 0/0 1 0/1 0 0/1 ^2 1/",
            "levels inputs/2 2/a b ink/0 0 0/0 1 0/1 0 0/^2 1 1/",
            // Judged before the byte after it.
            "levels inputs/2 2/a b ink/^1/",
            "levels inputs/2 2/a b ink/0 ^1",
        ],
    );
}

#[test]
fn refusal_6_inks() {
    assert_tables_refused(
        6,
        &[
            "levels inputs/2 2/a b ink/0 0 ^2/0 1 0/1 0 0/1 1 1/",
            "levels inputs/2 2/a b ink/0 0 ^00/0 1 0/1 0 0/1 1 1/",
            "levels inputs/2 2/a b ink/0 0 ^01/0 1 0/1 0 0/1 1 1/",
            "levels inputs/2 2/a b ink/0 0 ^x/0 1 0/1 0 0/1 1 1/",
            // The sign of an open cell is one byte, and only an ink may be it.
            "levels inputs/2 2/a b ink/0 0 ^--/0 1 0/1 0 0/1 1 1/",
            "levels inputs/2 2/a b ink/0 0 ^-0/0 1 0/1 0 0/1 1 1/",
            "levels inputs/2 2/a b ink/0 0 ^0-/0 1 0/1 0 0/1 1 1/",
            "levels inputs/2 2/a b ink/0 0 -/0 1 ^-\r/1 0 0/1 1 1/",
            "levels inputs/9 2/a b ink/0 0 ^9/",
            "levels inputs/2 2/a b ink/0 0 ^0\r/0 1 0/1 0 0/1 1 1/",
            "levels inputs/2 2/a b ink/0 0 ^:/0 1 0/1 0 0/1 1 1/",
            "levels inputs/2 2/a b ink/0 0 0/0 1 0/1 0 0/1 1 ^2",
            "levels inputs/2 2/a b ink/0 0 ^9 0 1 0/1 0 0/1 1 1/",
            "levels inputs/3 2/a b ink/0 0 2/0 1 ^3/",
        ],
    );
}

#[test]
fn refusal_6_gate_tables() {
    assert_nets_refused(
        6,
        &[
            "levels inputs/2 3/a b c/left right table/a b ^011/1 c 0001/",
            "levels inputs/2 3/a b c/left right table/a b ^01101/1 c 0001/",
            "levels inputs/2 3/a b c/left right table/a b ^0120/1 c 0001/",
            "levels inputs/2 3/a b c/left right table/a b ^011x/1 c 0001/",
            "levels inputs/2 3/a b c/left right table/a b ^0110\r/1 c 0001/",
            "levels inputs/2 3/a b c/left right table/a b ^01 10/1 c 0001/",
            "levels inputs/2 3/a b c/left right table/a b ^0/",
            "levels inputs/2 3/a b c/left right table/a b ^-/",
            "levels inputs/2 3/a b c/left right table/a b ^011-/1 c 0001/",
            "levels inputs/2 3/a b c/left right table/a b 0110/1 c ^0002/",
            "levels inputs/2 3/a b c/left right table/a b 0110/1 c ^00",
            "levels inputs/3 2/a b/left right table/a b ^012345678/",
            "levels inputs/9 2/a b/left right table/a b ^9/",
        ],
    );
}

#[test]
fn refusal_7_no_such_reference() {
    assert_nets_refused(
        7,
        &[
            "levels inputs/2 3/a b c/left right table/^d b 0110/1 c 0001/",
            "levels inputs/2 3/a b c/left right table/^ink b 0110/1 c 0001/",
            "levels inputs/2 3/a b c/left right table/^A b 0110/1 c 0001/",
            "levels inputs/2 3/a b c/left right table/^a\r b 0110/1 c 0001/",
            "levels inputs/2 3/a b c/left right table/^aa b 0110/1 c 0001/",
            // A gate that is not earlier, or something that is not a gate's number as written.
            "levels inputs/2 3/a b c/left right table/^1 b 0110/a c 0001/",
            "levels inputs/2 3/a b c/left right table/a ^1 0110/b c 0001/",
            "levels inputs/2 3/a b c/left right table/^2 b 0110/1 c 0001/",
            "levels inputs/2 3/a b c/left right table/^0 b 0110/1 c 0001/",
            "levels inputs/2 3/a b c/left right table/a b 0110/^0 c 0001/",
            "levels inputs/2 3/a b c/left right table/a b 0110/^01 c 0001/",
            "levels inputs/2 3/a b c/left right table/a b 0110/^2 c 0001/",
            "levels inputs/2 3/a b c/left right table/a b 0110/c ^3 0001/",
            "levels inputs/2 3/a b c/left right table/a b 0110/^+1 c 0001/",
            "levels inputs/2 3/a b c/left right table/a b 0110/^-1 c 0001/",
            "levels inputs/2 3/a b c/left right table/a b 0110/^1x c 0001/",
            "levels inputs/2 3/a b c/left right table/a b 0110/^18446744073709551617 c 0001/",
            "levels inputs/2 3/a b c/left right table/a b 0110/^123456789012345678901234567890 c/",
            // Judged before the byte after it.
            "levels inputs/2 3/a b c/left right table/^d/b 0110/1 c 0001/",
            "levels inputs/2 3/a b c/left right table/a ^d",
        ],
    );
}

#[test]
fn refusal_8_used_before() {
    assert_nets_refused(
        8,
        &[
            "levels inputs/2 3/a b c/left right table/a ^a 0110/1 c 0001/",
            "levels inputs/2 3/a b c/left right table/a b 0110/^a c 0001/",
            "levels inputs/2 3/a b c/left right table/a b 0110/c ^b 0001/",
            "levels inputs/2 3/a b c/left right table/a b 0110/1 ^1 0001/",
            "levels inputs/2 4/a b c d/left right table/a b 0110/1 c 0110/2 ^1 0110/",
            "levels inputs/2 4/a b c d/left right table/a b 0110/1 c 0110/^1 d 0110/",
            // Judged before the byte after it, and before the table.
            "levels inputs/2 3/a b c/left right table/a ^a/0110/1 c 0001/",
            "levels inputs/2 3/a b c/left right table/a ^a",
            "levels inputs/2 3/a b c/left right table/a ^a 9/",
        ],
    );
}

/// "From 1 to n − 1 gate lines, and the sheet's end closes it; inputs may stay
/// unused, earlier gates may not." "26, an earlier gate is never used, place the
/// sheet's length, judged last in the net sheet."
#[test]
fn refusal_26_a_gate_that_is_never_used() {
    assert_nets_refused(
        26,
        &[
            "levels inputs/2 4/a b c d/left right table/a b 0110/c d 0001/^",
            "levels inputs/2 5/a b c d e/left right table/a b 0110/1 c 0001/d e 0001/^",
            "levels inputs/2 5/a b c d e/left right table/a b 0110/c d 0001/2 e 0001/^",
            "levels inputs/2 5/a b c d e/left right table/a b 0110/c d 0001/1 e 0001/^",
            "levels inputs/2 6/a b c d e f/left right table/a b 0110/c d 0001/e f 0110/^",
        ],
    );
}

/// 26 is judged last: any other fault of the sheet comes first.
#[test]
fn refusal_26_is_judged_last() {
    let unused = "levels inputs/2 5/a b c d e/left right table/a b 0110/c d 0001/";
    let judged = [
        (1, "^ "),
        (1, "^/"),
        (1, "e ^/"),
        (1, "1 2 0110^"),
        (7, "^3 e 0110/"),
        (8, "^a e 0110/"),
        (6, "2 e ^011/"),
        // a fourth line may follow, a fifth may not
        (1, "2 e 0110/1 3 0110/^3 4 0110/"),
    ];
    for (number, rest) in judged {
        assert_nets_refused(number, &[&format!("{unused}{rest}")]);
    }
}

/// Every number of gate lines from 1 to n − 1.
#[test]
fn inputs_may_stay_unused() {
    let chain = "a b 0110/1 c 0110/2 d 0110/3 e 0110/";
    for gates in 1..=4 {
        let gates: String = chain.split_inclusive('/').take(gates).collect();
        let sheet = format!("levels inputs/2 5/a b c d e/left right table/{gates}");
        assert!(settled(&lines(&sheet)).is_ok(), "{sheet}");
    }
    for gates in [
        "e d 0110/",
        "d b 0110/e 1 0001/",
        "a c 0110/b e 0110/2 1 0110/",
    ] {
        let sheet = format!("levels inputs/2 5/a b c d e/left right table/{gates}");
        assert!(settled(&lines(&sheet)).is_ok(), "{sheet}");
    }
    assert_nets_refused(1, &["levels inputs/2 5/a b c d e/left right table/^"]);
}

#[test]
fn eleven_gates_and_two_digit_references() {
    let names = "a b c d e f g h i j k l";
    let chain = |last: &str| {
        let mut gates = vec!["a b 0110".to_string()];
        for (number, name) in (1..).zip(names.split(' ').skip(2)) {
            gates.push(format!("{number} {name} 0110"));
        }
        *gates.last_mut().expect("gates") = last.to_string();
        net_sheet(2, names, &gates.join("/"))
    };
    assert!(settled(&chain("10 l 0110")).is_ok());
    let at = chain("").len() as u64 - 1;
    assert_net_refused(&chain("11 l 0110"), of_net(7, at), "its own number");
    assert_net_refused(&chain("12 l 0110"), of_net(7, at), "a later number");
    assert_net_refused(&chain("010 l 0110"), of_net(7, at), "a leading zero");
    assert_net_refused(&chain("9 l 0110"), of_net(8, at), "used in gate 10");
}
