//! The check of a net sheet against a table sheet: refusal 12, the named sheet,
//! and the lowest index that differs.

use crate::common::*;
use reference::{check, Verdict};

const TABLE: &str = "levels inputs/2 2/a b ink/0 0 0/0 1 0/1 0 0/1 1 1/";

#[test]
fn refusal_12_unlike_sheets() {
    let net = lines("levels inputs/2 2/a b/left right table/a b 0001/");
    let tables = [
        rule_sheet(3, "a b", |_| 0),
        rule_sheet(2, "a b c", |_| 0),
        rule_sheet(2, "b a", |_| 0),
        rule_sheet(2, "a c", |_| 0),
        rule_sheet(2, "a bb", |_| 0),
    ];
    for table in tables {
        // Before 13: with no cells or enough of them, and they keep their bytes.
        assert_eq!(check(&net, &table, &mut []), Err(of_neither(12, 0)));
        let mut cells = [7; CELLS];
        assert_eq!(check(&net, &table, &mut cells), Err(of_neither(12, 0)));
        assert_eq!(cells, [7; CELLS]);
    }
}

#[test]
fn check_names_the_sheet_it_refuses() {
    let net = lines("levels inputs/2 2/a b/left right table/a b 0001/");
    let bad_net = lines("levels inputs/2 2/a b/left right table/a a 0001/");
    let table = lines(TABLE);
    let bad_table = lines("levels inputs/2 2/a b ink/0 0 5/");
    let mut cells = [7; 4];
    assert_eq!(check(&bad_net, &bad_table, &mut cells), Err(of_net(8, 41)));
    assert_eq!(check(&bad_net, &table, &mut cells), Err(of_net(8, 41)));
    assert_eq!(check(&net, &bad_table, &mut cells), Err(of_table(6, 30)));
    assert_eq!(check(&table, &net, &mut cells), Err(of_net(1, 21)));
    assert_eq!(cells, [7; 4]);
    assert_eq!(check(&net, &table, &mut cells), Ok(Verdict::Agree));
}

/// "The lowest index that differs": every single index, and several at once.
#[test]
fn check_answers_the_lowest_index_that_differs() {
    let net = net_sheet(3, "a b", "a b 012120201");
    let inks = [0, 1, 2, 1, 2, 0, 2, 0, 1];
    for lowest in 0..9 {
        let mut other = inks;
        for ink in &mut other[lowest..] {
            *ink = (*ink + 1) % 3;
        }
        let table = table_sheet(3, "a b", &other);
        let verdict = check(&net, &table, &mut [7; 9]);
        assert_eq!(verdict, Ok(Verdict::Differ(lowest as u64)));
        other[lowest + 1..].copy_from_slice(&inks[lowest + 1..]);
        let table = table_sheet(3, "a b", &other);
        let verdict = check(&net, &table, &mut [7; 9]);
        assert_eq!(verdict, Ok(Verdict::Differ(lowest as u64)));
    }
}
