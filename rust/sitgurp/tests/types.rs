//! Tables and nets as types: every answer is that of the call on bytes below it, and no value is ever a sheet that the library refuses.

use reference::generate::{Generator, TableKind};
use sitgurp::{Kind, Named, Net, Refusal, Table, Verdict, Wire};
use std::collections::BTreeSet;

const SEED: u64 = 2_300;
/// The sizes at which a debug build of the second implementation is quick.
const SIZES: [(usize, usize); 6] = [(2, 2), (2, 5), (3, 3), (4, 3), (5, 2), (9, 2)];

#[test]
fn a_net_is_what_the_calls_on_bytes_say() {
    println!("seed {SEED}");
    let mut generator = Generator::new(SEED);
    for (m, n) in SIZES {
        let sheet = generator.net_sheet(m, n);
        let net = Net::read(&sheet).expect("a good sheet");
        assert_eq!((net.levels(), net.names().len()), (m, n));
        assert_eq!(net.to_string().as_bytes(), sheet);
        assert_eq!(net.as_str().parse::<Net>(), Ok(net.clone()));
        let table = net.table();
        assert_eq!(
            Ok(table.to_string().into_bytes()),
            sitgurp::table_of(&sheet)
        );
        assert_eq!(Table::read(table.as_ref()), Ok(table.clone()));
        let settled = net.settled();
        assert_eq!(
            Ok(settled.to_string().into_bytes()),
            sitgurp::settled(&sheet)
        );
        assert_eq!(table.settled(), Ok(settled));
        let shallow = net.shallow();
        let (shallow_sheet, layers) = sitgurp::settled_shallow(&sheet).expect("a good sheet");
        assert_eq!(shallow.net.as_str().as_bytes(), shallow_sheet);
        assert_eq!((shallow.layers, shallow.net.layers()), (layers, layers));
        assert_eq!(table.shallow(), Ok(shallow));
        assert_eq!(net.check(&table), Ok(Verdict::Agree));
        for row in table.rows() {
            assert_eq!(net.value(&row.levels), Some(row.ink));
            assert_eq!(walked(&net, &row.levels), row.ink);
        }
    }
}

/// The value by walking the gates.
fn walked(net: &Net, assignment: &[u8]) -> u8 {
    let mut values: Vec<u8> = Vec::new();
    for gate in net.gates() {
        let at = |wire| match wire {
            Wire::Input(input) => usize::from(assignment[input]),
            Wire::Gate(gate) => usize::from(values[gate]),
        };
        let value = gate.digits[at(gate.left) * net.levels() + at(gate.right)];
        values.push(value);
    }
    *values.last().expect("a gate")
}

#[test]
fn a_table_from_a_rule_is_the_sheet_with_these_rows() {
    let mut generator = Generator::new(SEED + 1);
    for (m, n) in SIZES {
        for kind in [TableKind::Random, TableKind::Sum] {
            let table = Table::read(&generator.table_sheet(m, n, kind)).expect("a good sheet");
            let again = Table::from_rule(m, table.names(), |levels| {
                table.ink(levels).expect("levels of an assignment")
            });
            assert_eq!(again, Ok(table.clone()));
            assert_eq!(table.rows().len(), table.inks().len());
            assert_eq!(table.row(table.inks().len()), None);
            for group in 1..1 << n {
                let counts = sitgurp::multiplicities(table.as_ref()).expect("a good sheet");
                assert_eq!(table.multiplicity(group), Ok(counts[group]));
            }
            assert_eq!(
                table.fewest_levels(),
                sitgurp::fewest_levels(table.as_ref())
            );
        }
    }
}

/// What is refused as a sheet is no value, and a rule out of bounds is not asked.
#[test]
fn no_value_is_a_refused_sheet() {
    let kind = |made: Result<Table, Refusal>| made.map_err(|refusal| refusal.kind());
    let unasked = |_: &[u8]| -> u8 { panic!("the size is refused") };
    assert_eq!(
        kind(Table::from_rule(1, &["a", "b"], unasked)),
        Err(Kind::Levels)
    );
    assert_eq!(
        kind(Table::from_rule(0, &["a", "b"], unasked)),
        Err(Kind::Levels)
    );
    assert_eq!(
        kind(Table::from_rule(2, &["a"; 13], unasked)),
        Err(Kind::Inputs)
    );
    assert_eq!(
        kind(Table::from_rule(9, &["a"; 4], unasked)),
        Err(Kind::Inputs)
    );
    assert_eq!(
        kind(Table::from_rule(9, &["a"; 400], unasked)),
        Err(Kind::Inputs)
    );
    assert_eq!(
        kind(Table::from_rule(2, &["a", "a"], |_| 0)),
        Err(Kind::Name)
    );
    assert_eq!(
        kind(Table::from_rule(2, &["a", "b c"], |_| 0)),
        Err(Kind::Layout)
    );
    assert_eq!(
        kind(Table::from_rule(2, &["a", "b"], |_| 3)),
        Err(Kind::Digits)
    );
    assert_eq!(
        kind(Table::from_rule(2, &["a", "b"], |_| 10)),
        Err(Kind::Digits)
    );
    assert_eq!(kind("".parse::<Table>()), Err(Kind::Layout));
    let mut generator = Generator::new(SEED + 2);
    for (m, n) in SIZES {
        for _ in 0..20 {
            let good = generator.table_sheet(m, n, TableKind::OfNet);
            let sheet = generator.damaged(&good);
            let refused = Table::read(&sheet).err();
            let due = sitgurp::made(&sheet)
                .err()
                .filter(|refusal| ![16, 27].contains(&refusal.number));
            assert_eq!(refused, due);
            let good = generator.net_sheet(m, n);
            let sheet = generator.damaged(&good);
            assert_eq!(Net::read(&sheet).err(), sitgurp::settled(&sheet).err());
        }
    }
}

#[test]
fn an_assignment_that_is_none_has_no_value() {
    let net: Net = "levels inputs\n2 2\na b\nleft right table\na b 0111\n"
        .parse()
        .expect("a good sheet");
    assert_eq!(net.value(&[0, 1]), Some(1));
    for none in [&[][..], &[0], &[0, 2], &[0, 1, 0]] {
        assert_eq!(net.value(none), None);
        assert_eq!(net.table().ink(none), None);
    }
}

#[test]
fn a_family_is_walked_as_nets() {
    let sum = |levels: &[u8]| levels.iter().sum::<u8>() % 2;
    let sum = Table::from_rule(2, &["a", "b", "c", "d"], sum).expect("a good rule");
    let trees = sum.family().expect("a full table");
    assert_eq!((trees.size(), trees.clone().count()), (15, 15));
    let distinct: BTreeSet<String> = trees.clone().map(|net| net.to_string()).collect();
    assert_eq!(distinct.len(), 15);
    assert_eq!(trees.clone().next_back(), trees.tree(14).ok());
    let refused = trees
        .tree(15)
        .expect_err("a number that is not below the count");
    assert_eq!((refused.kind(), refused.place), (Kind::NoSuchTree, 15));
    let majority = Table::from_rule(2, &["a", "b", "c"], |levels| {
        u8::from(levels.iter().sum::<u8>() >= 2)
    })
    .expect("a good rule");
    assert_eq!(majority.family().expect("a full table").next(), None);
    let refused = majority.settled().expect_err("no tree");
    assert_eq!((refused.kind(), refused.place), (Kind::NoTree, 7));
}

/// A net of some inputs: a value for every assignment of all of them, and a settled net of those that matter.
#[test]
fn inputs_that_stay_unused() {
    let net: Net = "levels inputs\n2 4\na b c d\nleft right table\nd b 0111\n1 a 0011\n"
        .parse()
        .expect("a good sheet");
    assert_eq!((net.gates().len(), net.unused()), (2, vec![2]));
    assert_eq!(net.value(&[1, 0, 1, 1]), Some(1));
    assert_eq!(net.value(&[1, 0, 1]), None);
    assert_eq!(net.layers(), 2);
    let settled = net.settled();
    assert_eq!(settled.unused(), [0, 2]);
    assert_eq!(
        settled.as_str().lines().last(),
        Some("b d 0111"),
        "a does not matter"
    );
    assert_eq!(settled.table(), net.table());
    let zero = Table::from_rule(2, &["a", "b", "c"], |_| 0).expect("a good rule");
    assert_eq!(
        (
            zero.family().expect("a full table").size(),
            zero.settled().expect("a tree").unused()
        ),
        (1, vec![2])
    );
    let sheet = "levels inputs\n2 4\na b c d\nleft right table\na b 0001\nc d 0001\n";
    let refused = sheet.parse::<Net>().expect_err("gate 1 is not used");
    assert_eq!(
        (refused.kind(), refused.place),
        (Kind::UnusedGate, sheet.len())
    );
}

/// A table with open cells is a value: it is checked, and no tree is made of it.
#[test]
fn cells_left_open() {
    let mut generator = Generator::new(SEED + 3);
    for (m, n) in SIZES {
        for kind in [TableKind::OfNet, TableKind::Random] {
            let sheet = generator.open_table_sheet(m, n, kind);
            let table = Table::read(&sheet).expect("a good sheet");
            let (_, due) = reference::sheet::read_table_sheet(&sheet).expect("a good sheet");
            assert_eq!(table.inks(), due.inks);
            assert_eq!((table.is_full(), table.as_ref()), (false, &sheet[..]));
            assert_eq!(table.open()[0], due.first_open().expect("an open cell"));
            let again = Table::from_rule(m, table.names(), |levels| {
                table.ink(levels).expect("levels of an assignment")
            });
            assert_eq!(again, Ok(table.clone()));
            let place = table.open()[0];
            let refused = |refusal: Option<Refusal>| {
                refusal.map(|refusal| (refusal.kind(), refusal.place, refusal.named))
            };
            let due = Some((Kind::OpenCell, place, Named::Table));
            assert_eq!(refused(table.settled().err()), due);
            assert_eq!(refused(table.shallow().err()), due);
            assert_eq!(refused(table.family().err()), due);
            assert_eq!(refused(table.fewest_levels().err()), due);
            let of_cells = Some((Kind::OpenCell, place, Named::Neither));
            assert_eq!(refused(table.multiplicity(1).err()), of_cells);
        }
    }
    let net: Net = "levels inputs\n2 2\na b\nleft right table\na b 0111\n"
        .parse()
        .expect("a good sheet");
    assert!(net.table().is_full());
    let inks = |inks: [u8; 4]| {
        let mut inks = inks.into_iter();
        Table::from_rule(2, &["a", "b"], |_| inks.next().expect("an ink")).expect("a good rule")
    };
    assert_eq!(net.check(&inks([0, 2, 1, 2])), Ok(Verdict::Agree));
    assert_eq!(net.check(&inks([2, 2, 0, 0])), Ok(Verdict::Differ(2)));
    assert_eq!(net.check(&inks([2; 4])), Ok(Verdict::Agree));
}

#[test]
fn sheets_that_differ_in_their_header_are_not_checked() {
    let net: Net = "levels inputs\n2 2\na b\nleft right table\na b 0111\n"
        .parse()
        .expect("a good sheet");
    let other = Table::from_rule(2, &["b", "a"], |_| 0).expect("a good rule");
    let refused = net.check(&other).expect_err("other names");
    assert_eq!(refused.kind(), Kind::HeadersDiffer);
    let zero = Table::from_rule(2, &["a", "b"], |_| 0).expect("a good rule");
    assert_eq!(net.check(&zero), Ok(Verdict::Differ(1)));
}

/// The kinds are the numbers that have words, each once.
#[test]
fn every_number_has_a_kind() {
    for (k, kind) in Kind::ALL.iter().enumerate() {
        assert_eq!(kind.number(), k + 1);
        assert_eq!(Kind::of(k + 1), *kind);
    }
    assert_eq!(Kind::of(0), Kind::Unknown);
    assert_eq!(Kind::of(Kind::ALL.len() + 1), Kind::Unknown);
}
