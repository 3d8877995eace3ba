//! `why`: what it says, held against the library.

use crate::common::{answers, examples, is_wrong, Folder, SUM_TABLE};
use sitgurp::Table;

/// Just enough of JSON to look into what `why` gives: the number behind each use of a name.
fn numbers_of(json: &str, name: &str) -> Vec<usize> {
    let member = format!("\"{name}\":");
    let uses = json.split(member.as_str()).skip(1);
    let numbers = uses.map(|part| part.split([',', '}', ']']).next().expect("a value").parse());
    numbers.map(|number| number.expect("a number")).collect()
}

#[test]
fn in_words() {
    let folder = examples("why");
    answers(
        folder.run("why majority.table"),
        "\
No tree of two-input gates computes this table. At fault are a, b and c together (refusal 16,
group 7): they could leave on one wire, but the gate that joins them takes them in two parts,
each on a wire of its own, and a wire carries 2 levels. Every way to part them needs more of one
part:
    a | b c: 2 and 3 levels
    a b | c: 3 and 2 levels
    a c | b: 3 and 2 levels

The least is `a | b c`. There b and c would be one wire, which cannot tell these 3 apart (levels
of b c):
    0 0 and 0 1: at a=1 the ink is 0 and 1
    0 0 and 1 1: at a=0 the ink is 0 and 1
    0 1 and 1 1: at a=0 the ink is 0 and 1

More levels: with 3 levels on the wires between gates there would be a tree. Draw the same rule
with 3 levels, where an input above 1 acts as 1, and it is made; `widen` writes that table.

Larger gates: there is a tree with 1 gate of 3 inputs; `larger` shows it.

Or other inks: with 1 row changed there is a tree. These are all such changes; `why --apply K`
writes the table with change K:
    1. line 5: a=0 b=0 c=1 has ink 1 in place of 0
    2. line 6: a=0 b=1 c=0 has ink 1 in place of 0
    3. line 7: a=0 b=1 c=1 has ink 0 in place of 1
    4. line 8: a=1 b=0 c=0 has ink 1 in place of 0
    5. line 9: a=1 b=0 c=1 has ink 0 in place of 1
    6. line 10: a=1 b=1 c=0 has ink 0 in place of 1
",
    );
    answers(
        folder.run("why seven.table"),
        "nothing is wrong: there is 1 tree with this table\n",
    );
    folder.put("sum.table", SUM_TABLE);
    answers(
        folder.run("why sum.table"),
        "nothing is wrong: there are 3 trees with this table\n",
    );
    answers(
        folder.run("why sum.table --json"),
        "{\"trees\":3,\"inputs\":[\"a\",\"b\",\"c\"]}\n",
    );
}

/// Rules that want two things of the same inputs.
fn tables() -> Vec<Table> {
    let names = ["a", "b", "c", "d"];
    let majority = |levels: &[u8]| u8::from(levels[..3].iter().sum::<u8>() >= 2);
    vec![
        Table::from_rule(2, &names[..3], majority),
        Table::from_rule(2, &names, |levels| majority(levels) ^ levels[3]),
        Table::from_rule(4, &names[..3], |levels| match levels[2] {
            3 => levels[0].min(levels[1]),
            _ => *levels.iter().max().expect("a level"),
        }),
        Table::from_rule(3, &names, |levels| {
            let sum = levels.iter().sum::<u8>() % 3;
            if levels == [2, 1, 0, 2] {
                (sum + 1) % 3
            } else {
                sum
            }
        }),
        // the sum and the product of four inputs, which no few rows make right
        Table::from_rule(5, &names[..3], |levels| {
            (levels[0] * levels[1] + levels[1] * levels[2] + levels[0] * levels[2]) % 5
        }),
    ]
    .into_iter()
    .map(|table| table.expect("a good rule"))
    .collect()
}

/// The class counts are the library's; the rows do differ where it says; the levels suffice; and the change has a tree.
#[test]
fn what_it_says_is_so() {
    let folder = Folder::new("why_so");
    for table in tables() {
        folder.put("my.table", table.as_str());
        let refusal = table.settled().expect_err("no tree");
        let json = folder.run("why my.table --json").out;
        let names: Vec<String> = refusal
            .inputs
            .iter()
            .map(|name| format!("\"{name}\""))
            .collect();
        assert!(
            json.contains(&format!("\"group\":[{}]", names.join(","))),
            "{json}"
        );
        let fewest = table.fewest_levels().expect("a full table");
        assert_eq!(numbers_of(&json, "fewest_levels"), [fewest]);
        splits_are_so(&table, refusal.place, &json);
        pairs_are_so(&table, &json);
        let (json, nearest) = json.split_once("\"nearest\":").expect("a member");
        let rows = numbers_of(json, "line").len();
        assert!(numbers_of(nearest, "at_least") <= vec![rows], "{nearest}");
        let lines = numbers_of(json, "line");
        let (from, to) = (numbers_of(json, "from"), numbers_of(json, "to"));
        assert!(!lines.is_empty());
        let mut inks = table.inks().to_vec();
        for ((line, from), to) in lines.iter().zip(from).zip(to) {
            assert_eq!(usize::from(inks[line - 4]), from);
            inks[line - 4] = to as u8;
        }
        let mut inks = inks.into_iter();
        let changed = Table::from_rule(table.levels(), table.names(), |_| {
            inks.next().expect("an ink")
        });
        assert!(changed.expect("a table").settled().is_ok());
    }
}

fn splits_are_so(table: &Table, group: usize, json: &str) {
    let number = |names: &str| -> usize {
        let place = |name: &str| {
            table
                .names()
                .iter()
                .position(|known| known == name)
                .expect("an input")
        };
        names
            .split(',')
            .map(|name| 1 << place(name.trim_matches('"')))
            .sum()
    };
    let mut count = 0;
    for part in json.split("\"parts\":[[").skip(1) {
        let (left, rest) = part.split_once("],[").expect("two parts");
        let (right, rest) = rest.split_once("]],\"classes\":[").expect("classes");
        let (classes, _) = rest.split_once(']').expect("an end");
        let parts = [number(left), number(right)];
        assert_eq!(parts[0] + parts[1], group);
        let due: Vec<String> = parts
            .iter()
            .map(|&part| table.multiplicity(part).expect("a group").to_string())
            .collect();
        assert_eq!(classes, due.join(","));
        count += 1;
    }
    assert_eq!(count, (1 << (group.count_ones() - 1)) - 1);
}

fn pairs_are_so(table: &Table, json: &str) {
    let (_, part) = json.split_once("\"part\":[").expect("a part");
    let (part, _) = part.split_once(']').expect("an end");
    let in_part = |name: &String| part.split(',').any(|one| one.trim_matches('"') == name);
    let pairs = json.split("{\"first\":").skip(1);
    let mut count = 0;
    for pair in pairs {
        let digits = |name: &str| -> Vec<u8> {
            let text = if name == "first" {
                pair
            } else {
                pair.split(&format!("\"{name}\":"))
                    .nth(1)
                    .expect("a member")
            };
            let (list, _) = text[1..].split_once(']').expect("an end");
            list.split(',')
                .filter(|d| !d.is_empty())
                .map(|d| d.parse().expect("a level"))
                .collect()
        };
        let others = digits("others");
        let ink = |levels: Vec<u8>| {
            let (mut own, mut other) = (levels.into_iter(), others.iter().copied());
            let all: Vec<u8> = table
                .names()
                .iter()
                .map(|name| {
                    if in_part(name) {
                        own.next()
                    } else {
                        other.next()
                    }
                    .expect("a level")
                })
                .collect();
            table.ink(&all).expect("an assignment")
        };
        let inks = [ink(digits("first")), ink(digits("second"))];
        assert_eq!(inks.to_vec(), digits("inks"));
        assert_ne!(inks[0], inks[1]);
        count += 1;
    }
    let rows = table.levels() + 1;
    assert_eq!(count, rows * (rows - 1) / 2);
}

#[test]
fn a_long_list_is_cut() {
    let folder = Folder::new("why_long");
    let names: Vec<String> = (0..6).map(|k| format!("in{k}")).collect();
    let table = Table::from_rule(2, &names, |levels| u8::from(levels.iter().sum::<u8>() >= 3));
    folder.put("my.table", table.expect("a good rule").as_str());
    let cut = folder.run("why my.table").out;
    let all = folder.run("why my.table --all").out;
    assert!(cut.contains(" more (`--all` tells every one)"), "{cut}");
    assert!(!all.contains("--all") && all.len() > cut.len());
}

/// Every change of the list gives a table with a tree that differs in these rows alone; there is no change of another number.
#[test]
fn a_change_is_applied() {
    let folder = Folder::new("why_apply");
    for table in tables() {
        folder.put("my.table", table.as_str());
        let json = folder.run("why my.table --json").out;
        let (_, ways) = json.split_once("\"ways\":[[").expect("ways");
        let ways: Vec<&str> = ways.split("],[").collect();
        for number in [1, ways.len()] {
            let ended = folder.run(&format!("why my.table --apply {number}"));
            assert_eq!((ended.status, ended.err.as_str()), (0, ""));
            let changed = Table::read(ended.out.as_bytes()).expect("a table");
            assert!(changed.settled().is_ok());
            let inks = table.inks().iter().zip(changed.inks()).enumerate();
            let lines = inks
                .filter(|(_, (a, b))| a != b)
                .map(|(index, _)| index + 4);
            assert_eq!(
                lines.collect::<Vec<_>>(),
                numbers_of(ways[number - 1], "line")
            );
        }
        for number in [0, ways.len() + 1] {
            let wrong = folder.run(&format!("why my.table --apply {number}"));
            is_wrong(wrong, &format!("sitgurp why: --apply {number}: there "));
        }
    }
    folder.put("sum.table", SUM_TABLE);
    is_wrong(
        folder.run("why sum.table --apply 1"),
        "sitgurp why: the table has a tree, and nothing is to be changed\n",
    );
}

/// It says whether fewer rows are ruled out, or were just not found.
#[test]
fn fewer_rows() {
    let folder = Folder::new("why_fewer");
    let mut ruled_out = 0;
    for table in tables() {
        folder.put("my.table", table.as_str());
        let json = folder.run("why my.table --json").out;
        let words = folder.run("why my.table --all").out.replace('\n', " ");
        let (changes, nearest) = json.split_once("\"nearest\":").expect("a member");
        let rows = numbers_of(changes, "line").len();
        let at_least = numbers_of(nearest, "at_least")[0];
        let due = match rows - at_least {
            0 if rows == 1 => "with 1 row changed there is a tree. ".to_string(),
            0 => format!("with {rows} rows changed there is a tree; fewer are ruled out. "),
            _ => format!("with {rows} rows changed there is a tree; {at_least} "),
        };
        assert!(words.contains(&due), "{words}");
        ruled_out += usize::from(rows == at_least);
    }
    assert!(ruled_out > 1);
}
