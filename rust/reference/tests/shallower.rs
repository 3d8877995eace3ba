//! The shallower of two net sheets: the sheet itself, so each answer is identified by
//! its address, and not only by its bytes.

use crate::common::*;
use reference::generate::Generator;
use reference::shallower;
use reference::sheet::read_net_sheet;

/// Returns whether the part is the same memory, not only the same bytes.
fn is(part: &[u8], sheet: &[u8]) -> bool {
    part.as_ptr() == sheet.as_ptr() && part.len() == sheet.len()
}

/// Returns a net of four inputs in two layers.
fn two_layers() -> Vec<u8> {
    net_sheet(2, "a b c d", "a b 0110/c d 0110/1 2 0110")
}

/// Returns a net of four inputs in three layers.
fn three_layers() -> Vec<u8> {
    net_sheet(2, "a b c d", "a b 0110/1 c 0110/2 d 0110")
}

#[test]
fn the_one_with_fewer_layers() {
    let (two, three) = (two_layers(), three_layers());
    assert!(is(shallower(&two, &three), &two));
    assert!(is(shallower(&three, &two), &two));
}

#[test]
fn the_first_when_level() {
    let (two, also_two) = (two_layers(), two_layers());
    assert!(is(shallower(&two, &also_two), &two));
    assert!(is(shallower(&also_two, &two), &also_two));
    let left = net_sheet(2, "a b c", "a b 0110/1 c 0110");
    let right = net_sheet(2, "a b c", "b c 0111/a 1 0001");
    assert!(is(shallower(&left, &right), &left));
    assert!(is(shallower(&right, &left), &right));
    assert!(is(shallower(&two, &left), &two));
}

/// "The layers of a net are the most gates on a way", not the gates: more inputs
/// may have fewer layers, and a shorter sheet more of them.
#[test]
fn whatever_their_levels_inputs_and_names() {
    let many = net_sheet(
        2,
        "a b c d e f g h",
        "a b 0110/c d 0110/e f 0110/g h 0110/1 2 0110/3 4 0110/5 6 0110",
    );
    let few = net_sheet(
        3,
        "x y z u v",
        "x y 000011022/1 z 000011022/2 u 000011022/3 v 000011022",
    );
    assert!(many.len() > few.len());
    assert!(is(shallower(&many, &few), &many));
    assert!(is(shallower(&few, &many), &many));
    let one = net_sheet(9, "in out", &format!("out in {}", "8".repeat(81)));
    for other in [&many, &few, &two_layers()] {
        assert!(is(shallower(&one, other), &one));
        assert!(is(shallower(other, &one), &one));
    }
}

#[test]
fn an_unreadable_sheet_loses_to_a_readable_one() {
    let deep = three_layers();
    let table = rule_sheet(2, "a b c d", |_| 0);
    let mut cut = two_layers();
    cut.pop();
    let twice = net_sheet(2, "a b c d", "a b 0110/c a 0110/1 2 0110");
    for bad in [&b""[..], b"levels inputs\n", &table, &cut, &twice] {
        assert!(is(shallower(bad, &deep), &deep));
        assert!(is(shallower(&deep, bad), &deep));
        for other in [&b""[..], b"\n", &table, &cut] {
            let part = shallower(bad, other);
            assert!(part.is_empty());
            assert_eq!(part.as_ptr(), bad.as_ptr());
        }
    }
}

/// Returns the most gates on a way, from the text: the inputs' names start with a letter,
/// and gates are numbered.
fn layers_of(sheet: &[u8]) -> usize {
    let text = std::str::from_utf8(sheet).expect("ASCII");
    let mut gates: Vec<usize> = Vec::new();
    for line in text.lines().skip(4) {
        let below = |reference: &str| {
            let number = reference.parse::<usize>().ok();
            number.map_or(0, |number| gates[number - 1])
        };
        let most = line.split(' ').take(2).map(below).max();
        gates.push(1 + most.expect("two references"));
    }
    gates.pop().expect("a gate line")
}

#[test]
fn generated_sheets_good_and_damaged() {
    let seed = 2_048;
    println!("seed {seed}");
    let mut generator = Generator::new(seed);
    let mut seen = [0; 4];
    for _ in 0..3_000 {
        let mut sheet = || {
            let (m, n) = generator.size();
            let net = generator.net_sheet(m, n);
            match generator.rng.below(3) {
                0 => generator.damaged(&net),
                _ => net,
            }
        };
        let (first, second) = (sheet(), sheet());
        let layers = |sheet: &[u8]| read_net_sheet(sheet).is_ok().then(|| layers_of(sheet));
        let (of_first, of_second) = (layers(&first), layers(&second));
        // an unreadable sheet is deeper than any readable one
        let deep = |layers: Option<usize>| layers.unwrap_or(usize::MAX);
        let second_wins = deep(of_second) < deep(of_first);
        let due = match (of_first.or(of_second), second_wins) {
            (None, _) => &first[..0],
            (_, true) => &second,
            (_, false) => &first,
        };
        assert!(is(shallower(&first, &second), due));
        seen[usize::from(of_first.is_some()) * 2 + usize::from(of_second.is_some())] += 1;
    }
    println!("neither, second, first, both readable: {seen:?}");
    assert!(seen.iter().all(|&count| count > 100));
}
