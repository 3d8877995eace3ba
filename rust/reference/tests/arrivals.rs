//! Arrival times: the arrival sheet's refusals, and the settling compared with every
//! arrival inside the ranges. In the sheets below `/` is a line feed and `^` marks
//! the place (it is not part of the sheet).

use crate::common::*;
use reference::damage::single_edits;
use reference::generate::Generator;
use reference::sheet::{print_arrival_sheet, read_arrival_sheet, read_net_sheet};
use reference::{allowed_sizes, arrivals, Refusal, Settling, Sheet};
use std::collections::HashMap;

const NET: &str = "levels inputs/2 3/a b c/left right table/a b 0110/1 c 0001/";

fn of_arrivals(number: u8, place: u64) -> Refusal {
    Refusal {
        number,
        place,
        sheet: Sheet::Arrivals,
    }
}

/// Returns an arrival sheet from its lines, separated by `/`, without the first.
fn arrival_sheet(rest: &str) -> Vec<u8> {
    lines(&format!("name from to/{rest}/"))
}

fn settled_between(earliest: f64, latest: f64) -> Result<Settling, Refusal> {
    Ok(Settling { earliest, latest })
}

// ---- by hand

#[test]
fn the_largest_of_arrival_and_gates_on_the_way() {
    let net = lines(NET);
    // two gates on the way from a and b, one from c
    let examples = [
        ("a 0 4/b 2 2/c 10 12", 4, 3.5, 4.0),
        ("a 0 0/b 0 0/c 0 0", 0, 0.0, 0.0),
        ("a 0 0/b 0 0/c 0 0", 1, 0.5, 0.5),
        ("a 0 0/b 0 0/c 3 3", 1, 1.0, 1.0),
        ("a 0 0/b 0 0/c 1 1", 1, 0.5, 0.5),
        ("a 7 9/b 8 8/c 9 10", 0, 2.25, 2.5),
        ("a 0 65535/b 0 0/c 0 0", 0, 0.0, 16_383.75),
        ("a 1 1/b 0 0/c 65534 65535", 255, 16_447.25, 16_447.5),
    ];
    for (sheet, delay, earliest, latest) in examples {
        let answer = arrivals(&net, &arrival_sheet(sheet), delay);
        assert_eq!(answer, settled_between(earliest, latest), "{sheet}");
    }
}

/// "Arrival times count used inputs only", and the sheet still has a line for every
/// input.
#[test]
fn unused_inputs_do_not_count() {
    let net = net_sheet(2, "a b c d", "b d 0110");
    for (sheet, delay, earliest, latest) in [
        ("a 900 900/b 0 4/c 800 900/d 2 2", 4, 1.5, 2.0),
        ("a 0 0/b 8 8/c 0 0/d 0 65535", 0, 2.0, 16_383.75),
        ("a 65535 65535/b 0 0/c 65535 65535/d 0 0", 255, 63.75, 63.75),
    ] {
        let answer = arrivals(&net, &arrival_sheet(sheet), delay);
        assert_eq!(answer, settled_between(earliest, latest), "{sheet}");
    }
    let left_out = arrivals(&net, &arrival_sheet("b 0 0/d 0 0"), 0);
    assert_eq!(left_out, Err(of_arrivals(18, 13)));
}

/// "Every gate takes one common delay": ten gates on the longest way.
#[test]
fn the_extremes_bit_for_bit() {
    let names: Vec<String> = (0..11).map(|input| format!("x{input}")).collect();
    let mut gates = "x0 x1 0110".to_string();
    for (gate, name) in (1..).zip(&names[2..]) {
        gates += &format!("/{gate} {name} 0110");
    }
    let net = net_sheet(2, &names.join(" "), &gates);
    let sheet = |from: u64, to: u64| {
        let lines: Vec<String> = names.iter().map(|x| format!("{x} {from} {to}")).collect();
        arrival_sheet(&lines.join("/"))
    };
    let bits = |sheet: &[u8], delay| {
        let answer = arrivals(&net, sheet, delay).expect("good sheets");
        [answer.earliest, answer.latest].map(f64::to_bits)
    };
    // 65,535 + 10 · 255 = 68,085 quarters
    let most = 17_021.25_f64.to_bits();
    assert_eq!(most, 0x40d0_9f50_0000_0000);
    assert_eq!(bits(&sheet(65_535, 65_535), 255), [most, most]);
    assert_eq!(bits(&sheet(0, 65_535), 255), [637.5_f64.to_bits(), most]);
    assert_eq!(bits(&sheet(0, 0), 0), [0, 0]);
    assert_eq!(bits(&sheet(0, 0), 1), [2.5_f64.to_bits(); 2]);
    assert_eq!(bits(&sheet(0, 65_535), 0), [0, 16_383.75_f64.to_bits()]);
}

/// A fixed arrival at each time, and a range down to 0: whole microseconds and
/// the four quarters are distinguished.
#[test]
fn every_time_is_exact() {
    let net = net_sheet(2, "a b", "a b 0110");
    for time in 0..=65_535_u64 {
        let sheet = arrival_sheet(&format!("a {time} {time}/b 0 {time}"));
        let answer = arrivals(&net, &sheet, 0).expect("good sheets");
        let quarter = [0.0, 0.25, 0.5, 0.75][(time % 4) as usize];
        let due = (time / 4) as f64 + quarter;
        assert_eq!(
            answer,
            Settling {
                earliest: due,
                latest: due
            }
        );
    }
}

// ---- compared with every arrival inside the ranges

/// Returns the gates on the way from an input, from the text of the net sheet, or nothing
/// for an input that no gate refers to.
fn gates_on_the_way(sheet: &[u8], name: &str) -> Option<u64> {
    let text = std::str::from_utf8(sheet).expect("ASCII");
    let gates: Vec<Vec<&str>> = text
        .lines()
        .skip(4)
        .map(|line| line.split(' ').take(2).collect())
        .collect();
    let mut end = name.to_string();
    let mut passed = 0;
    while let Some(gate) = gates.iter().position(|gate| gate.contains(&&end[..])) {
        end = (gate + 1).to_string();
        passed += 1;
    }
    (passed > 0).then_some(passed)
}

/// Returns every list of numbers within the ranges.
fn every_choice(ranges: &[(u64, u64)]) -> Vec<Vec<u64>> {
    let mut all = vec![Vec::new()];
    for &(from, to) in ranges {
        let longer = |chosen: &Vec<u64>, time| [&chosen[..], &[time]].concat();
        all = all
            .iter()
            .flat_map(|chosen| (from..=to).map(move |time| longer(chosen, time)))
            .collect();
    }
    all
}

/// "For any arrivals inside the ranges it lies within the answer, and each end is
/// met by some." "Arrival times count used inputs only." The arrivals are tried in
/// quarters and in finer units, `finer` of them to a quarter.
fn assert_ranges(net: &[u8], names: &[String], ranges: &[(u64, u64)], delay: u8, finer: u64) {
    let lines: Vec<String> = names
        .iter()
        .zip(ranges)
        .map(|(name, (from, to))| format!("{name} {from} {to}"))
        .collect();
    let answer = arrivals(net, &arrival_sheet(&lines.join("/")), delay).expect("good sheets");
    let used = |name: &String| gates_on_the_way(net, name);
    let ways: Vec<u64> = names
        .iter()
        .filter_map(used)
        .map(|gates| finer * u64::from(delay) * gates)
        .collect();
    let scaled: Vec<(u64, u64)> = names
        .iter()
        .zip(ranges)
        .filter(|(name, _)| used(name).is_some())
        .map(|(_, (from, to))| (from * finer, to * finer))
        .collect();
    let times: Vec<u64> = every_choice(&scaled)
        .iter()
        .map(|chosen| {
            let times = chosen.iter().zip(&ways).map(|(arrival, way)| arrival + way);
            times.max().expect("an input")
        })
        .collect();
    // there are 4 · finer units to a microsecond
    let in_units = |time: f64| time * 4.0 * finer as f64;
    let least = *times.iter().min().expect("some arrivals");
    let most = *times.iter().max().expect("some arrivals");
    assert_eq!(in_units(answer.earliest), least as f64);
    assert_eq!(in_units(answer.latest), most as f64);
}

#[test]
fn every_arrival_inside_the_ranges() {
    let seed = 65_535;
    println!("seed {seed}");
    let mut generator = Generator::new(seed);
    for (n, rounds, widest) in [(2, 200, 9), (3, 200, 5), (4, 60, 3), (5, 20, 2)] {
        for _ in 0..rounds {
            let net = generator.net_sheet(2, n);
            let (header, _) = read_net_sheet(&net).expect("a good net sheet");
            let names: Vec<String> = header
                .names
                .iter()
                .map(|name| String::from_utf8_lossy(name).into_owned())
                .collect();
            let mut range = || {
                let from = generator.rng.below(20) as u64;
                (from, from + generator.rng.below(widest) as u64)
            };
            let ranges: Vec<(u64, u64)> = (0..n).map(|_| range()).collect();
            let delay = *generator.rng.pick(&[0, 1, 2, 3, 7, 255]);
            for finer in 1..=2 {
                assert_ranges(&net, &names, &ranges, delay, finer);
            }
        }
    }
}

/// At every size, compared with the gates on the way as given by the text.
#[test]
fn nets_of_every_size() {
    let seed = 65_534;
    println!("seed {seed}");
    let mut generator = Generator::new(seed);
    for (m, n) in allowed_sizes() {
        for _ in 0..30 {
            let net = generator.net_sheet(m as usize, n as usize);
            let (header, _) = read_net_sheet(&net).expect("a good net sheet");
            let sheet = generator.arrival_sheet(&header);
            let delay = generator.rng.below(256) as u8;
            let answer = arrivals(&net, &sheet, delay).expect("good sheets");
            let text = std::str::from_utf8(&sheet).expect("ASCII");
            let mut ends = [0, 0];
            for line in text.lines().skip(1) {
                let fields: Vec<&str> = line.split(' ').collect();
                let Some(gates) = gates_on_the_way(&net, fields[0]) else {
                    continue;
                };
                let way = u64::from(delay) * gates;
                for (end, field) in ends.iter_mut().zip(&fields[1..]) {
                    *end = way
                        .max(*end)
                        .max(way + field.parse::<u64>().expect("a time"));
                }
            }
            let [earliest, latest] = ends.map(|quarters| quarters as f64 / 4.0);
            assert_eq!(answer, Settling { earliest, latest });
        }
    }
}

// ---- refusals

fn assert_refused(number: u8, texts: &[&str]) {
    for text in texts {
        let place = text.find('^').expect("a marked place") as u64;
        let sheet = lines(&text.replace('^', ""));
        for delay in [0, 255] {
            let answer = arrivals(&lines(NET), &sheet, delay);
            assert_eq!(answer, Err(of_arrivals(number, place)), "{text}");
        }
    }
}

#[test]
fn refusal_1_layout() {
    assert_refused(
        1,
        &[
            "^",
            "^/",
            "^ name from to/",
            "^names from to/",
            "^Name from to/",
            "^levels inputs/2 3/",
            "name^/from to/",
            "name^",
            "name ^ from to/",
            "name ^to from/",
            "name ^from\r to/",
            "name from ^too/",
            "name from ^to\r/a 0 0/",
            "name from to^ /a 0 0/b 0 0/c 0 0/",
            "name from to^",
            "name from to/^",
            "name from to/^/a 0 0/b 0 0/c 0 0/",
            "name from to/^ a 0 0/b 0 0/c 0 0/",
            "name from to/a^/0 0/b 0 0/c 0 0/",
            "name from to/a^",
            "name from to/a ^ 0 0/b 0 0/c 0 0/",
            "name from to/a ^/",
            "name from to/a 0^/b 0 0/c 0 0/",
            "name from to/a 0^",
            "name from to/a 0 ^/b 0 0/c 0 0/",
            "name from to/a 0 ^ 0/b 0 0/c 0 0/",
            "name from to/a 0 0^ /b 0 0/c 0 0/",
            "name from to/a 0 0^ 0/b 0 0/c 0 0/",
            "name from to/a 0 0/^",
            "name from to/a 0 0/b 0 0/^",
            "name from to/a 0 0/b 0 0/c 0 0^",
            "name from to/a 0 0/b 0 0/c 0 0/^/",
            "name from to/a 0 0/b 0 0/c 0 0/^ ",
            "name from to/a 0 0/b 0 0/c 0 0/^\0",
            "name from to/a 0 0/b 0 0/c 0 0/^d 0 0/",
        ],
    );
}

#[test]
fn refusal_18_not_the_next_input() {
    assert_refused(
        18,
        &[
            "name from to/^b 0 0/a 0 0/c 0 0/",
            "name from to/^x 0 0/b 0 0/c 0 0/",
            "name from to/^A 0 0/b 0 0/c 0 0/",
            "name from to/^aa 0 0/b 0 0/c 0 0/",
            "name from to/^a\r 0 0/b 0 0/c 0 0/",
            "name from to/^a\t0 0/b 0 0/c 0 0/",
            "name from to/^1 0 0/b 0 0/c 0 0/",
            "name from to/^ink 0 0/",
            "name from to/^123456789012345678901234567890 0 0/",
            // Judged before the byte after it, even at the end.
            "name from to/^b/",
            "name from to/^b",
            // A repeated line, a missing line.
            "name from to/a 0 0/^a 0 0/b 0 0/c 0 0/",
            "name from to/a 0 0/^c 0 0/",
            "name from to/a 0 0/b 0 0/^b 0 0/",
        ],
    );
}

#[test]
fn refusal_19_times() {
    assert_refused(
        19,
        &[
            "name from to/a ^x 0/b 0 0/c 0 0/",
            "name from to/a ^-1 0/b 0 0/c 0 0/",
            "name from to/a ^+1 1/b 0 0/c 0 0/",
            "name from to/a ^0x1 1/b 0 0/c 0 0/",
            "name from to/a ^1.0 1/b 0 0/c 0 0/",
            "name from to/a ^1_0 10/b 0 0/c 0 0/",
            "name from to/a ^00 0/b 0 0/c 0 0/",
            "name from to/a ^07 9/b 0 0/c 0 0/",
            "name from to/a 0 ^00/b 0 0/c 0 0/",
            "name from to/a 0 ^07/b 0 0/c 0 0/",
            "name from to/a ^65536 65536/b 0 0/c 0 0/",
            "name from to/a 0 ^65536/b 0 0/c 0 0/",
            "name from to/a ^99999 99999/b 0 0/c 0 0/",
            "name from to/a ^100000 0/b 0 0/c 0 0/",
            "name from to/a ^065535 65535/b 0 0/c 0 0/",
            // 1 more than 2 to the 16, to the 32 and to the 64.
            "name from to/a 0 ^65537/b 0 0/c 0 0/",
            "name from to/a 0 ^4294967297/b 0 0/c 0 0/",
            "name from to/a 0 ^18446744073709551617/b 0 0/c 0 0/",
            "name from to/a ^123456789012345678901234567890 0/b 0 0/c 0 0/",
            "name from to/a 0 ^0\r/b 0 0/c 0 0/",
            "name from to/a 0 ^0\t/b 0 0/c 0 0/",
            "name from to/a 0 ^0\0/b 0 0/c 0 0/",
            // `to` below `from`, at the `to` field.
            "name from to/a 1 ^0/b 0 0/c 0 0/",
            "name from to/a 10 ^9/b 0 0/c 0 0/",
            "name from to/a 65535 ^65534/b 0 0/c 0 0/",
            "name from to/a 0 0/b 0 0/c 2 ^1/",
            // Judged before the byte after it, even at the end.
            "name from to/a ^x/",
            "name from to/a ^x",
            "name from to/a 1 ^0 0/b 0 0/c 0 0/",
            "name from to/a 1 ^0",
        ],
    );
    for byte in [0x80, 0xe4, 0xff] {
        let sheet = [b"name from to\na ", &[byte][..], b" 0\n"].concat();
        assert_eq!(arrivals(&lines(NET), &sheet, 0), Err(of_arrivals(19, 15)));
    }
}

/// "The net sheet is judged first, then this one."
#[test]
fn the_net_sheet_is_judged_first() {
    let good = arrival_sheet("a 0 0/b 0 0/c 0 0");
    assert!(arrivals(&lines(NET), &good, 0).is_ok());
    for bad in [&b""[..], b"name from to\nb", b"name from to\na 1 0", &good] {
        let net = lines("levels inputs/2 3/a b c/left right table/a a 0110/");
        assert_eq!(arrivals(&net, bad, 9), Err(of_net(8, 43)));
        assert_eq!(arrivals(&good, bad, 9), Err(of_net(1, 0)));
        assert_eq!(arrivals(b"", bad, 9), Err(of_net(1, 0)));
    }
    assert_eq!(arrivals(&lines(NET), b"", 9), Err(of_arrivals(1, 0)));
    assert_eq!(
        arrivals(&lines(NET), &lines(NET), 9),
        Err(of_arrivals(1, 0))
    );
}

/// Returns whether an arrival sheet of a and b keeps the rules: whether it is the print
/// of the four times in it.
fn keeps_the_rules(sheet: &[u8]) -> bool {
    let text = String::from_utf8_lossy(sheet);
    let fields = text.split([' ', '\n']);
    let times: Vec<u16> = fields.filter_map(|field| field.parse().ok()).collect();
    let [p, q, r, s] = times[..] else {
        return false;
    };
    p <= q && r <= s && text == format!("name from to\na {p} {q}\nb {r} {s}\n")
}

/// Every single edit of a small sheet is accepted exactly if it keeps the
/// rules. What follows a refused field and the byte after it does not matter.
#[test]
fn every_single_edit() {
    let net = lines("levels inputs/2 2/a b/left right table/a b 0110/");
    let (header, _) = read_net_sheet(&net).expect("a good net sheet");
    let mut answers: HashMap<u8, usize> = HashMap::new();
    for rest in ["a 9 10/b 65535 65535", "a 0 65534/b 0 7"] {
        let good = arrival_sheet(rest);
        for sheet in single_edits(&good) {
            let answer = arrivals(&net, &sheet, 3);
            assert_eq!(answer.is_ok(), keeps_the_rules(&sheet));
            *answers
                .entry(answer.map_or_else(|refusal| refusal.number, |_| 0))
                .or_default() += 1;
            match answer {
                Ok(_) => {
                    let read = read_arrival_sheet(&sheet, &header).expect("accepted");
                    assert_eq!(print_arrival_sheet(&header, &read), sheet);
                }
                Err(refusal) => {
                    assert_eq!(refusal.sheet, Sheet::Arrivals);
                    let place = refusal.place as usize;
                    assert!(place <= sheet.len());
                    let field = sheet[place..].iter();
                    let length = field.take_while(|byte| !b" \n".contains(byte)).count();
                    if place + length < sheet.len() {
                        let front = [&sheet[..=place + length], b"\n\xff 1 x\n"].concat();
                        assert_eq!(arrivals(&net, &front, 3), Err(refusal));
                    }
                }
            }
        }
    }
    println!("answers {answers:?}");
    for number in [0, 1, 18, 19] {
        assert!(answers[&number] > 100, "{number}");
    }
}

#[test]
fn sheets_with_longer_names_and_more_inputs() {
    let net = net_sheet(3, "left right to", "left right 012112222/1 to 012112222");
    let sheet = arrival_sheet("left 0 1/right 1 2/to 65535 65535");
    assert_eq!(
        arrivals(&net, &sheet, 2),
        settled_between(16_384.25, 16_384.25)
    );
    let other = arrival_sheet("left 0 1/to 1 2/right 0 0");
    assert_eq!(arrivals(&net, &other, 2), Err(of_arrivals(18, 22)));
}
