//! Arrival times, held against the second implementation, bit for bit: every allowed size, every single edit of a small arrival sheet, damaged
//! sheets of both kinds, the ends of what times and delays may be.

use crate::common::{due, got, sizes, Back};
use reference::arrivals::Arrival;
use reference::damage::{byte_damages, single_edits};
use reference::generate::Generator;
use reference::sheet::{print_arrival_sheet, print_net_sheet, read_net_sheet, Header};
use sitgurp::{Named, Settling};
use std::collections::BTreeMap;

const SEED: u64 = 65_535;

/// Both implementations on the same sheets: refused alike, or the same bits.
fn same(net: &[u8], arrivals: &[u8], delay: u8) -> Result<Settling, Back> {
    let answer = got(sitgurp::arrivals(net, arrivals, delay));
    let expected = due(reference::arrivals(net, arrivals, delay));
    let ours = answer.map(|times| [times.earliest, times.latest].map(f64::to_bits));
    let theirs = expected.map(|times| [times.earliest, times.latest].map(f64::to_bits));
    let texts = [net, arrivals].map(String::from_utf8_lossy);
    assert_eq!(ours, theirs, "sheets {texts:?}, delay {delay}");
    answer
}

/// A good net sheet and a good arrival sheet of its inputs.
fn sheets(generator: &mut Generator, m: usize, n: usize) -> (Vec<u8>, Vec<u8>) {
    let header = generator.header(m, n);
    let net = generator.net(m, n);
    let arrivals = generator.arrival_sheet(&header);
    (print_net_sheet(&header, &net), arrivals)
}

fn header_of(net: &[u8]) -> Header {
    read_net_sheet(net).expect("a good net sheet").0
}

#[test]
fn every_size() {
    println!("seed {SEED}");
    let mut generator = Generator::new(SEED);
    for (m, n) in sizes() {
        for _ in 0..60 {
            let (net, arrivals) = sheets(&mut generator, m, n);
            for delay in [0, 1, 4, 255, generator.rng.below(256) as u8] {
                let times = same(&net, &arrivals, delay).expect("good sheets");
                assert!(times.earliest <= times.latest);
            }
        }
    }
}

/// Wherever the gates are, the last input to arrive decides where the delay is 0; with the largest delay the deepest does where all arrive
/// together.
#[test]
fn the_ends_of_times_and_delays() {
    let mut generator = Generator::new(SEED + 1);
    for (m, n) in sizes() {
        let net = generator.net_sheet(m, n);
        let header = header_of(&net);
        let layers = read_net_sheet(&net).expect("a good net sheet").1.layers() as f64;
        let all = |from, to| print_arrival_sheet(&header, &vec![Arrival::of(from, to); n]);
        let settling = |sheet: &[u8], delay| {
            let times = same(&net, sheet, delay).expect("good sheets");
            (times.earliest, times.latest)
        };
        assert_eq!(settling(&all(0, 0), 0), (0.0, 0.0));
        assert_eq!(settling(&all(0, 65_535), 0), (0.0, 16_383.75));
        let slow = 63.75 * layers;
        assert_eq!(settling(&all(0, 0), 255), (slow, slow));
        assert_eq!(settling(&all(0, 65_535), 255), (slow, 16_383.75 + slow));
    }
    // ten gates of 255 quarters after 65,535 quarters
    let names: Vec<Vec<u8>> = (0..11).map(|input| vec![b'a' + input]).collect();
    let mut net =
        "levels inputs\n2 11\na b c d e f g h i j k\nleft right table\na b 0110\n".to_string();
    for gate in 1..10 {
        net += &format!("{gate} {} 0110\n", char::from(b'b' + gate));
    }
    let header = Header { m: 2, n: 11, names };
    let late = print_arrival_sheet(&header, &[Arrival::Fixed(65_535); 11]);
    let times = same(net.as_bytes(), &late, 255).expect("good sheets");
    assert_eq!(times.latest.to_bits(), 0x40d0_9f50_0000_0000);
    assert_eq!(times.earliest.to_bits(), 0x40d0_9f50_0000_0000);
}

#[test]
fn every_time_and_every_delay() {
    let net = b"levels inputs\n2 2\na b\nleft right table\na b 0110\n";
    for time in 0..=65_535_u32 {
        let sheet = format!("name from to\na {time} {time}\nb 0 {time}\n");
        let delay = (time % 256) as u8;
        let times = same(net, sheet.as_bytes(), delay).expect("good sheets");
        let quarters = f64::from(time) + f64::from(delay);
        assert_eq!(
            (times.earliest * 4.0, times.latest * 4.0),
            (quarters, quarters)
        );
    }
    for delay in 0..=255 {
        let times = same(net, b"name from to\na 0 1\nb 0 3\n", delay).expect("good sheets");
        let quarters = f64::from(delay);
        assert_eq!(
            (times.earliest * 4.0, times.latest * 4.0),
            (quarters, quarters + 3.0)
        );
    }
}

/// Each input's arrival anywhere inside its range: the output settles between the two times, which are met.
#[test]
fn every_arrival_inside_the_ranges() {
    let mut generator = Generator::new(SEED + 2);
    for _ in 0..200 {
        let net = generator.net_sheet(2, 3);
        let header = header_of(&net);
        let delay = generator.rng.below(6) as u8;
        let mut range = || {
            let from = generator.rng.below(9) as u64;
            (from, from + generator.rng.below(4) as u64)
        };
        let ranges = [range(), range(), range()];
        let sheet = print_arrival_sheet(&header, &ranges.map(|(from, to)| Arrival::of(from, to)));
        let between = same(&net, &sheet, delay).expect("good sheets");
        let mut seen = Vec::new();
        for a in ranges[0].0..=ranges[0].1 {
            for b in ranges[1].0..=ranges[1].1 {
                for c in ranges[2].0..=ranges[2].1 {
                    let fixed = print_arrival_sheet(&header, &[a, b, c].map(Arrival::Fixed));
                    let times = sitgurp::arrivals(&net, &fixed, delay).expect("good sheets");
                    assert_eq!(times.earliest, times.latest);
                    seen.push(times.earliest);
                }
            }
        }
        assert!(seen
            .iter()
            .all(|time| (between.earliest..=between.latest).contains(time)));
        assert!(seen.contains(&between.earliest) && seen.contains(&between.latest));
    }
}

// ---- refusals

#[test]
fn every_single_edit() {
    let net = b"levels inputs\n2 2\na b\nleft right table\na b 0110\n";
    let mut numbers: BTreeMap<usize, usize> = BTreeMap::new();
    for sheet in [
        &b"name from to\na 9 10\nb 65535 65535\n"[..],
        b"name from to\na 0 65534\nb 0 7\n",
    ] {
        for edited in single_edits(sheet) {
            let number = match same(net, &edited, 3) {
                Ok(_) => 0,
                Err((number, _, named)) => {
                    assert_eq!(named, Named::Arrivals);
                    number
                }
            };
            *numbers.entry(number).or_default() += 1;
        }
    }
    println!("{numbers:?}");
    assert_eq!(numbers.into_keys().collect::<Vec<_>>(), [0, 1, 18, 19]);
}

#[test]
fn every_byte_damaged() {
    let mut generator = Generator::new(SEED + 3);
    for (m, n) in [(2, 2), (3, 3), (2, 5), (9, 2), (2, 11)] {
        let (net, arrivals) = sheets(&mut generator, m, n);
        for damaged in byte_damages(&net) {
            same(&damaged, &arrivals, 7).ok();
        }
        for damaged in byte_damages(&arrivals) {
            same(&net, &damaged, 7).ok();
        }
    }
}

#[test]
fn damaged_fields_and_lines() {
    let mut generator = Generator::new(SEED + 4);
    let (mut of_net, mut of_arrivals) = (0, 0);
    for _ in 0..3_000 {
        let (m, n) = generator.size();
        let (net, arrivals) = sheets(&mut generator, m, n);
        let damaged = generator.damaged(&arrivals);
        let again = generator.damaged(&damaged);
        for sheet in [&damaged, &again] {
            of_arrivals += usize::from(same(&net, sheet, 200).is_err());
        }
        // the net sheet is judged first, whatever the other
        let damaged_net = generator.damaged(&net);
        if let Err((number, place, named)) = same(&damaged_net, &damaged, 200) {
            let alone = got(sitgurp::table_of(&damaged_net)).err();
            assert_eq!(alone.is_some(), named == Named::Net);
            assert!(alone.is_none_or(|refusal| refusal == (number, place, named)));
            of_net += usize::from(named == Named::Net);
        }
    }
    println!("{of_net} net sheets and {of_arrivals} arrival sheets refused");
    assert!(of_net > 2_000 && of_arrivals > 3_000);
}

/// Sheets in each other's place, of other inputs, and bytes that are no sheet.
#[test]
fn other_sheets() {
    let mut generator = Generator::new(SEED + 5);
    for (m, n) in sizes() {
        let (net, arrivals) = sheets(&mut generator, m, n);
        same(&arrivals, &net, 1).expect_err("exchanged");
        let mut header = header_of(&net);
        header.names.rotate_left(1);
        same(&net, &generator.arrival_sheet(&header), 1).expect_err("another order");
        let (p, q) = generator.size();
        same(&net, &sheets(&mut generator, p, q).1, 1).expect_err("other names");
        for sheet in [
            &b""[..],
            b"\n",
            b" ",
            b"\0",
            b"\xff",
            b"name",
            b"name from to\n",
        ] {
            same(&net, sheet, 1).expect_err("no arrival sheet");
            same(sheet, &arrivals, 1).expect_err("no net sheet");
            same(sheet, sheet, 1).expect_err("no sheets");
        }
    }
}
