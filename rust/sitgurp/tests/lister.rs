//! The lister: at every position of any bytes, and its turns by number. Its turns on net sheets are compared with the second implementation in sheets.rs.

use crate::common::got;
use reference::damage::byte_damages;
use reference::generate::Generator;
use sitgurp::{gate_line, line_at, Lister};

const SEED: u64 = 1_093;

/// The line from `at` on and the position after it, as the header says it.
fn due(sheet: &[u8], at: usize) -> (Option<&[u8]>, usize) {
    let Some(rest) = sheet.get(at..).filter(|rest| !rest.is_empty()) else {
        return (None, sheet.len());
    };
    match rest.iter().position(|&byte| byte == b'\n') {
        Some(length) => (Some(&rest[..length]), at + length + 1),
        None => (Some(rest), sheet.len()),
    }
}

#[test]
fn every_position_of_any_bytes() {
    println!("seed {SEED}");
    let mut generator = Generator::new(SEED);
    let mut sheets = vec![vec![], vec![b'\n'], b"\n\n".to_vec(), vec![0, 255, b'\r']];
    sheets.extend((0..40).map(|_| {
        let (m, n) = generator.size();
        generator.net_sheet(m, n)
    }));
    sheets.push((0..=255).collect());
    for sheet in &sheets {
        let past = [sheet.len() + 1, 1 << 32, usize::MAX - 1, usize::MAX];
        for at in (0..=sheet.len()).chain(past) {
            assert_eq!(line_at(sheet, at), due(sheet, at), "{sheet:?} at {at}");
        }
    }
}

/// Followed from its start, the lister gives the turns of their numbers, or both refuse alike.
#[test]
fn turns_by_number() {
    let mut generator = Generator::new(SEED + 1);
    for _ in 0..10 {
        let (m, n) = generator.size();
        let sheet = generator.net_sheet(m, n);
        for damaged in byte_damages(&sheet).chain([sheet.clone()]) {
            match got(Lister::start(&damaged)) {
                Ok(mut lister) => {
                    for k in 0..14 {
                        assert_eq!(gate_line(&damaged, k), Ok(lister.next()));
                    }
                    assert_eq!(gate_line(&damaged, usize::MAX), Ok(None));
                }
                Err(refusal) => {
                    for k in [0, 1, usize::MAX] {
                        assert_eq!(got(gate_line(&damaged, k)), Err(refusal));
                    }
                }
            }
        }
    }
}

#[test]
fn the_library_has_the_version_of_the_crate() {
    let parts = env!("CARGO_PKG_VERSION")
        .split('.')
        .map(|part| part.parse::<u32>().expect("a number"));
    let number = parts.fold(0, |sum, part| {
        assert!(part < 100);
        sum * 100 + part
    });
    assert_eq!(sitgurp::version(), number);
}
