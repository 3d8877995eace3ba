//! How marks are stored in a buffer: "packed four to a byte, group 0 in the lowest
//! two bits of byte 0".

use crate::common::*;
use reference::generate::{Generator, TableKind};
use reference::marks::{marks_of, needed, store, stored};
use reference::{allowed_sizes, marking};

/// One mark among zeros: only its own two bits are set, and the bytes beyond the
/// needed length are kept.
#[test]
fn a_mark_has_two_bits_of_its_own() {
    for n in 2..=5 {
        for group in 0..1 << n {
            for (mark, bits) in [(1, [0x01, 0x04, 0x10, 0x40]), (2, [0x02, 0x08, 0x20, 0x80])] {
                let mut of_groups = vec![0; 1 << n];
                of_groups[group] = mark;
                let mut buffer = vec![0xff; needed(n) + 1];
                store(&of_groups, &mut buffer);
                let mut due = vec![0; needed(n)];
                due[group / 4] = bits[group % 4];
                due.push(0xff);
                assert_eq!(buffer, due);
                assert_eq!(stored(&buffer, group), mark);
            }
        }
    }
}

#[test]
fn the_lengths_needed() {
    let lengths = (2..=12).map(needed);
    assert_eq!(
        lengths.collect::<Vec<_>>(),
        [1, 2, 4, 8, 16, 32, 64, 128, 256, 512, 1_024]
    );
}

/// At every size: the marks written are those of the groups, whatever
/// the buffer held, and the answer is the whole group's.
#[test]
fn marks_of_every_size() {
    let seed = 2_842;
    println!("seed {seed}");
    let mut generator = Generator::new(seed);
    let mut seen = [0; 3];
    for (m, n) in allowed_sizes() {
        // a few kinds at the sizes whose tables take long to mark
        let step = if n > 8 { 4 } else { 1 };
        for kind in TableKind::ALL.into_iter().step_by(step) {
            let table = generator.table(m as usize, n as usize, kind);
            let of_groups = marks_of(&table);
            let length = needed(n as usize);
            let mut marks = vec![generator.rng.below(256) as u8; length + 3];
            let kept = marks[length];
            let whole = marking(m, n, &table.inks, &mut marks);
            assert_eq!(whole.as_ref().ok(), of_groups.last());
            assert_eq!(unpacked(&marks[..length]), of_groups);
            assert_eq!(marks[..length], packed(&of_groups));
            assert_eq!(marks[length..], [kept; 3]);
            for (group, &mark) in of_groups.iter().enumerate() {
                assert_eq!(stored(&marks, group), mark);
                seen[usize::from(mark)] += 1;
            }
        }
    }
    println!("marks 0, 1, 2: {seen:?}");
    assert!(seen.iter().all(|&count| count > 100));
}
