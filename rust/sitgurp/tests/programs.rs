//! The proved programs, run on standard input, against what the second implementation says they print.

use reference::generate::{Generator, TableKind};
use reference::programs::{make_program, settle_program};
use std::fs::File;
use std::io::{Seek, Write};
use std::path::{Path, PathBuf};
use std::process::{Command, Stdio};

const SEED: u64 = 512;

fn program(name: &str) -> PathBuf {
    Path::new(env!("CARGO_MANIFEST_DIR"))
        .join("../../crates")
        .join(name)
        .join("out")
        .join(name)
}

/// What the program prints for these bytes on standard input, written in two pieces: a short read is not the end.
fn printed(program: &str, input: &[u8]) -> Vec<u8> {
    let path = self::program(program);
    let mut child = Command::new(&path)
        .stdin(Stdio::piped())
        .stdout(Stdio::piped())
        .spawn()
        .unwrap_or_else(|fault| panic!("{}: {fault}; `rt run` builds it", path.display()));
    let mut stdin = child.stdin.take().expect("a pipe");
    let (front, back) = input.split_at(input.len() / 3);
    // past its first 65,536 bytes the program does not read, and the pipe may close
    stdin
        .write_all(front)
        .and_then(|()| stdin.flush())
        .and_then(|()| stdin.write_all(back))
        .ok();
    drop(stdin);
    let output = child.wait_with_output().expect("the program ends");
    assert!(output.status.success(), "{program} ends with status 0");
    output.stdout
}

fn same(program: &str, second: fn(&[u8]) -> Vec<u8>, input: &[u8]) {
    let (ours, theirs) = (printed(program, input), second(input));
    assert!(
        ours == theirs,
        "{program}: {:?}",
        String::from_utf8_lossy(&ours)
    );
}

#[test]
fn nets_and_tables_of_every_size() {
    println!("seed {SEED}");
    let mut generator = Generator::new(SEED);
    for (m, n) in reference::allowed_sizes() {
        let (m, n) = (m as usize, n as usize);
        same("settle", settle_program, &generator.net_sheet(m, n));
        for kind in [
            TableKind::OfNet,
            TableKind::Random,
            TableKind::OneInkChanged,
        ] {
            same("make", make_program, &generator.table_sheet(m, n, kind));
        }
    }
}

#[test]
fn damaged_sheets() {
    let mut generator = Generator::new(SEED + 1);
    for _ in 0..150 {
        let (m, n) = generator.size();
        let net = generator.net_sheet(m, n);
        same("settle", settle_program, &generator.damaged(&net));
        let table = generator.table_sheet(m, n, TableKind::OfNet);
        same("make", make_program, &generator.damaged(&table));
    }
    for input in [&b""[..], b"\n", b"levels inputs\n2 2\n"] {
        same("settle", settle_program, input);
        same("make", make_program, input);
    }
}

/// Loose sheets, tidied: the table sheet, or the refusal.
#[test]
fn loose_sheets() {
    let strict = |n: usize| Generator::new(SEED + 2).table_sheet(2, n, TableKind::Random);
    let loosened = |sheet: &[u8]| {
        let text = String::from_utf8(sheet.to_vec()).expect("ASCII");
        let mut lines: Vec<String> = text.lines().map(|l| l.replace(' ', "  ") + " ").collect();
        lines[3..].reverse();
        (lines.join("\n") + "\n").into_bytes()
    };
    for n in 2..10 {
        assert_eq!(printed("tidy", &strict(n)), strict(n));
        assert_eq!(printed("tidy", &loosened(&strict(n))), strict(n));
    }
    // 11 inputs: the strict sheet fits what a program reads, the loosened one does not
    assert_eq!(printed("tidy", &strict(11)), strict(11));
    assert_eq!(
        printed("tidy", &loosened(&strict(11))),
        b"number place\n1 65536\n"
    );
    let twice = b"levels inputs\n2 2\na b ink\n1 1 1\n1 1 1\n";
    assert_eq!(printed("tidy", twice), b"number place\n20 32\n");
}

/// Of a file of 70,000 bytes a program reads the first 65,536: there the file stands when it has ended.
#[test]
fn a_program_reads_its_first_bytes() {
    let path = Path::new(env!("CARGO_TARGET_TMPDIR")).join("long_input");
    std::fs::write(&path, vec![b'0'; 70_000]).expect("a file");
    for name in ["settle", "make", "tidy"] {
        let mut file = File::open(&path).expect("the file");
        let lent = file.try_clone().expect("the same file");
        let output = Command::new(program(name))
            .stdin(lent)
            .output()
            .expect("the program runs");
        assert_eq!(output.stdout, b"number place\n1 0\n");
        assert_eq!(file.stream_position().expect("a place"), 65_536);
    }
}

/// Bytes after the last line, more of them than a program reads.
#[test]
fn a_sheet_and_then_far_too_much() {
    let mut generator = Generator::new(SEED + 2);
    for (m, n) in [(2, 2), (2, 11), (4, 6)] {
        let mut net = generator.net_sheet(m, n);
        net.resize(70_000, b'\n');
        same("settle", settle_program, &net);
        let mut table = generator.table_sheet(m, n, TableKind::OfNet);
        table.resize(70_000, b'0');
        same("make", make_program, &table);
    }
}

/// A table of 2 with 12 is made by the library, and refused by the program with 1 at 65,536, as any sheet that has not ended by then; a
/// fault before that place decides.
#[test]
fn a_table_sheet_that_is_longer_than_what_is_read() {
    let mut generator = Generator::new(SEED + 3);
    for kind in TableKind::ALL {
        let mut table = generator.table_sheet(2, 12, kind);
        assert!(table.len() > 65_536);
        let made = sitgurp::made(&table);
        assert!(made.is_ok() || made.is_err_and(|refusal| refusal.number == 16));
        assert_eq!(printed("make", &table), b"number place\n1 65536\n");
        same("make", make_program, &table[..65_536]);
        for place in [65_534, 65_535, 65_536, 65_537, 70_000] {
            let byte = std::mem::replace(&mut table[place], b'x');
            same("make", make_program, &table);
            table[place] = byte;
        }
    }
    // every other size is read whole
    for (m, n) in [(2, 11), (4, 6), (5, 5), (7, 4), (8, 4)] {
        let table = generator.table_sheet(m, n, TableKind::Sum);
        assert!(table.len() < 65_536);
        let net = sitgurp::made(&table).expect("a sum has a tree");
        assert_eq!(printed("make", &table), net);
    }
}
