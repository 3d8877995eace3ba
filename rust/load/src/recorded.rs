//! Calls with all their arguments and results, as bytes that another program can replay.
//!
//! A call is its number in [`NAMES`], the count of its arguments, each argument, the count of the words of its answer, each word, and for each
//! buffer whether the call changed it, and if so its bytes. Numbers have 8 bytes, lowest first. An argument is one byte for its kind ([`NUMBER`],
//! [`BYTES`] or [`BUFFER`]), and then the number, or a length and that many bytes.

use crate::c::{self, Read, Write};

/// The calls, in the order of their numbers.
#[rustfmt::skip]
pub const NAMES: [&str; 22] = [
    "multiplicity", "marking", "settle", "make", "settle_shallow", "make_shallow", "family_count", "family_tree", "shallower", "check", "keep",
    "write_table", "tidy", "gate_line", "arrivals", "job_open_parts", "job_step_parts", "job_mark_parts", "job_finish_parts", "glyph",
    "lister_open", "lister_next",
];

pub const NUMBER: u8 = 0;
/// Bytes that the call reads.
pub const BYTES: u8 = 1;
/// Bytes that the call may write.
pub const BUFFER: u8 = 2;

/// An argument of a recorded call.
#[derive(Clone)]
pub enum Argument {
    Number(u64),
    Bytes(Vec<u8>),
    Buffer(Vec<u8>),
    /// A part of a job that the call reads: a pointer without a length.
    Part(Vec<u8>),
    /// A part of a job that the call may write.
    Own(Vec<u8>),
}

use Argument::{Buffer, Bytes, Number, Own, Part};

impl Argument {
    /// Appends the words that C passes: the number, the pointer, or the pointer and the length.
    fn pass(&mut self, words: &mut Vec<u64>) {
        match self {
            Number(number) => words.push(*number),
            Bytes(bytes) => words.extend([bytes.as_ptr() as u64, bytes.len() as u64]),
            Buffer(bytes) => words.extend([bytes.as_mut_ptr() as u64, bytes.len() as u64]),
            Part(bytes) => words.push(bytes.as_ptr() as u64),
            Own(bytes) => words.push(bytes.as_mut_ptr() as u64),
        }
    }

    /// Appends the argument as it is recorded.
    fn put(&self, out: &mut Vec<u8>) {
        let (tag, number, bytes): (u8, u64, &[u8]) = match self {
            Number(number) => (NUMBER, *number, &[]),
            Bytes(bytes) | Part(bytes) => (BYTES, bytes.len() as u64, bytes),
            Buffer(bytes) | Own(bytes) => (BUFFER, bytes.len() as u64, bytes),
        };
        out.push(tag);
        out.extend(number.to_le_bytes());
        out.extend(bytes);
    }

    /// Returns the bytes, if the call may write them.
    fn buffer(&self) -> Option<&[u8]> {
        match self {
            Buffer(bytes) | Own(bytes) => Some(bytes),
            _ => None,
        }
    }

    /// Returns the bytes.
    pub fn into_bytes(self) -> Vec<u8> {
        match self {
            Number(number) => number.to_le_bytes().to_vec(),
            Bytes(bytes) | Buffer(bytes) | Part(bytes) | Own(bytes) => bytes,
        }
    }
}

/// Makes a call with the library, and returns the words of its answer. The given words are those that C passes.
#[rustfmt::skip]
fn answer(name: &str, words: &[u64]) -> Vec<u64> {
    let r = |word: u64| word as Read;
    let w = |word: u64| word as Write;
    // SAFETY: each pointer is that of a vector of the length next to it, or of a job's part with the length that the header requires. No two overlap.
    unsafe {
        match (name, words) {
            ("multiplicity", &[m, n, s, l, g]) => c::sitgurp_multiplicity(m, n, r(s), l, g).0.into(),
            ("marking", &[m, n, s, l, o, ol]) => c::sitgurp_marking(m, n, r(s), l, w(o), ol).0.into(),
            ("settle", &[s, l, a, al, b, bl, o, ol]) => c::sitgurp_settle(r(s), l, w(a), al, w(b), bl, w(o), ol).0.into(),
            ("make", &[s, l, a, al, b, bl, o, ol]) => c::sitgurp_make(r(s), l, w(a), al, w(b), bl, w(o), ol).0.into(),
            ("settle_shallow", &[s, l, a, al, b, bl, o, ol]) => c::sitgurp_settle_shallow(r(s), l, w(a), al, w(b), bl, w(o), ol).0.into(),
            ("make_shallow", &[s, l, a, al, b, bl, o, ol]) => c::sitgurp_make_shallow(r(s), l, w(a), al, w(b), bl, w(o), ol).0.into(),
            ("family_count", &[s, l, a, al, b, bl]) => c::sitgurp_family_count(r(s), l, w(a), al, w(b), bl).0.into(),
            ("family_tree", &[s, l, k, a, al, b, bl, o, ol]) => c::sitgurp_family_tree(r(s), l, k, w(a), al, w(b), bl, w(o), ol).0.into(),
            ("shallower", &[s, l, t, tl]) => c::sitgurp_shallower(r(s), l, r(t), tl).0.into(),
            ("check", &[s, l, t, tl, a, al]) => c::sitgurp_check(r(s), l, r(t), tl, w(a), al).0.into(),
            ("keep", &[s, l, t, tl, a, al, o, ol]) => c::sitgurp_keep(r(s), l, r(t), tl, w(a), al, w(o), ol).0.into(),
            ("write_table", &[s, l, o, ol]) => c::sitgurp_write_table(r(s), l, w(o), ol).0.into(),
            ("tidy", &[s, l, a, al, o, ol]) => c::sitgurp_tidy(r(s), l, w(a), al, w(o), ol).0.into(),
            ("gate_line", &[s, l, k]) => c::sitgurp_gate_line(r(s), l, k).0.into(),
            ("arrivals", &[s, l, t, tl, delay]) => c::sitgurp_arrivals(r(s), l, r(t), tl, delay as u8).0.into(),
            ("job_open_parts", &[s, l, lines, a, b, passed]) => c::sitgurp_job_open_parts(r(s), l, w(lines), w(a), w(b), w(passed)).0.into(),
            ("job_step_parts", &[lines, a, b, passed]) => c::sitgurp_job_step_parts(r(lines), r(a), w(b), w(passed)).0.into(),
            ("job_mark_parts", &[lines, b, passed, g]) => c::sitgurp_job_mark_parts(r(lines), r(b), passed, g).0.into(),
            ("job_finish_parts", &[lines, own, passed, a, al, b, bl, o, ol]) => {
                c::sitgurp_job_finish_parts(r(lines), r(own), passed, w(a), al, w(b), bl, w(o), ol).0.into()
            }
            ("glyph", &[s, l, x, y, p, pl, f, fl, o, ol]) => c::sitgurp_glyph(r(s), l, x, y, r(p), pl, r(f), fl, w(o), ol).0.into(),
            ("lister_open", &[s, l]) => c::sitgurp_lister_open(r(s), l).0.into(),
            ("lister_next", &[s, l, at]) => c::sitgurp_lister_next(r(s), l, at).0.into(),
            _ => unreachable!("a call with its arguments"),
        }
    }
}

/// Makes a call, appends its record, and returns the arguments as the call leaves them.
pub fn record(out: &mut Vec<u8>, name: &str, before: Vec<Argument>) -> Vec<Argument> {
    let mut after = before.clone();
    let mut words = Vec::new();
    after.iter_mut().for_each(|one| one.pass(&mut words));
    let answer = answer(name, &words);
    let number = NAMES.iter().position(|one| *one == name).expect("a name");
    out.extend((number as u64).to_le_bytes());
    out.extend((before.len() as u64).to_le_bytes());
    before.iter().for_each(|one| one.put(out));
    out.extend((answer.len() as u64).to_le_bytes());
    answer
        .iter()
        .for_each(|word| out.extend(word.to_le_bytes()));
    for (before, after) in before.iter().zip(&after) {
        if let Some(bytes) = after.buffer() {
            let is_changed = before.buffer() != Some(bytes);
            out.push(u8::from(is_changed));
            if is_changed {
                out.extend(bytes);
            }
        }
    }
    after
}
