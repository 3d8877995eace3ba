//! The examples of docs/REFUSALS.md: they are the list of crates/rules/specs/Cases/Refusals.antt, in its order; the library gives each its
//! number, its place and its buffers; and the mark in the document stands at the place.

use sitgurp::{Job, Layered, Lister, Named, Refusal};
use std::collections::BTreeSet;
use std::path::Path;

/// An example as the list has it: what it is of, its texts, of which the marks buffer is the last where it is one, and its numbers, of which the
/// last two are the refusal's number and place.
#[derive(Debug, PartialEq)]
struct Example {
    kind: String,
    texts: Vec<String>,
    numbers: Vec<usize>,
}

impl Example {
    fn number_and_place(&self) -> (usize, usize) {
        let (numbers, count) = (&self.numbers, self.numbers.len());
        (numbers[count - 2], numbers[count - 1])
    }
}

/// An example of the document: besides, its lines without the mark, and the byte of them that is marked.
struct Shown {
    example: Example,
    body: String,
    marked: Option<usize>,
}

fn file(path: &str) -> String {
    let path = Path::new(env!("CARGO_MANIFEST_DIR"))
        .join("../..")
        .join(path);
    std::fs::read_to_string(&path).unwrap_or_else(|error| panic!("{}: {error}", path.display()))
}

// ---- the document

/// The fenced examples of the document. A fence has what the example is of, number and place; then `crlf` where lines end in a carriage
/// return too, or `cut` where the last line feed is missing.
fn shown() -> Vec<Shown> {
    let document = file("docs/REFUSALS.md");
    let mut lines = document.lines();
    let mut examples = Vec::new();
    while let Some(line) = lines.next() {
        let Some(fence) = line.strip_prefix("```") else {
            continue;
        };
        let words: Vec<&str> = fence.split(' ').collect();
        let body: Vec<&str> = lines.by_ref().take_while(|line| *line != "```").collect();
        let (end, cut) = match words[3..] {
            [] => ("\n", false),
            ["crlf"] => ("\r\n", false),
            ["cut"] => ("\n", true),
            _ => panic!("fence {fence:?}"),
        };
        let (mut body, marked) = without_mark(&body, end);
        if cut {
            body.pop();
        }
        let refusal = [words[1], words[2]].map(|word| word.parse().expect("a number"));
        examples.push(Shown {
            example: example(words[0], &body, refusal),
            body,
            marked,
        });
    }
    examples
}

/// The lines without the one that holds the mark, and the byte above the mark.
fn without_mark(lines: &[&str], end: &str) -> (String, Option<usize>) {
    let mut body = String::new();
    let mut marked = None;
    let mut line_start = 0;
    for line in lines {
        if let Some(column) = line
            .strip_suffix('^')
            .filter(|spaces| spaces.trim().is_empty())
        {
            marked = Some(line_start + column.len());
        } else {
            line_start = body.len();
            body.push_str(line);
            body.push_str(end);
        }
    }
    (body, marked)
}

/// What the document's lines say, as the list has it. All but a sheet alone begin with a line of words and numbers; an empty line parts two
/// sheets, or a sheet from the buffers that the call changed.
fn example(kind: &str, body: &str, [number, place]: [usize; 2]) -> Example {
    let words = match kind {
        "net" | "table" | "arrival" | "loose" => &[][..],
        "glyph" => &["width", "height", "output"],
        "bare" => &["levels", "inputs"],
        "group" => &["levels", "inputs", "group"],
        "marking" => &["levels", "inputs", "marks"],
        "check" => &["cells"],
        "settle" | "make" => &["cells", "marks", "output"],
        "count" => &["cells", "marks"],
        "tree" => &["number", "cells", "marks", "output"],
        "write" => &["output"],
        "tidy" => &["cells", "output"],
        "further" => &["steps"],
        "ask" => &["steps", "group"],
        "finish" => &["steps", "cells", "marks", "output"],
        "keep" => &["cells", "output"],
        other => panic!("an example of {other:?}"),
    };
    let (mut numbers, rest) = match words {
        [] => (Vec::new(), body),
        _ => {
            let (first, rest) = body.split_once('\n').expect("a first line");
            (numbers_after(words, first), rest)
        }
    };
    let (sheet, after) = match rest.split_once("\n\n") {
        Some((sheet, after)) => (format!("{sheet}\n"), after),
        None => (rest.to_string(), ""),
    };
    let texts = match kind {
        "keep" => {
            let (table, after) = match after.split_once("\n\n") {
                Some((table, after)) => (format!("{table}\n"), after),
                None => (after.to_string(), ""),
            };
            let cells = match after.trim_end().strip_prefix("cells ") {
                Some(bytes) => digits(bytes),
                None => "9".repeat(numbers[0]),
            };
            vec![sheet, table, cells]
        }
        "bare" | "group" | "marking" => vec![digits(&sheet)],
        "check" => vec![sheet, after.to_string()],
        "tidy" => {
            let cells = match after.trim_end().split_once(' ') {
                Some(("cells", bytes)) => digits(bytes),
                None => "9".repeat(numbers[0]),
                _ => panic!("a buffer {after:?}"),
            };
            vec![sheet, cells]
        }
        "settle" | "make" | "count" | "tree" | "finish" => {
            let lengths = ["cells", "marks"].map(|buffer| {
                let at = words.iter().position(|word| *word == buffer);
                numbers[at.expect("a buffer of this call")]
            });
            let mut then = ["9".repeat(lengths[0]), vec!["9"; lengths[1]].join(" ")];
            for line in after.lines() {
                match line.split_once(' ') {
                    Some(("cells", bytes)) => then[0] = digits(bytes),
                    Some(("marks", bytes)) => then[1] = bytes.to_string(),
                    _ => panic!("a buffer {line:?}"),
                }
            }
            let [cells, marks] = then;
            vec![sheet, cells, marks]
        }
        "glyph" => {
            let mut lines = after.lines().map(|line| match line.split_once(' ') {
                Some(("picture" | "offsets", rest)) => rest.to_string(),
                _ => String::new(),
            });
            let mut next = || lines.next().expect("a line");
            let (picture, offsets) = (next(), next());
            vec![sheet, picture, offsets]
        }
        _ => vec![sheet],
    };
    numbers.extend([number, place]);
    Example {
        kind: kind.into(),
        texts,
        numbers,
    }
}

/// The numbers of a line in which one stands after each of the words.
fn numbers_after(words: &[&str], line: &str) -> Vec<usize> {
    let fields: Vec<&str> = line.split(' ').collect();
    let found: Vec<&str> = fields.iter().copied().step_by(2).collect();
    assert_eq!(found, words, "{line:?}");
    let numbers = fields.iter().skip(1).step_by(2);
    numbers
        .map(|field| field.parse().expect("a number"))
        .collect()
}

/// Single digits, without what parts them.
fn digits(text: &str) -> String {
    text.split_whitespace().collect()
}

// ---- the list

/// The examples of the list `refusals`.
fn listed() -> Vec<Example> {
    let specs = file("crates/rules/specs/Cases/Refusals.antt");
    let (_, list) = specs.split_once("\nrefusals =\n").expect("the list");
    let (list, _) = list.split_once("∷ []\n").expect("the list's end");
    let list: String = list
        .lines()
        .filter(|line| !line.trim_start().starts_with("--"))
        .map(|line| format!("{line}\n"))
        .collect();
    examples_of(&list).into_iter().map(listed_example).collect()
}

/// The parts of a list, which `∷` parts where it is in no brackets.
fn examples_of(list: &str) -> Vec<&str> {
    let (mut parts, mut start, mut depth) = (Vec::new(), 0, 0);
    for (at, letter) in list.char_indices() {
        match letter {
            '(' => depth += 1,
            ')' => depth -= 1,
            '∷' if depth == 0 => {
                parts.push(&list[start..at]);
                start = at + letter.len_utf8();
            }
            _ => {}
        }
    }
    parts.push(&list[start..]);
    parts
}

/// The calls that have a marks buffer.
const WITH_MARKS: [&str; 5] = ["settle", "make", "count", "tree", "finish"];

/// One example of the list: a word, then quoted texts, with `/` for the line feed, and numbers; last a marks buffer, where the call has one.
fn listed_example(words: &str) -> Example {
    let (kind, words) = words.trim().split_once(char::is_whitespace).expect("words");
    let (mut texts, mut numbers) = (Vec::new(), Vec::new());
    // a quote begins or ends a text, so every second part is one
    for (part, words) in words.split('"').enumerate() {
        if part % 2 == 1 {
            texts.push(words.replace("\\r", "\r").replace('/', "\n"));
        } else if texts.len() == 2 && WITH_MARKS.contains(&kind) {
            texts.push(listed_bytes(words.trim()));
        } else {
            let words = words.split_whitespace();
            numbers.extend(words.map(|word| word.parse::<usize>().expect("a number")));
        }
    }
    Example {
        kind: kind.into(),
        texts,
        numbers,
    }
}

/// The bytes of a list: `[]`, `(nines 1)` or `(0xa8 ∷ 9 ∷ [])`.
fn listed_bytes(list: &str) -> String {
    let list = list.trim_start_matches('(').trim_end_matches(')');
    if let Some(count) = list.strip_prefix("nines ") {
        return vec!["9"; count.parse().expect("a number")].join(" ");
    }
    let bytes = list.split('∷').map(str::trim);
    bytes
        .filter(|byte| *byte != "[]")
        .collect::<Vec<_>>()
        .join(" ")
}

// ---- the library

const NET: &str = "levels inputs\n2 2\na b\nleft right table\na b 0001\n";

fn nines(length: usize) -> Vec<u8> {
    vec![9; length]
}

/// Digits as the bytes 0 to 9.
fn bytes(digits: &str) -> Vec<u8> {
    digits.bytes().map(|digit| digit - b'0').collect()
}

/// The bytes of a marks buffer, decimal or hexadecimal.
fn marks_bytes(words: &str) -> Vec<u8> {
    let byte = |word: &str| match word.strip_prefix("0x") {
        Some(digits) => u8::from_str_radix(digits, 16).expect("a byte"),
        None => word.parse().expect("a byte"),
    };
    words.split_whitespace().map(byte).collect()
}

/// What a call answers, which must be a refusal: its number, its place and the sheet that it names.
fn refused<T: std::fmt::Debug>(answer: Result<T, Refusal>) -> (usize, usize, Named) {
    let refusal = answer.expect_err("an example is refused");
    (refusal.number, refusal.place, refusal.named)
}

/// The job on a sheet, the empty one where it is turned back, after so many steps.
fn job_after(sheet: &[u8], steps: usize) -> Job {
    let (mut job, _) = Job::open(sheet);
    (0..steps).for_each(|_| job.step().expect("a group still to go"));
    job
}

/// A call on a sheet, the cells, the marks and the output.
type SheetCall<T> = fn(&[u8], &mut [u8], &mut [u8], &mut [u8]) -> Result<T, Refusal>;

/// The library gives what the example says, and leaves the buffers as it says.
fn holds(example: &Example) {
    let texts: Vec<&[u8]> = example.texts.iter().map(|text| text.as_bytes()).collect();
    let numbers = &example.numbers;
    let (number, place) = example.number_and_place();
    let due = |named| (number, place, named);
    // 27 is the table sheet's, where a call is given one
    let state = match number {
        27 => Named::Table,
        _ => Named::Neither,
    };
    let (mut cells, mut marks, mut output) = (nines(100), nines(100), nines(600));
    match &example.kind[..] {
        "net" => {
            let settled = sitgurp::settle(texts[0], &mut cells, &mut marks, &mut output);
            assert_eq!(refused(settled), due(Named::Net));
            let shallow = sitgurp::settle_shallow(texts[0], &mut cells, &mut marks, &mut output);
            assert_eq!(refused(shallow), due(Named::Net));
            let checked = sitgurp::check(texts[0], b"", &mut cells);
            assert_eq!(refused(checked), due(Named::Net));
            let written = sitgurp::write_table(texts[0], &mut output);
            assert_eq!(refused(written), due(Named::Net));
            assert_eq!(refused(Lister::start(texts[0])), due(Named::Net));
            let arrivals = sitgurp::arrivals(texts[0], b"", 0);
            assert_eq!(refused(arrivals), due(Named::Net));
            let kept = sitgurp::keep(texts[0], b"", &mut cells, &mut output);
            assert_eq!(refused(kept), due(Named::Net));
            let glyph = sitgurp::glyph(texts[0], 0, usize::MAX, b"", &[], &mut output);
            assert_eq!(refused(glyph), due(Named::Net));
        }
        "arrival" => {
            for delay in [0, 255] {
                let arrivals = sitgurp::arrivals(NET.as_bytes(), texts[0], delay);
                assert_eq!(refused(arrivals), due(Named::Arrivals));
            }
        }
        "glyph" => {
            output = nines(numbers[2]);
            let picture = bytes(&digits(&example.texts[1]));
            let offsets = example.texts[2].split_whitespace();
            let offsets: Vec<i8> = offsets.map(|o| o.parse().expect("a number")).collect();
            let (width, height) = (numbers[0], numbers[1]);
            let glyph = sitgurp::glyph(texts[0], width, height, &picture, &offsets, &mut output);
            assert_eq!(refused(glyph), due(Named::Neither));
        }
        "table" => {
            let made = sitgurp::make(texts[0], &mut cells, &mut marks, &mut output);
            assert_eq!(refused(made), due(Named::Table));
            let shallow = sitgurp::make_shallow(texts[0], &mut cells, &mut marks, &mut output);
            assert_eq!(refused(shallow), due(Named::Table));
            let counted = sitgurp::family_count(texts[0], &mut cells, &mut marks);
            assert_eq!(refused(counted), due(Named::Table));
            let tree = sitgurp::family_tree(texts[0], 0, &mut cells, &mut marks, &mut output);
            assert_eq!(refused(tree), due(Named::Table));
            let checked = sitgurp::check(NET.as_bytes(), texts[0], &mut cells);
            assert_eq!(refused(checked), due(Named::Table));
            let kept = sitgurp::keep(NET.as_bytes(), texts[0], &mut cells, &mut output);
            assert_eq!(refused(kept), due(Named::Table));
            let (job, refusal) = Job::open(texts[0]);
            assert_eq!(refused(refusal.map_or(Ok(()), Err)), due(Named::Table));
            assert_eq!((job.groups(), job.passed()), (0, 0));
        }
        "further" => {
            let mut job = job_after(texts[0], numbers[0]);
            let before = job.clone();
            assert_eq!(refused(job.step()), due(Named::Neither));
            assert_eq!(job, before);
        }
        "ask" => {
            let job = job_after(texts[0], numbers[0]);
            assert_eq!(refused(job.mark(numbers[1])), due(Named::Neither));
        }
        "finish" => {
            let job = job_after(texts[0], numbers[0]);
            (cells, marks, output) = (nines(numbers[1]), nines(numbers[2]), nines(numbers[3]));
            let finished = job.finish(&mut cells, &mut marks, &mut output);
            assert_eq!(refused(finished), due(Named::Neither));
            assert_eq!(cells, bytes(&example.texts[1]));
            assert_eq!(marks, marks_bytes(&example.texts[2]));
            (cells, marks) = (nines(0), nines(0));
        }
        "loose" => {
            let tidied = sitgurp::tidy(texts[0], &mut cells, &mut output);
            assert_eq!(refused(tidied), due(Named::Table));
        }
        "tidy" => {
            (cells, output) = (nines(numbers[0]), nines(numbers[1]));
            let tidied = sitgurp::tidy(texts[0], &mut cells, &mut output);
            assert_eq!(refused(tidied), due(Named::Neither));
            assert_eq!(cells, bytes(&example.texts[1]));
            cells = nines(0);
        }
        "bare" => {
            let bare = bytes(&example.texts[0]);
            for group in 0..5 {
                let answer = sitgurp::multiplicity(numbers[0], numbers[1], &bare, group);
                assert_eq!(refused(answer), due(Named::Neither));
            }
            for length in [0, 100] {
                let answer = sitgurp::marking(numbers[0], numbers[1], &bare, &mut marks[..length]);
                assert_eq!(refused(answer), due(Named::Neither));
            }
        }
        "group" => {
            let bare = bytes(&example.texts[0]);
            let answer = sitgurp::multiplicity(numbers[0], numbers[1], &bare, numbers[2]);
            assert_eq!(refused(answer), due(Named::Neither));
        }
        "marking" => {
            marks = nines(numbers[2]);
            let bare = bytes(&example.texts[0]);
            let answer = sitgurp::marking(numbers[0], numbers[1], &bare, &mut marks);
            assert_eq!(refused(answer), due(Named::Neither));
        }
        "count" => {
            (cells, marks) = (nines(numbers[0]), nines(numbers[1]));
            let counted = sitgurp::family_count(texts[0], &mut cells, &mut marks);
            assert_eq!(refused(counted), due(state));
            assert_eq!(cells, bytes(&example.texts[1]));
            assert_eq!(marks, marks_bytes(&example.texts[2]));
            (cells, marks) = (nines(0), nines(0));
        }
        "tree" => {
            (cells, marks, output) = (nines(numbers[1]), nines(numbers[2]), nines(numbers[3]));
            let number = numbers[0] as u64;
            let tree = sitgurp::family_tree(texts[0], number, &mut cells, &mut marks, &mut output);
            assert_eq!(refused(tree), due(state));
            assert_eq!(cells, bytes(&example.texts[1]));
            assert_eq!(marks, marks_bytes(&example.texts[2]));
            (cells, marks) = (nines(0), nines(0));
        }
        "check" => {
            cells = nines(numbers[0]);
            let checked = sitgurp::check(texts[0], texts[1], &mut cells);
            assert_eq!(refused(checked), due(Named::Neither));
        }
        "keep" => {
            (cells, output) = (nines(numbers[0]), nines(numbers[1]));
            let kept = sitgurp::keep(texts[0], texts[1], &mut cells, &mut output);
            assert_eq!(refused(kept), due(state));
            assert_eq!(cells, bytes(&example.texts[2]));
            cells = nines(0);
        }
        "write" => {
            output = nines(numbers[0]);
            let written = sitgurp::write_table(texts[0], &mut output);
            assert_eq!(refused(written), due(Named::Neither));
        }
        kind => {
            // a shallow call refuses as the call that it stands beside
            let (call, shallow): (SheetCall<usize>, SheetCall<Layered>) = match kind {
                "settle" => (sitgurp::settle, sitgurp::settle_shallow),
                "make" => (sitgurp::make, sitgurp::make_shallow),
                other => panic!("an example of {other:?}"),
            };
            for shallowly in [false, true] {
                (cells, marks, output) = (nines(numbers[0]), nines(numbers[1]), nines(numbers[2]));
                let answer = match shallowly {
                    false => refused(call(texts[0], &mut cells, &mut marks, &mut output)),
                    true => refused(shallow(texts[0], &mut cells, &mut marks, &mut output)),
                };
                assert_eq!(answer, due(state));
                assert_eq!(cells, bytes(&example.texts[1]));
                assert_eq!(marks, marks_bytes(&example.texts[2]));
                assert_eq!(output, nines(numbers[2]));
            }
            (cells, marks) = (nines(0), nines(0));
        }
    }
    for buffer in [cells, marks, output] {
        assert_eq!(buffer, nines(buffer.len()), "a buffer has changed");
    }
}

#[test]
fn the_document_has_the_listed_examples() {
    let shown: Vec<Example> = shown().into_iter().map(|shown| shown.example).collect();
    let listed = listed();
    for (shown, listed) in shown.iter().zip(&listed) {
        assert_eq!(shown, listed, "document and list, in their order");
    }
    assert_eq!(shown.len(), listed.len());
    let numbers: BTreeSet<usize> = listed.iter().map(|e| e.number_and_place().0).collect();
    assert_eq!(numbers, (1..=27).collect(), "each number has an example");
}

#[test]
fn every_example_is_refused_as_it_says() {
    for shown in shown() {
        holds(&shown.example);
    }
}

#[test]
fn every_mark_stands_at_its_place() {
    for Shown {
        example,
        body,
        marked,
    } in shown()
    {
        let (number, place) = example.number_and_place();
        match number {
            // the end of a sheet, after a line feed, is marked in the line after it
            1..=8 | 18..=20 | 26 if place == body.len() && body.ends_with('\n') => {
                let last_line = body.trim_end().rfind('\n').map_or(0, |feed| feed + 1);
                assert_eq!(marked, Some(last_line));
            }
            1..=8 | 18..=20 | 26 => assert_eq!(marked, Some(place), "{example:?}"),
            // a cell and the space after it are two bytes of the line after the first
            10 | 27 if example.kind == "bare" => {
                let start = body.find('\n').expect("two lines") + 1;
                assert_eq!(marked, Some(start + 2 * place));
            }
            _ => assert_eq!(marked, None, "{example:?}"),
        }
    }
}

#[test]
fn a_refusal_in_words() {
    fn said<T: std::fmt::Debug>(answer: Result<T, Refusal>) -> String {
        answer.expect_err("refused").to_string()
    }
    assert_eq!(
        said(sitgurp::settled(b"levels inputs\n2 13\n")),
        "net sheet: inputs is not a number from 2 to 12, or there are over 4,096 cells (refusal 3 at byte 16, line 2, column 3)"
    );
    assert_eq!(
        said(sitgurp::multiplicity(2, 2, &[0, 1, 1, 3], 1)),
        "a cell is above levels (refusal 10 at index 3)"
    );
    assert_eq!(
        said(sitgurp::multiplicity(2, 2, &[0, 1, 2, 2], 1)),
        "a cell is left open, and a full table is needed (refusal 27 at index 2)"
    );
    assert_eq!(
        said(sitgurp::made(
            b"levels inputs\n2 2\na b ink\n0 0 -\n0 1 0\n1 0 0\n1 1 1\n"
        )),
        "table sheet: a cell is left open, and a full table is needed (refusal 27 at index 0)"
    );
    let (mut cells, mut marks, mut output) = (nines(4), nines(0), nines(512));
    assert_eq!(
        said(sitgurp::settle(
            NET.as_bytes(),
            &mut cells,
            &mut marks,
            &mut output
        )),
        "the marks buffer is too short (refusal 14; 1 byte is needed)"
    );
    assert_eq!(
        said(sitgurp::made(include_bytes!(
            "../../../examples/majority.table"
        ))),
        "no tree of two-input gates computes this table (refusal 16 at group 7: a, b, c)"
    );
    let family = sitgurp::Family::of(include_bytes!("../../../examples/seven.table"));
    let family = family.expect("a table sheet");
    assert_eq!(
        said(family.tree(family.size())),
        format!(
            "the table has no tree of this number (refusal 17 at number {})",
            family.size()
        )
    );
    let unused = b"levels inputs\n2 4\na b c d\nleft right table\na b 0001\nc d 0001\n";
    assert_eq!(
        said(sitgurp::settled(unused)),
        "net sheet: an earlier gate is never used (refusal 26 at byte 61, line 7, column 1)"
    );
    let one_gate = b"levels inputs\n2 3\na b c\nleft right table\na b 0001\n";
    let majority = include_bytes!("../../../examples/majority.table");
    assert_eq!(
        said(sitgurp::kept(one_gate, majority)),
        "no gate tables give this wiring the table (refusal 23; it leaves out an input that matters)"
    );
    let job = Job::of(majority);
    assert_eq!(
        said(job.expect("a table sheet").finished()),
        "the job is not done (refusal 22; 7 groups are still to go)"
    );
}
