//! `stream`: a call for each line, answered in order, whatever the lines are.

use crate::common::{example, is_wrong, Folder, CHAIN, SUM_NET, SUM_TABLE};
use std::io::{BufRead, BufReader, Read, Write};
use std::process::{Child, Command, Stdio};
use std::sync::atomic::{AtomicUsize, Ordering};
use std::sync::Arc;
use std::thread;
use std::time::Duration;

/// A text as JSON has it.
fn text(text: &str) -> String {
    format!(
        "\"{}\"",
        text.replace('\\', "\\\\")
            .replace('"', "\\\"")
            .replace('\n', "\\n")
    )
}

/// A line that asks for a call of these sheets.
fn line(id: &str, call: &str, sheets: &[&str]) -> String {
    let sheets: Vec<String> = sheets.iter().map(|sheet| text(sheet)).collect();
    format!(
        "{{\"id\":{id},\"call\":\"{call}\",\"sheets\":[{}]}}\n",
        sheets.join(",")
    )
}

/// What a stream of these lines answers.
fn answers(folder: &Folder, lines: &str) -> Vec<String> {
    let ended = folder.run_on("stream", lines.as_bytes());
    assert_eq!((ended.status, ended.err.as_str()), (0, ""));
    ended.out.lines().map(String::from).collect()
}

/// Every call answers what the command does with `--json`.
#[test]
fn calls_as_on_the_command_line() {
    let folder = Folder::new("stream_calls");
    let majority = example("majority.table");
    let arrivals = "name from to\na 0 2\nb 1 1\nc 0 8\n";
    let sheets = [
        ("sum.table", SUM_TABLE),
        ("sum.net", SUM_NET),
        ("chain.net", CHAIN),
        ("majority.table", &majority),
        ("sum.arrivals", arrivals),
        ("bad.net", "x\n"),
        ("cells.txt", "01\n10\n"),
    ];
    for (name, sheet) in sheets {
        folder.put(name, sheet);
    }
    let mut lines = String::new();
    let mut due = Vec::new();
    for (k, words) in [
        "make sum.table",
        "make sum.table --number 2",
        "make majority.table",
        "make sum.table --number 3",
        "why majority.table",
        "count sum.table",
        "check sum.net sum.table",
        "check chain.net sum.table",
        "same sum.net sum.net",
        "settle bad.net",
        "settle sum.net --shallow",
        "tidy sum.table",
        "invert sum.table --map 0=1,1=0",
        "table chain.net",
        "eval sum.net a=1 b=0 c=0",
        "gates sum.net",
        "keep sum.net sum.table",
        "arrivals sum.net sum.arrivals --delay 4",
        "draw sum.net --dot",
        "matrix sum.table --group a,b",
        "glyph sum.net cells.txt --at b=1,0",
        "page sum.table",
    ]
    .into_iter()
    .enumerate()
    {
        let mut parts = words.split(' ');
        let call = parts.next().expect("a call");
        let sheet_of = |word: &&str| sheets.iter().find(|(name, _)| name == word);
        let (named, more): (Vec<&str>, Vec<&str>) =
            parts.partition(|word| sheet_of(word).is_some());
        let named: Vec<String> = named
            .iter()
            .map(|word| text(sheet_of(word).expect("a sheet").1))
            .collect();
        let more: Vec<String> = more.iter().map(|word| text(word)).collect();
        lines += &format!(
            "{{\"words\":[{}], \"sheets\": [{}],\t\"call\":\"{call}\",\"id\":\"k{k}\"}}\n",
            more.join(","),
            named.join(", ")
        );
        let ended = folder.run(&format!("{words} --json"));
        let json = ended.out.trim_end();
        due.push((k, ended.status, json.to_string()));
    }
    let answered = answers(&folder, &lines);
    assert_eq!(answered.len(), due.len());
    for ((k, status, json), line) in due.into_iter().zip(answered) {
        let member = if json.starts_with("{\"refused\"") {
            ""
        } else {
            "\"answer\":"
        };
        let front = format!("{{\"id\":\"k{k}\",\"status\":{status},{member}");
        let line = line
            .strip_prefix(&front)
            .unwrap_or_else(|| panic!("{front} {line}"));
        match member {
            // the sheets have other names there
            "" => assert_eq!(number(line), number(&json), "{line}"),
            _ if json.contains("html") => assert!(line.starts_with("{\"html\":")),
            _ => assert_eq!(line.strip_suffix('}'), Some(json.as_str())),
        }
    }
}

/// The refusal in a line of JSON.
fn number(json: &str) -> &str {
    let (_, rest) = json.split_once("\"number\":").expect("a number");
    rest.split_once(",\"words\"").expect("words").0
}

#[test]
fn a_bad_line_stops_nothing() {
    let folder = Folder::new("stream_bad");
    let good = line("1", "count", &[SUM_TABLE]);
    let long = format!("{{\"id\":\"{}\"}}\n", "x".repeat(5 << 20));
    let deep = format!("{{\"id\":{}}}\n", "[".repeat(1 << 16));
    for (bad, said) in [
        ("\n", "\"error\":\"the line is blank\""),
        ("x\n", "\"error\":\"no JSON at column 1: `{` should be there\""),
        ("{\"id\":7\n", "{\"id\":7,\"status\":2,\"error\":\"no JSON at column 8: `}` should be there\",\"line\":2}"),
        ("{\"id\":7} x\n", "\"error\":\"no JSON at column 10: the end of the line should be there\""),
        ("{\"call\":\"nosuch\",\"id\":[1,2]}\n", "{\"id\":[1,2],\"status\":2,\"error\":\"there is no call `nosuch`\",\"line\":2}"),
        ("{\"call\":\"stream\",\"sheets\":[\"\"]}\n", "\"error\":\"there is no call `stream`\""),
        ("{\"sheets\":[\"\"]}\n", "\"error\":\"the member `call` is missing\""),
        ("{\"call\":\"make\"}\n", "\"error\":\"`make` takes 1 sheet, and there are 0\""),
        ("{\"call\":\"check\",\"sheets\":[\"\"]}\n", "\"error\":\"`check` takes 2 sheets, and there are 1\""),
        ("{\"call\":\"make\",\"sheet\":\"\"}\n", "\"error\":\"there is no member `sheet`; the members are id, call, sheets and words\""),
        ("{\"call\":\"make\",\"sheets\":[\"\"],\"words\":[\"-o\",\"x\"]}\n", "\"error\":\"sitgurp make: a stream writes no files\""),
        ("{\"call\":\"make\",\"sheets\":[\"\"],\"words\":[\"/etc/passwd\"]}\n", "is no option: a stream has its sheets in `sheets`"),
        ("{\"call\":\"make\",\"sheets\":[\"\"],\"words\":[\"--help\"]}\n", "\"error\":\"sitgurp make: a stream gives no help\""),
        ("{\"call\":\"make\",\"sheets\":[\"\"],\"words\":[\"--number\",\"x\"]}\n", "\"error\":\"sitgurp make: --number takes a whole number from 0, not `x`\""),
        ("{\"id\":1,\"id\":2}\n", "\"error\":\"the member `id` is there twice\""),
        (&long, "\"error\":\"the line is longer than 4,194,304 bytes\""),
        (&deep, "\"error\":\"no JSON at column "),
    ] {
        let answered = answers(&folder, &format!("{good}{bad}{good}"));
        assert_eq!(answered.len(), 3, "{said}");
        assert_eq!((answered[0].as_str(), answered[2].as_str()), (GOOD, GOOD));
        assert!(answered[1].contains(said), "{}", answered[1]);
        assert!(answered[1].contains("\"status\":2"), "{}", answered[1]);
    }
    // bytes that are no text, and a last line without its line feed
    let mut lines = good.clone().into_bytes();
    lines.extend(b"\xff\n");
    lines.extend(good.trim_end().as_bytes());
    let ended = folder.run_on("stream", &lines);
    assert_eq!(ended.out, format!("{GOOD}\n{{\"id\":null,\"status\":2,\"error\":\"the line is no UTF-8\",\"line\":2}}\n{GOOD}\n"));
    assert_eq!(folder.run_on("stream", b"").out, "");
}

const GOOD: &str = "{\"id\":1,\"status\":0,\"answer\":{\"trees\":3}}";

/// Large and small calls by turns, on one core and on many: the same bytes, in the order of the lines.
#[test]
fn answers_are_in_order() {
    let folder = Folder::new("stream_order");
    let wide = folder.run_on("table", CHAIN.as_bytes()).out;
    let mut lines = String::new();
    for k in 0..1_200 {
        let sheet = [SUM_TABLE, "x\n", &wide][k % 3];
        let call = ["make", "count", "why", "page"][k % 4];
        lines += &line(&k.to_string(), call, &[sheet]);
    }
    folder.put("lines", &lines);
    let one = folder.run("stream lines --jobs 1");
    assert_eq!((one.status, one.out.lines().count()), (0, 1_200));
    for (k, answer) in one.out.lines().enumerate() {
        assert!(
            answer.starts_with(&format!("{{\"id\":{k},\"status\":")),
            "{answer}"
        );
    }
    assert_eq!(folder.run("stream lines --jobs 7"), one);
    assert_eq!(folder.run("stream lines"), one);
}

fn started(folder: &Folder, words: &str) -> Child {
    let mut command = folder.command();
    let command = command
        .args(words.split(' '))
        .stdin(Stdio::piped())
        .stdout(Stdio::piped());
    command.spawn().expect("the command starts")
}

/// An editor keeps it open: each answer comes before the next line is written.
#[test]
fn it_answers_at_once() {
    let folder = Folder::new("stream_open");
    let mut child = started(&folder, "stream");
    let mut input = child.stdin.take().expect("a pipe");
    let mut output = BufReader::new(child.stdout.take().expect("a pipe"));
    for _ in 0..20 {
        input
            .write_all(line("1", "count", &[SUM_TABLE]).as_bytes())
            .expect("a line");
        let mut answer = String::new();
        output.read_line(&mut answer).expect("an answer");
        assert_eq!(answer.trim_end(), GOOD);
    }
    drop(input);
    assert_eq!(child.wait().expect("it ends").code(), Some(0));
}

/// Where nobody reads the answers, no more lines are read than fit in a bounded memory.
#[test]
fn memory_is_bounded() {
    const LINES: usize = 90;
    let folder = Folder::new("stream_memory");
    let mut child = started(&folder, "stream");
    let mut input = child.stdin.take().expect("a pipe");
    let line = line(
        &format!("\"{}\"", "x".repeat(1 << 20)),
        "count",
        &[SUM_TABLE],
    );
    let written = Arc::new(AtomicUsize::new(0));
    let counted = Arc::clone(&written);
    let writer = thread::spawn(move || {
        for _ in 0..LINES {
            input.write_all(line.as_bytes()).expect("a line");
            counted.fetch_add(1, Ordering::SeqCst);
        }
    });
    // until it has stopped reading
    let mut before = usize::MAX;
    while before != written.load(Ordering::SeqCst) {
        before = written.load(Ordering::SeqCst);
        thread::sleep(Duration::from_millis(400));
    }
    assert!(before < 64, "{before} lines of a million bytes are read");
    let status =
        std::fs::read_to_string(format!("/proc/{}/status", child.id())).expect("a process");
    let peak = status
        .lines()
        .find_map(|line| line.strip_prefix("VmHWM:"))
        .expect("its memory");
    let peak: usize = peak
        .trim()
        .trim_end_matches(" kB")
        .parse()
        .expect("a number");
    assert!(peak < 150_000, "{peak} KB");
    let mut answers = Vec::new();
    child
        .stdout
        .take()
        .expect("a pipe")
        .read_to_end(&mut answers)
        .expect("answers");
    writer.join().expect("all lines");
    assert_eq!(answers.iter().filter(|&&byte| byte == b'\n').count(), LINES);
    assert_eq!(child.wait().expect("it ends").code(), Some(0));
}

#[test]
fn where_it_reads_and_writes() {
    let folder = Folder::new("stream_files");
    let lines: String = (0..20_000)
        .map(|_| line("1", "count", &[SUM_TABLE]))
        .collect();
    folder.put("lines", &lines);
    is_wrong(
        folder.run("stream lines -o out"),
        "sitgurp stream: it writes to standard output as it goes, and takes no -o\n",
    );
    is_wrong(
        folder.run("stream lines --jobs 0"),
        "sitgurp stream: --jobs takes a whole number from 1 to 1024, not `0`\n",
    );
    is_wrong(
        folder.run("stream none"),
        "none: cannot be read: No such file or directory\n",
    );
    is_wrong(
        folder.run("stream ."),
        "the stream: cannot be read: Is a directory\n",
    );
    for (shell, out, err) in [
        (
            "\"$0\" stream lines | head -n 1; echo ${PIPESTATUS[0]}",
            format!("{GOOD}\n0\n"),
            "",
        ),
        (
            "\"$0\" stream lines > /dev/full; echo $?",
            "2\n".to_string(),
            "standard output: cannot be written: No space left on device\n",
        ),
        (
            "\"$0\" stream lines >&-; echo $? >&2",
            String::new(),
            "standard output: cannot be written: it is closed\n2\n",
        ),
        (
            "\"$0\" stream <&-; echo $?",
            "2\n".to_string(),
            "standard input: cannot be read: it is closed\n",
        ),
        (
            "\"$0\" stream lines >> lines; echo $?",
            "2\n".to_string(),
            "lines: cannot be read: it is standard output too, and would be written over\n",
        ),
    ] {
        let ended = Command::new("bash")
            .args(["-c", shell, env!("CARGO_BIN_EXE_sitgurp")])
            .current_dir(&folder.0)
            .output()
            .expect("bash runs");
        let said = |bytes: &[u8]| String::from_utf8_lossy(bytes).into_owned();
        assert_eq!(
            (said(&ended.stdout), said(&ended.stderr)),
            (out, err.to_string()),
            "{shell}"
        );
    }
}
