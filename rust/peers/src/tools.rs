//! Files and programs.

use reference::allowed_sizes;
use reference::generate::Generator;
use sitgurp::Net;
use std::fs;
use std::path::PathBuf;
use std::process::Command;

/// What came of a part.
#[derive(Default)]
pub struct Tally {
    pub wrong: usize,
}

impl Tally {
    /// Prints a line, and counts what is not as it should be.
    pub fn line(&mut self, words: &str, found: usize, due: usize) {
        println!("{words}: {found} of {due}");
        self.wrong += found.abs_diff(due);
    }
}

/// Creates a folder for the files of a run.
pub fn folder() -> PathBuf {
    let folder = std::env::temp_dir().join(format!("sitgurp_peers_{}", std::process::id()));
    fs::create_dir_all(&folder).expect("a folder");
    folder
}

/// Runs a program, and returns what it writes to standard output and standard error, and whether it ended well.
pub fn run(program: &str, words: &[&str]) -> (bool, String) {
    let mut command = Command::new(program);
    let ended = command.args(words).current_dir(folder()).output();
    let ended = ended.unwrap_or_else(|error| panic!("{program}: {error}"));
    let said = [ended.stdout, ended.stderr].concat();
    (
        ended.status.success(),
        String::from_utf8_lossy(&said).into_owned(),
    )
}

/// Returns what ABC says to these commands. It has to get to the end.
pub fn abc(commands: &str) -> String {
    put("script", &format!("{commands}\necho the end\n"));
    let (_, said) = run("berkeley-abc", &["-q", "source script"]);
    assert!(said.contains("the end"), "ABC stopped: {said}");
    said
}

pub fn put(name: &str, text: &str) {
    fs::write(folder().join(name), text).expect("a file");
}

pub fn get(name: &str) -> Vec<u8> {
    fs::read(folder().join(name)).unwrap_or_else(|error| panic!("{name}: {error}"))
}

/// Prints which programs these are.
pub fn versions() {
    for (program, words) in [
        ("dpkg-query", &["-W", "berkeley-abc", "iverilog"][..]),
        ("gcc", &["--version"]),
        ("clang", &["--version"]),
    ] {
        let (_, said) = run(program, words);
        let lines = if program == "dpkg-query" { 2 } else { 1 };
        said.lines().take(lines).for_each(|line| println!("{line}"));
    }
}

/// So many random nets of every size that the levels have.
pub fn nets(generator: &mut Generator, levels: &[usize], count: usize) -> Vec<Net> {
    let mut nets = Vec::new();
    for (m, n) in allowed_sizes() {
        let (m, n) = (m as usize, n as usize);
        for _ in 0..count {
            if levels.contains(&m) {
                nets.push(Net::read(&generator.net_sheet(m, n)).expect("a net"));
            }
        }
    }
    nets
}

/// Returns the net with another digit in a gate, so that its table is another; None where no change of one digit does that.
pub fn spoiled(net: &Net, generator: &mut Generator) -> Option<Net> {
    let sheet = net.as_str();
    for _ in 0..100 {
        let gate = generator.rng.below(net.gates().len());
        let digit = generator.rng.below(net.levels() * net.levels());
        let lines: Vec<&str> = sheet.lines().collect();
        let mut line = lines[4 + gate].to_string().into_bytes();
        let place = line.len() - net.levels() * net.levels() + digit;
        line[place] = b'0' + (line[place] - b'0' + 1) % net.levels() as u8;
        let mut lines: Vec<String> = lines.iter().map(|line| line.to_string()).collect();
        lines[4 + gate] = String::from_utf8(line).expect("text");
        let other = Net::read((lines.join("\n") + "\n").as_bytes()).expect("a net");
        if other.table() != net.table() {
            return Some(other);
        }
    }
    None
}
