//! What the tests share: the command run on files of their own.
#![allow(dead_code)]

use std::io::Write;
use std::path::{Path, PathBuf};
use std::process::{Command, Stdio};

/// A folder of the test's own, empty.
pub struct Folder(pub PathBuf);

/// What the command wrote, said and ended with.
#[derive(Debug, PartialEq)]
pub struct Ended {
    pub status: i32,
    pub out: String,
    pub err: String,
}

/// A test's folder goes with it: `rt` refuses a checkout with links in it.
impl Drop for Folder {
    fn drop(&mut self) {
        std::fs::remove_dir_all(&self.0).ok();
    }
}

impl Folder {
    pub fn new(name: &str) -> Folder {
        let path = Path::new(env!("CARGO_TARGET_TMPDIR")).join(name);
        std::fs::remove_dir_all(&path).ok();
        std::fs::create_dir_all(&path).expect("a folder");
        Folder(path)
    }

    pub fn put(&self, name: &str, text: impl AsRef<[u8]>) -> &Folder {
        std::fs::write(self.0.join(name), text).expect("a file");
        self
    }

    pub fn get(&self, name: &str) -> String {
        std::fs::read_to_string(self.0.join(name)).unwrap_or_else(|e| panic!("{name}: {e}"))
    }

    /// The names of the files in it.
    pub fn names(&self) -> Vec<String> {
        let entries = std::fs::read_dir(&self.0).expect("the folder");
        let names = entries.map(|entry| entry.expect("a file").file_name());
        let mut names: Vec<String> = names.map(|n| n.to_string_lossy().into_owned()).collect();
        names.sort();
        names
    }

    pub fn command(&self) -> Command {
        let mut command = Command::new(env!("CARGO_BIN_EXE_sitgurp"));
        command.current_dir(&self.0).env_remove("SITGURP_AS");
        command.env("SITGURP_PAGE", page_template());
        command
    }

    /// The command with these words, parted by spaces.
    pub fn run(&self, words: &str) -> Ended {
        self.run_on(words, b"")
    }

    /// The same with these bytes on standard input.
    pub fn run_on(&self, words: &str, input: &[u8]) -> Ended {
        let mut child = self
            .command()
            .args(words.split_whitespace())
            .stdin(Stdio::piped())
            .stdout(Stdio::piped())
            .stderr(Stdio::piped())
            .spawn()
            .expect("the command starts");
        // a command that ends before it has read all is seen in its status
        child.stdin.take().expect("a pipe").write_all(input).ok();
        let output = child.wait_with_output().expect("the command ends");
        Ended {
            status: output.status.code().expect("a status"),
            out: String::from_utf8(output.stdout).expect("text"),
            err: String::from_utf8(output.stderr).expect("text"),
        }
    }
}

/// Status 0, this on standard output, nothing on standard error.
pub fn answers(ended: Ended, out: &str) {
    let due = Ended {
        status: 0,
        out: out.to_string(),
        err: String::new(),
    };
    assert_eq!(ended, due);
}

/// Status 0, this on standard output, and this note on standard error.
pub fn answers_with_note(ended: Ended, out: &str, note: &str) {
    let due = Ended {
        status: 0,
        out: out.to_string(),
        err: note.to_string(),
    };
    assert_eq!(ended, due);
}

/// Status 1, nothing on standard output, this on standard error.
pub fn refuses(ended: Ended, err: &str) {
    let due = Ended {
        status: 1,
        out: String::new(),
        err: err.to_string(),
    };
    assert_eq!(ended, due);
}

/// Status 2, nothing on standard output, this at the front of standard error.
pub fn is_wrong(ended: Ended, err: &str) {
    assert_eq!((ended.status, ended.out.as_str()), (2, ""), "{}", ended.err);
    assert!(ended.err.starts_with(err), "{}", ended.err);
}

pub fn repository() -> PathBuf {
    Path::new(env!("CARGO_MANIFEST_DIR")).join("../..")
}

/// The page before anything is put in it: it has the elements that `page` fills.
pub fn page_template() -> PathBuf {
    repository().join("web/page/page.html")
}

pub fn example(name: &str) -> String {
    let path = repository().join("examples").join(name);
    std::fs::read_to_string(path).expect("an example")
}

/// A folder with the examples' sheets.
pub fn examples(name: &str) -> Folder {
    let folder = Folder::new(name);
    for name in ["shade", "seven", "figure1"] {
        let table = format!("{name}.table");
        let net = format!("{name}.net");
        folder.put(&table, example(&table)).put(&net, example(&net));
    }
    folder.put("majority.table", example("majority.table"));
    folder
}

/// The sum of three inputs with two levels: its table, and a net that is not the settled one.
pub const SUM_TABLE: &str = "levels inputs\n2 3\na b c ink\n0 0 0 0\n0 0 1 1\n0 1 0 1\n0 1 1 0\n1 0 0 1\n1 0 1 0\n1 1 0 0\n1 1 1 1\n";
pub const SUM_NET: &str = "levels inputs\n2 3\na b c\nleft right table\na b 0110\n1 c 0110\n";
pub const SUM_SETTLED: &str = "levels inputs\n2 3\na b c\nleft right table\nb c 0110\na 1 0110\n";
/// The sum of four inputs in a chain, and in two layers.
pub const CHAIN: &str =
    "levels inputs\n2 4\na b c d\nleft right table\na b 0110\n1 c 0110\n2 d 0110\n";
pub const SHALLOW: &str =
    "levels inputs\n2 4\na b c d\nleft right table\na b 0110\nc d 0110\n1 2 0110\n";
