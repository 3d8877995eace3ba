//! The transcripts of the README and of docs/COMMANDS.md: each command prints what the document shows below it.

use crate::common::{repository, Folder};
use std::process::Command;

/// A command of a transcript and what it says, standard output and standard error together.
struct Step {
    command: String,
    says: String,
}

/// The fenced blocks called `console`: a line that begins with `$ ` is a command, and takes the lines of its `<<.` with it.
fn steps(document: &str) -> Vec<Step> {
    let mut steps: Vec<Step> = Vec::new();
    let mut lines = document.lines();
    while let Some(line) = lines.next() {
        if line != "```console" {
            continue;
        }
        while let Some(line) = lines.next().filter(|line| *line != "```") {
            let Some(command) = line.strip_prefix("$ ") else {
                let last = steps.last_mut().expect("a command before what it says");
                last.says += &format!("{line}\n");
                continue;
            };
            let mut command = format!("{command}\n");
            if command.ends_with("<<.\n") {
                for line in lines.by_ref() {
                    command += &format!("{line}\n");
                    if line == "." {
                        break;
                    }
                }
            }
            steps.push(Step {
                command,
                says: String::new(),
            });
        }
    }
    steps
}

/// Runs the transcripts of a document in a folder of its own. Each has to have as many commands, or more.
fn run_document(path: &str, least: usize) {
    let folder = Folder::new(&path.replace(['/', '.'], "_"));
    let examples = repository().join("examples");
    std::os::unix::fs::symlink(examples, folder.0.join("examples")).expect("a link");
    let run = format!(
        "#!/bin/sh\nSITGURP_AS=./run exec {} \"$@\"\n",
        env!("CARGO_BIN_EXE_sitgurp")
    );
    folder.put("run", run);
    let chmod = Command::new("chmod")
        .args(["+x", "run"])
        .current_dir(&folder.0)
        .status();
    assert!(chmod.expect("chmod runs").success());
    let document = std::fs::read_to_string(repository().join(path)).expect("a document");
    let steps = steps(&document);
    assert!(steps.len() >= least, "{path}: {} steps", steps.len());
    for Step { command, says } in steps {
        let ended = Command::new("bash")
            .args(["-c", &format!("exec 2>&1\n{command}")])
            .current_dir(&folder.0)
            .output()
            .expect("bash runs");
        assert_eq!(String::from_utf8_lossy(&ended.stdout), says, "$ {command}");
    }
}

#[test]
fn the_commands_of_the_readme_print_what_it_shows() {
    run_document("README.md", 10);
}

#[test]
fn the_commands_of_the_list_of_commands_print_what_it_shows() {
    run_document("docs/COMMANDS.md", 10);
}
