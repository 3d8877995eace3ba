//! `./run`, with an `rt` and a `cargo` that only say what they are asked: it builds what is missing, counts the crates, and passes its words on.

use crate::common::{repository, Folder};
use std::fs;
use std::path::Path;
use std::process::{Command, Output};

const RT: &str = "#!/bin/sh\nfolder=${PWD##*/}\necho \"$*\" >> \"${0%/bin/rt}/asked\"\n\
                  [ \"$1\" != all ] || printf '== rules\\nfn x: proved\\n== laws\\n== capi\\n== summary\\nrules: ok\\n3 of 3 crates ok\\n'\n\
                  [ \"$1 $folder\" != 'lib capi' ] || { mkdir -p out && : > out/libcapi.a; }\n";
const BAD_RT: &str = "#!/bin/sh\necho '== rules'\necho 'error: not proved'\nexit 1\n";
const CARGO: &str = "#!/bin/sh\nmkdir -p target/release\n\
                     printf '#!/bin/sh\\necho \"$SITGURP_AS: $*${SITGURP_PAGE:+ in ${SITGURP_PAGE##*/}}\"\\n' > target/release/sitgurp\n\
                     chmod +x target/release/sitgurp\n";

const WEB_BUILD: &str =
    "#!/bin/sh\nmkdir -p target/web\n: > target/web/sitgurp.html\necho the page is built\n";

/// A repository of scripts alone, with programs of its own in `bin`. It is outside this one, since `rt ci` wants one crates.txt there alone.
fn scripts(name: &str, rt: &str) -> Folder {
    let path = std::env::temp_dir().join(format!("sitgurp_{name}_{}", std::process::id()));
    fs::create_dir_all(&path).expect("a folder");
    let folder = Folder(path);
    for part in ["crates/capi", "rust/command", "web", "bin", "examples"] {
        fs::create_dir_all(folder.0.join(part)).expect("a folder");
    }
    for file in ["run", "rust/command/build.sh"] {
        fs::copy(repository().join(file), folder.0.join(file)).expect("a script");
    }
    folder
        .put(
            "crates.txt",
            "# names\nrules:\nlaws: rules\ncapi staticlib: laws\n",
        )
        .put("bin/rt", rt)
        .put("web/build", WEB_BUILD)
        .put("bin/cargo", CARGO);
    // Another process writes the files that are run: a file that this process has open for writing is busy as long as a child of another test has it too.
    let copied = Command::new("sh")
        .args([
            "-c",
            "for file in \"$@\"; do cp \"$file\" copy && chmod 755 copy && mv copy \"$file\"; done",
            "sh",
        ])
        .args(["bin/rt", "bin/cargo", "web/build", "run"])
        .current_dir(&folder.0)
        .status();
    assert!(copied.expect("sh runs").success());
    folder
}

/// `./run` with the folder's own programs.
fn script(folder: &Folder) -> Command {
    let path = std::env::var("PATH").expect("a path");
    let mut command = Command::new("./run");
    command
        .current_dir(&folder.0)
        .env("RT_JOBS", "3")
        .env("PATH", format!("{}:{path}", folder.0.join("bin").display()));
    command
}

/// Status, standard output and standard error of `./run` with these words.
fn run(folder: &Folder, words: &[&str]) -> (Option<i32>, String, String) {
    let ended = script(folder).args(words).output();
    let ended = ended.expect("the script runs");
    let text = |bytes: &[u8]| String::from_utf8_lossy(bytes).into_owned();
    (
        ended.status.code(),
        text(&ended.stdout),
        text(&ended.stderr),
    )
}

#[test]
fn the_first_run_counts_the_crates() {
    let folder = scripts("run_first", RT);
    let (status, out, err) = run(&folder, &[]);
    assert_eq!(
        err,
        "proving the library: once, some minutes, up to 3 crates at once\ncrate 1 of 3: rules\ncrate 2 of 3: laws\ncrate 3 of 3: capi\n\
        building the command: once\n"
    );
    // several crates are proved at once, and all of them; the archive is made afterwards
    let asked = fs::read_to_string(folder.0.join("asked")).expect("what rt was asked");
    assert_eq!(asked, "all check --jobs 3\nlib\n");
    let example = fs::canonicalize(&folder.0)
        .expect("the folder")
        .join("examples/seven.table");
    assert_eq!(
        (status, out),
        (Some(0), format!("./run: make {}\n", example.display()))
    );
    // a table that is given is not passed over
    folder.put("my.table", "levels inputs\n").put("empty", "");
    let on = |file: &str| {
        let input = fs::File::open(folder.0.join(file)).expect("a file");
        let ended = script(&folder)
            .stdin(input)
            .output()
            .expect("the script runs");
        String::from_utf8_lossy(&ended.stdout).into_owned()
    };
    assert_eq!(on("my.table"), "./run: make -\n");
    assert!(on("empty").ends_with("/examples/seven.table\n"));
    // what is built is not built again
    let words = ["why", "my table"];
    assert_eq!(
        run(&folder, &words),
        (Some(0), "./run: why my table\n".to_string(), String::new())
    );
    // a crate that has changed is
    let soon = std::time::SystemTime::now() + std::time::Duration::from_secs(5);
    folder.put("crates/changed", "");
    let changed = fs::File::options()
        .write(true)
        .open(folder.0.join("crates/changed"))
        .expect("a file");
    changed.set_modified(soon).expect("a time");
    assert!(run(&folder, &words).2.contains("crate 3 of 3: capi\n"));
}

#[test]
fn a_page_is_built_before_it_is_written() {
    let folder = scripts("run_page", RT);
    let page = |err: &str| {
        let words = ["page", "my.table"];
        let due = "./run: page my.table in sitgurp.html\n".to_string();
        let (status, out, said) = run(&folder, &words);
        assert_eq!((status, out), (Some(0), due));
        assert!(said.starts_with(err), "{said}");
    };
    page("building the page: once\nthe page is built\nproving the library: ");
    // web/build is asked every time, and knows what is up to date
    page("the page is built\n");
}

#[test]
fn what_is_not_proved_is_told() {
    let folder = scripts("run_bad", BAD_RT);
    let (status, out, err) = run(&folder, &[]);
    assert_eq!((status, out.as_str()), (Some(2), ""));
    assert!(
        err.contains("crate 1 of 3: rules\n")
            && err.contains("\nerror: not proved\nrt all check has failed; "),
        "{err}"
    );
}

/// Runs a line of bash after build.sh, with TMPDIR set or not.
fn after_build_script(line: &str, temporary: Option<&str>) -> Output {
    let script = repository().join("rust/command/build.sh");
    let mut bash = Command::new("bash");
    bash.arg("-c")
        .arg(format!(". {}; {line}", script.display()))
        .env_remove("TMPDIR");
    if let Some(folder) = temporary {
        bash.env("TMPDIR", folder);
    }
    bash.output().expect("bash runs")
}

/// What `jobs_for` of build.sh prints for a number of cores and of free megabytes.
fn jobs_for(cores: usize, megabytes: usize) -> usize {
    let ended = after_build_script(&format!("jobs_for {cores} {megabytes}"), None);
    String::from_utf8_lossy(&ended.stdout)
        .trim()
        .parse()
        .expect("a number")
}

#[test]
fn cores_and_memory_choose_how_many_crates_are_proved_at_once() {
    assert_eq!(jobs_for(2, 24_000), 3);
    assert_eq!(jobs_for(8, 64_000), 16);
    // each check may take 3 GB with its files
    assert_eq!(jobs_for(2, 8_000), 2);
    assert_eq!(jobs_for(8, 16_000), 5);
    assert_eq!(jobs_for(1, 500), 1);
}

#[test]
fn no_more_crates_are_proved_at_once_than_there_are_cores() {
    let ended = after_build_script("unset RT_JOBS; nproc; parallel_crates", None);
    let said = String::from_utf8_lossy(&ended.stdout).into_owned();
    let numbers: Vec<usize> = said.lines().map(|line| line.parse().unwrap()).collect();
    assert!(
        numbers.len() == 2 && (1..=numbers[0]).contains(&numbers[1]),
        "{said}"
    );
    let ended = after_build_script("RT_JOBS=9; parallel_crates", None);
    assert_eq!(String::from_utf8_lossy(&ended.stdout).trim(), "9");
}

#[test]
fn the_prover_has_its_files_in_a_folder_that_is_gone_afterwards() {
    let line = "in_memory sh -c 'echo \"$TMPDIR\"; touch \"$TMPDIR/sitgurp.test.$$\" && rm \"$TMPDIR/sitgurp.test.$$\" && exit 3'";
    let ended = after_build_script(line, None);
    let folder = String::from_utf8(ended.stdout).expect("a path");
    let folder = Path::new(folder.trim_end());
    assert_eq!(ended.status.code(), Some(3));
    // a folder in memory wherever there is much room, and programs may run
    let mounts = fs::read_to_string("/proc/mounts").unwrap_or_default();
    let runs = |line: &str| line.contains(" /dev/shm ") && !line.contains("noexec");
    let room = after_build_script("df -Pm /dev/shm | awk 'NR == 2 { print $4 }'", None);
    let room = String::from_utf8_lossy(&room.stdout);
    let room: usize = room.trim().parse().unwrap_or(0);
    if mounts.lines().any(runs) && room > 10_000 {
        assert!(folder.starts_with("/dev/shm"), "{folder:?}");
    }
    assert!(
        folder == Path::new("/tmp") || !folder.exists(),
        "{folder:?}"
    );

    // a folder that the caller chose is used as it is, and stays
    let own = std::env::temp_dir();
    let ended = after_build_script(line, own.to_str());
    assert_eq!(ended.status.code(), Some(3));
    assert_eq!(
        String::from_utf8_lossy(&ended.stdout).trim_end(),
        own.to_str().unwrap()
    );
    assert!(own.exists());
}
