//! `glyph`: what a net prints from a text picture and from a graymap, and pictures and offsets that are refused.

use crate::common::{answers, example, is_wrong, refuses, repository, Folder};

const NET: &str = "levels inputs\n2 2\nown left\nleft right table\nown left 0110\n";

/// A folder with the examples, and with a net that prints where a cell differs from another.
fn glyphs(name: &str) -> Folder {
    let folder = Folder::new(name);
    for name in ["shade.net", "letter.txt", "letter.pgm", "shade.table"] {
        folder.put(name, example(name));
    }
    folder.put("edge.net", NET).put("small.txt", ".11\n1.1\n");
    folder
}

#[test]
fn the_letter_of_the_examples() {
    let folder = glyphs("glyph");
    let (text, graymap) = (example("shaded.txt"), example("shaded.pgm"));
    let run = |words: &str| folder.run(&format!("glyph shade.net {words}"));
    let at = "--at weight=0,0 --at light=0,-1 --at near=-1,0";
    answers(run(&format!("letter.txt {at}")), &text);
    answers(run(&format!("letter.pgm {at}")), &graymap);
    answers(run(&format!("letter.txt --pgm {at}")), &graymap);
    answers(run(&format!("letter.pgm --text {at}")), &text);
    // an input that is not named is read from the cell itself, and one `--at` may have more than one
    answers(run("--at near=-1,0 --at=light=0,-1 letter.txt"), &text);
    answers(run("letter.txt --at near=-1,0 light=0,-1"), &text);
    let letter = example("letter.txt");
    let piped = folder.run_on(&format!("glyph shade.net {at}"), letter.as_bytes());
    answers(piped, &text);
    answers(run(&format!("letter.txt {at} -o shaded.txt")), "");
    assert_eq!(folder.get("shaded.txt"), text);
}

/// The pictures of docs/COMMANDS.md are what the command writes.
#[test]
fn the_letter_is_drawn() {
    let folder = glyphs("glyph_svg");
    let drawn = |name: &str| {
        let path = repository().join(format!("docs/pictures/{name}.svg"));
        std::fs::read_to_string(path).expect("a committed picture")
    };
    let at = "--at light=0,-1 --at near=-1,0";
    for letter in ["letter.txt", "letter.pgm"] {
        let run = |words: &str| folder.run(&format!("glyph shade.net {letter} {words}"));
        answers(run(&format!("--svg {at}")), &drawn("shaded"));
        answers(run("--svg --source"), &drawn("letter"));
        answers(
            run(&format!("--text --source {at}")),
            &example("letter.txt"),
        );
        let json = run("--svg --json").out;
        assert!(json.contains("},\"svg\":\"<svg xmlns="), "{json}");
    }
}

/// The same picture as a graymap of any kind and depth.
#[test]
fn graymaps() {
    let folder = glyphs("glyph_depths");
    let read = |name: &str, words: &str, bytes: Vec<u8>, due: &str| {
        folder.put(name, bytes);
        answers(
            folder.run(&format!("glyph shade.net {name} --source --text {words}")),
            due,
        );
    };
    let text =
        |kind: &str, highest: u16| format!("{kind}\n# four grays\n4 2\n{highest}\n").into_bytes();
    let due = ".123\n3.12\n";
    for highest in [3, 7, 255, 256, 1000, 65535] {
        let last = u32::from(highest);
        let steps = [last, last / 2 + 1, last / 2, 0].map(|gray| gray as u16);
        let grays = [steps, [0, steps[0], steps[1], steps[2]]].concat();
        let plain: Vec<String> = grays.iter().map(u16::to_string).collect();
        let plain = [text("P2", highest), plain.join(" ").into_bytes()].concat();
        let bytes = |gray: &u16| match highest {
            256.. => gray.to_be_bytes().to_vec(),
            _ => vec![*gray as u8],
        };
        let raw = [text("P5", highest), grays.iter().flat_map(bytes).collect()].concat();
        read("plain.pgm", "", plain, due);
        read("raw.pgm", "", raw, due);
    }
    let grays = || [text("P5", 255), vec![0, 63, 64, 127, 128, 191, 192, 255]].concat();
    read("steps.pgm", "", grays(), "3322\n11..\n");
    read("steps.pgm", "--map 0=3,64=2,200=0", grays(), "3322\n222.\n");
    read("steps.pgm", "--map=0=0,255=3", grays(), "....\n...3\n");
    for (map, said) in [
        ("0=4", "--map takes GRAY=LEVEL with a gray up to 65535 and a level from 0 to 3, and not `0=4`"),
        ("0=1,x", "--map takes GRAY=LEVEL with a gray up to 65535 and a level from 0 to 3, and not `x`"),
        ("65536=1", "--map takes GRAY=LEVEL with a gray up to 65535 and a level from 0 to 3, and not `65536=1`"),
        ("1=1", "the grays of --map begin at 0 and rise"),
        ("0=1,9=2,9=3", "the grays of --map begin at 0 and rise"),
    ] {
        let ended = folder.run(&format!("glyph shade.net steps.pgm --map {map}"));
        is_wrong(ended, &format!("sitgurp glyph: {said}\n"));
    }
    is_wrong(
        folder.run("glyph shade.net letter.txt --map 0=1"),
        "sitgurp glyph: --map is for the grays of a graymap, and this picture is text\n",
    );
    let wide = [b"P5\n65 1\n255\n".to_vec(), vec![7; 65]].concat();
    folder.put("wide.pgm", wide);
    let ended = folder.run("glyph shade.net wide.pgm");
    let said = "wide.pgm:2:1: the picture is 65 cells wide, and a side has 1 to 64 (refusal 24)\n    65 1\n    ^\n";
    refuses(ended, said);
}

#[test]
fn small_pictures() {
    let folder = glyphs("glyph_small");
    answers(
        folder.run("glyph edge.net small.txt --at left=-1,0"),
        ".1.\n111\n",
    );
    answers(folder.run("glyph edge.net small.txt"), "...\n...\n");
    answers(
        folder.run("glyph edge.net small.txt --at left=-1,0 --json"),
        "{\"picture\":{\"width\":3,\"height\":2,\"levels\":2,\"cells\":[0,1,0,1,1,1]}}\n",
    );
    // line ends of Windows, and a comment in a graymap
    folder.put("windows.txt", ".11\r\n1.1\r\n");
    answers(
        folder.run("glyph edge.net windows.txt --at left=-1,0"),
        ".1.\n111\n",
    );
    folder.put("small.pgm", "P2 # a comment\n3 2 1\n1 0 0 0 1 0");
    answers(
        folder.run("glyph edge.net small.pgm --at left=-1,0"),
        "P2\n3 2\n1\n1 0 1\n0 0 0\n",
    );
}

#[test]
fn pictures_that_are_refused() {
    let folder = glyphs("glyph_refused");
    let refused = |name: &str, text: &str, said: &str| {
        folder.put(name, text);
        refuses(
            folder.run(&format!("glyph edge.net {name}")),
            &format!("{name}:{said}"),
        );
    };
    refused(
        "short.txt",
        ".11\n1.\n",
        "2:3: row 2 has 2 cells, and the first row has 3 (refusal 24)\n    1.\\n\n      ^\n",
    );
    refused(
        "blank.txt",
        ".11\n1.1\n\n",
        "3:1: row 3 has 0 cells, and the first row has 3 (refusal 24)\nlikely cause: there is a blank line; delete it\n",
    );
    refused(
        "letter.txt",
        ".1x\n1.1\n",
        "1:3: a cell should be a digit from 0 to 1, or `.` for 0, not `x` (refusal 24)\n    .1x\n      ^\n",
    );
    refused(
        "spaces.txt",
        "0 1\n1 0\n",
        "1:2: a cell should be a digit from 0 to 1, or `.` for 0, not ` ` (refusal 24)\n    0 1\n     ^\n\
        likely cause: cells are written side by side, with nothing between them\n",
    );
    refused(
        "level.txt",
        ".11\n1.3\n",
        "2:3: a cell should be a digit from 0 to 1, or `.` for 0, not `3` (refusal 24)\n    1.3\n      ^\n",
    );
    refused(
        "empty.txt",
        "",
        "1:1: there is no cell: a picture has 1 to 64 cells a side (refusal 24)\n",
    );
    refused(
        "high.txt",
        &"1\n".repeat(65),
        "65:1: the picture is 65 cells high, and a side has 1 to 64 (refusal 24)\n    1\n    ^\n",
    );
    let wide = folder.run_on("glyph edge.net", "1".repeat(70).as_bytes());
    let said =
        "standard input:1:65: the picture is 70 cells wide, and a side has 1 to 64 (refusal 24)\n";
    assert!(wide.err.starts_with(said), "{}", wide.err);
    refused(
        "mark.txt",
        "\u{feff}01\n",
        "1:1: a cell should be a digit from 0 to 1, or `.` for 0, not `\\xef` (refusal 24)\n    \\xef\\xbb\\xbf01\n    ^\n\
        likely cause: the file begins with a byte order mark; save it without one\n",
    );
    refused(
        "net.txt",
        NET,
        "1:1: a cell should be a digit from 0 to 1, or `.` for 0, not `l` (refusal 24)\n    levels inputs\n    ^\n\
        likely cause: this is a net sheet, and a picture is due here\n",
    );
}

#[test]
fn graymaps_that_are_refused() {
    let folder = glyphs("glyph_graymaps");
    let refused = |text: &str, said: &str| {
        let ended = folder.run_on("glyph edge.net", text.as_bytes());
        refuses(ended, &format!("standard input:{said}"));
    };
    refused(
        "P6\n2 1\n1\n",
        "1:1: a portable graymap begins `P2` or `P5`, not `P6` (refusal 24)\n    P6\n    ^\nlikely cause: save the picture as a graymap (PGM)\n",
    );
    refused(
        "P2\n2 1\n65536\n255 0\n",
        "3:1: the highest gray should be from 1 to 65535, not `65536` (refusal 24)\n    65536\n    ^\n",
    );
    refused(
        "P5\n2 1\n3\n\x01",
        "4:2: the picture has 1 gray, and 2 times 1 are due (refusal 24)\n    \\x01<end of file>\n        ^\n",
    );
    refused(
        "P5\n2 1\n3\n\x01\x04",
        "4:2: a gray should be a whole number from 0 to 3, not `4` (refusal 24)\n    \\x01\\x04\n        ^\n",
    );
    refused(
        "P2\n2 1\n1\n1\n",
        "5:1: the picture has 1 gray, and 2 times 1 are due (refusal 24)\n",
    );
    refused(
        "P2\n2 1\n1\n1 0 1\n",
        "4:5: the picture has 3 grays, and 2 times 1 are due (refusal 24)\n    1 0 1\n        ^\n",
    );
    refused(
        "P2\n2 1\n1\n1 2\n",
        "4:3: a gray should be a whole number from 0 to 1, not `2` (refusal 24)\n    1 2\n      ^\n",
    );
    refused(
        "P2\nwide 1\n1\n1 0\n",
        "2:1: the width should be a whole number, not `wide` (refusal 24)\n    wide 1\n    ^\n",
    );
    refused(
        "P2\n2",
        "2:2: the height is missing (refusal 24)\n    2<end of file>\n     ^\n",
    );
    refused(
        "P2\n65 1\n1\n",
        "4:1: the picture has 0 grays, and 65 times 1 are due (refusal 24)\n",
    );
}

#[test]
fn offsets() {
    let folder = glyphs("glyph_offsets");
    refuses(
        folder.run("glyph edge.net small.txt --at left=-3,0"),
        "edge.net: left is to be read -3 across and 0 down, and an offset is from -2 to 2 (refusal 25)\n",
    );
    refuses(
        folder.run("glyph edge.net small.txt --at left=0,300"),
        "edge.net: left is to be read 0 across and 300 down, and an offset is from -2 to 2 (refusal 25)\n",
    );
    // the picture is judged first
    folder.put("level.txt", "7\n");
    let both = folder.run("glyph edge.net level.txt --at left=-3,0 --json");
    assert_eq!(both.status, 1);
    let said = "{\"refused\":[{\"file\":\"level.txt\",\"number\":24,\"kind\":\"Picture\",\"place\":0,\"line\":1,\"column\":1,";
    assert!(both.out.starts_with(said), "{}", both.out);
    for (at, said) in [
        (
            "--at up=0,0",
            "`up` is no input of this net; its inputs are own and left",
        ),
        (
            "--at left",
            "--at takes NAME=ACROSS,DOWN, such as own=0,-1, and not `left`",
        ),
        (
            "--at left=1",
            "the offset of left is ACROSS,DOWN, two whole numbers from -2 to 2, and not `1`",
        ),
        ("--at left=0,0 --at left=1,0", "left is given twice"),
        ("--at", "--at needs a value: NAME=ACROSS,DOWN"),
        ("--pgm --text", "--pgm and --text do not go together"),
        ("--text --svg", "--svg and --text do not go together"),
    ] {
        is_wrong(
            folder.run(&format!("glyph edge.net small.txt {at}")),
            &format!("sitgurp glyph: {said}\nusage: sitgurp glyph NET [PICTURE] [--at NAME=ACROSS,DOWN ..] [--map GRAY=LEVEL,..] \
                [--source] [--pgm | --svg | --text]\n"),
        );
    }
}
