//! `export` and `import`, end to end.

use crate::common::{
    answers, answers_with_note, example, is_wrong, refuses, Folder, SUM_NET, SUM_TABLE,
};
use reference::allowed_sizes;
use reference::generate::{Generator, TableKind};

const SUM_BLIF: &str = "\
.model tree
.inputs a b c
.outputs ink
.names a b gate_1
01 1
10 1
.names gate_1 c ink
01 1
10 1
.end
";

#[test]
fn nets_there_and_back() {
    let folder = Folder::new("formats_nets");
    folder
        .put("sum.net", SUM_NET)
        .put("shade.net", example("shade.net"));
    answers(folder.run("export sum.net --blif"), SUM_BLIF);
    answers(folder.run_on("import", SUM_BLIF.as_bytes()), SUM_NET);
    answers(
        folder.run_on("import --table", SUM_BLIF.as_bytes()),
        SUM_TABLE,
    );
    answers(
        folder.run("export sum.net --blif --name my_sum"),
        &SUM_BLIF.replace("tree", "my_sum"),
    );
    let text = folder.run("export shade.net --blif-mv").out;
    assert!(text.contains(".mv gate_1 4\n"), "{text}");
    answers(
        folder.run_on("import -", text.as_bytes()),
        &example("shade.net"),
    );
    let json = folder.run("export sum.net --blif --json").out;
    assert!(
        json.starts_with("{\"format\":\"blif\",\"text\":\".model tree\\n"),
        "{json}"
    );
    let json = folder.run_on("import --json", SUM_BLIF.as_bytes()).out;
    assert!(
        json.starts_with("{\"net\":{\"levels\":2,")
            && json.ends_with("\"renamed\":{},\"notes\":[]}\n"),
        "{json}"
    );
    // many at once: an ending for each format
    answers(
        folder.run("export -d out --blif-mv sum.net shade.net"),
        "2 sheets: 2 written to out\n",
    );
    answers(
        folder.run("export -d out --verilog sum.net shade.net"),
        "2 sheets: 2 written to out\n",
    );
    answers(
        folder.run("export -d out --c sum.net shade.net"),
        "2 sheets: 2 written to out\n",
    );
    answers(
        folder.run("import -d back out/sum.mv out/shade.mv"),
        "2 sheets: 2 written to back\n",
    );
    assert_eq!(folder.get("back/shade.net"), example("shade.net"));
    assert!(folder
        .get("out/shade.v")
        .contains("module tree (\n    input wire [1:0] weight,\n"));
    assert!(folder.get("out/shade.c").contains(
        "unsigned char tree(unsigned char weight, unsigned char light, unsigned char near_)\n{\n"
    ));
}

#[test]
fn tables_there_and_back() {
    let folder = Folder::new("formats_tables");
    folder
        .put("majority.table", example("majority.table"))
        .put("sum.net", SUM_NET);
    let pla = folder.run("export majority.table --pla").out;
    assert!(
        pla.starts_with(".i 3\n.o 1\n.ilb a b c\n.ob ink\n.type fd\n.p 8\n000 0\n"),
        "{pla}"
    );
    answers(
        folder.run_on("import", pla.as_bytes()),
        &example("majority.table"),
    );
    // a net has a table too
    let pla = folder.run("export sum.net --pla").out;
    answers(folder.run_on("import", pla.as_bytes()), SUM_TABLE);
    folder.put("sum.pla", &pla);
    answers(
        folder.run("import -d tables --table sum.pla"),
        "1 sheet: 1 written to tables\n",
    );
    assert_eq!(folder.get("tables/sum.table"), SUM_TABLE);
    let ended = folder.run("import -d tables sum.pla");
    assert_eq!(ended.status, 1);
    assert!(
        ended.err.starts_with(
            "sum.pla:1:1: a PLA is a table: with -d, tables are written with --table\n"
        ),
        "{}",
        ended.err
    );
    // don't-cares are open cells
    let open = SUM_TABLE.replace("0 0 0 0", "0 0 0 -");
    answers_with_note(
        folder.run_on("import", pla.replace("000 0", "000 -").as_bytes()),
        &open,
        "standard input: 1 of 8 cells are don't-cares, and open in the table; `fill` finds inks for them\n",
    );
    answers(
        folder.run_on("export --pla", open.as_bytes()),
        &pla.replace("000 0", "000 -"),
    );
}

/// `tidy --csv` reads what `export --csv` writes, for tables of every size, full and open.
#[test]
fn csv_there_and_back() {
    let folder = Folder::new("formats_csv");
    let mut generator = Generator::new(47);
    let mut sheets = Vec::new();
    for (k, (m, n)) in allowed_sizes().into_iter().enumerate() {
        let (m, n, kind) = (
            m as usize,
            n as usize,
            TableKind::ALL[k % TableKind::ALL.len()],
        );
        let sheet = match k % 2 {
            0 => generator.table_sheet(m, n, kind),
            _ => generator.open_table_sheet(m, n, kind),
        };
        folder.put(&format!("{k}.table"), &sheet);
        sheets.push(String::from_utf8(sheet).expect("text"));
    }
    let names = |ending: &str| {
        (0..sheets.len())
            .map(|k| format!("{k}.{ending}"))
            .collect::<Vec<_>>()
    };
    let count = sheets.len();
    let words = format!("export --csv -d csv {}", names("table").join(" "));
    answers(
        folder.run(&words),
        &format!("{count} sheets: {count} written to csv\n"),
    );
    let files: Vec<String> = names("csv")
        .iter()
        .map(|name| format!("csv/{name}"))
        .collect();
    let ended = folder.run(&format!("tidy --csv -d back {}", files.join(" ")));
    assert_eq!(
        (ended.status, ended.out),
        (0, format!("{count} sheets: {count} written to back\n"))
    );
    for (k, sheet) in sheets.iter().enumerate() {
        assert_eq!(&folder.get(&format!("back/{k}.table")), sheet);
        assert_eq!(folder.get(&format!("csv/{k}.csv")), sheet.replace(' ', ","));
    }
}

#[test]
fn what_is_reported() {
    let folder = Folder::new("formats_notes");
    let text = ".inputs Data[0] b\n.outputs y\n.names b x\n0 1\n.names Data[0] b y\n11 1\n";
    answers_with_note(
        folder.run_on("import", text.as_bytes()),
        "levels inputs\n2 2\ndata0 b\nleft right table\ndata0 b 0001\n",
        "standard input: new names: `Data[0]` is `data0`\nstandard input: the table of `x` is left out: the output does not read it\n",
    );
    let json = folder.run_on("import --json", text.as_bytes());
    assert_eq!(json.err, "");
    assert!(
        json.out.contains(
            "\"renamed\":{\"Data[0]\":\"data0\"},\"notes\":[\"the table of `x` is left out"
        ),
        "{}",
        json.out
    );
    // one output of several
    let text = ".inputs a b c\n.outputs x y\n.names a b x\n11 1\n.names b c y\n10 1\n";
    assert_eq!(
        folder.run_on("import --output y", text.as_bytes()).out,
        "levels inputs\n2 2\nb c\nleft right table\nb c 0010\n"
    );
}

#[test]
fn refusals_give_line_and_reason() {
    let folder = Folder::new("formats_refused");
    folder
        .put("shade.net", example("shade.net"))
        .put("shade.table", example("shade.table"));
    refuses(
        folder.run("export shade.net --blif"),
        "shade.net:2:1: BLIF has two levels, and this sheet has 4 levels\n    4 3\n    ^\n`--blif-mv` takes any number of levels\n",
    );
    refuses(
        folder.run("export shade.table --pla"),
        "shade.table:2:1: a PLA has two levels, and this sheet has 4 levels\n    4 3\n    ^\n",
    );
    let table = folder.run("export shade.table --c");
    assert_eq!(table.status, 1);
    assert!(table.err.contains("likely cause: this is a table sheet, and a net sheet is due here; `sitgurp make` makes the net of a table\n"), "{}", table.err);
    folder.put(
        "twice.blif",
        ".model m\n.inputs a b c\n.outputs y\n.names a b x\n11 1\n.names a x y\n11 1\n.end\n",
    );
    refuses(
        folder.run("import twice.blif"),
        "twice.blif:6:8: `a` is read here and in line 4, and a tree uses each wire once\n    .names a x y\n           ^\n\
         `sitgurp import --table twice.blif` writes its table, which may have another tree\n",
    );
    let json = folder.run("import twice.blif --json");
    assert_eq!(
        (json.status, json.out.as_str()),
        (
            1,
            "{\"refused\":[{\"file\":\"twice.blif\",\"number\":null,\"kind\":\"Format\",\"place\":59,\"line\":6,\"column\":8,\
             \"words\":\"`a` is read here and in line 4, and a tree uses each wire once\",\"causes\":[]}]}\n"
        )
    );
    refuses(
        folder.run_on("import", b".inputs a b\n.outputs y\n.latch a y 0\n"),
        "standard input:3:1: a net has no memory: a model with latches cannot be read\n    .latch a y 0\n    ^\n",
    );
    refuses(
        folder.run_on("import", b"levels inputs\n"),
        "standard input:1:1: this is no BLIF, BLIF-MV or PLA: no line begins with `.model`, `.inputs` or `.i`\n    levels inputs\n    ^\n",
    );
    is_wrong(
        folder.run("export shade.net"),
        "sitgurp export: name one format: --blif, --blif-mv, --verilog, --c, --pla or --csv\n",
    );
    is_wrong(
        folder.run("export shade.net --c --pla"),
        "sitgurp export: name one format: ",
    );
    for name in ["", "1st", "my-tree", "module", "while", "tr\u{fc}b"] {
        is_wrong(
            folder.run(&format!("export shade.net --c --name={name}")),
            "sitgurp export: --name takes letters, digits and `_`, ",
        );
    }
}

/// A line of a stream exports a net, and another one imports a PLA.
#[test]
fn in_a_stream() {
    let folder = Folder::new("formats_stream");
    let quoted = |text: &str| format!("\"{}\"", text.replace('\n', "\\n"));
    let pla = ".i 2\n.o 1\n11 1\n";
    let lines = format!(
        "{{\"id\":1,\"call\":\"export\",\"sheets\":[{}],\"words\":[\"--blif\"]}}\n{{\"id\":2,\"call\":\"import\",\"sheets\":[{}]}}\n",
        quoted(SUM_NET),
        quoted(pla)
    );
    let ended = folder.run_on("stream", lines.as_bytes());
    let answers: Vec<&str> = ended.out.lines().collect();
    let blif = format!(
        "{{\"id\":1,\"status\":0,\"answer\":{{\"format\":\"blif\",\"text\":{}}}}}",
        quoted(SUM_BLIF)
    );
    assert_eq!(answers[0], blif);
    let front =
        "{\"id\":2,\"status\":0,\"answer\":{\"table\":{\"levels\":2,\"inputs\":[\"x0\",\"x1\"],";
    assert!(answers[1].starts_with(front), "{}", answers[1]);
    assert!(answers[1].contains("\"inks\":[0,0,0,1]"), "{}", answers[1]);
}
