//! `page`: the page of Sitgurp with a table inside, and what it shows without scripts.

use crate::common::{examples, is_wrong, page_template, Folder, SUM_TABLE};

const STATIC: &str = "<div id=\"static\">";
const SHEET: &str = "<script type=\"text/plain\" id=\"sitgurp-sheet\">";

/// Returns a table sheet of two levels, by a rule of the row's index.
fn two_levels(names: &str, rule: fn(usize) -> usize) -> String {
    let inputs = names.split(' ').count();
    let row = |index: usize| {
        let levels = (0..inputs).rev().map(|k| format!("{} ", index >> k & 1));
        format!("{}{}\n", levels.collect::<String>(), rule(index))
    };
    let rows: String = (0..1 << inputs).map(row).collect();
    format!("levels inputs\n2 {inputs}\n{names} ink\n{rows}")
}

/// Returns what a page shows without scripts. All else is the page of Sitgurp with the sheet and the title in it.
fn shown(page: &str, title: &str, sheet: &str) -> String {
    let template = std::fs::read_to_string(page_template()).expect("the page");
    let template = template
        .replace("<title>Sitgurp", &format!("<title>Sitgurp: {title}"))
        .replace(SHEET, &format!("{SHEET}\n{sheet}"));
    let (before, after) = template
        .split_once(&format!("{STATIC}</div>"))
        .expect("the element");
    let shown = page
        .strip_prefix(before)
        .and_then(|rest| rest.strip_suffix(after))
        .and_then(|rest| rest.strip_prefix(STATIC))
        .and_then(|rest| rest.strip_suffix("</div>"));
    let shown = shown.expect("the page with its parts").to_string();
    stands_by_itself(&shown);
    shown
}

/// Checks that every element is closed in order, and that nothing is fetched or run.
fn stands_by_itself(html: &str) {
    let mut open: Vec<&str> = Vec::new();
    // what stands in a style is no element
    let pieces = html
        .split("<style>")
        .map(|piece| piece.split("</style>").last().unwrap_or(""));
    let plain: String = pieces.collect::<Vec<&str>>().concat();
    for tag in plain.split('<').skip(1) {
        let (tag, _) = tag.split_once('>').expect("a tag's end");
        let name = tag
            .trim_start_matches('/')
            .split([' ', '/'])
            .next()
            .unwrap_or("");
        match tag {
            _ if tag.starts_with('!') || tag.ends_with('/') || name == "meta" => {}
            _ if tag.starts_with('/') => assert_eq!(open.pop(), Some(name)),
            _ => open.push(name),
        }
    }
    assert_eq!(open, Vec::<&str>::new());
    let without_namespace = html.replace("http://www.w3.org/2000/svg", "");
    for word in [
        "<script", "http:", "https:", "src=", "href=", "url(", "@import", "onload",
    ] {
        assert!(!without_namespace.contains(word), "{word}");
    }
    // the rules of drawings hold for these alone
    for style in html.split("<style>").skip(1) {
        let (rules, _) = style.split_once("</style>").expect("the style's end");
        for rule in rules.lines().filter(|line| !line.is_empty()) {
            assert!(rule.starts_with("#static "), "{rule}");
        }
    }
}

/// Returns a drawing without its style, which a page limits to its own drawings.
fn without_style(svg: &str) -> Vec<String> {
    let (before, rest) = svg.split_once("<style>").expect("a style");
    let (_, after) = rest.split_once("</style>").expect("its end");
    vec![before.to_string(), after.trim_end().to_string()]
}

#[test]
fn a_page_of_a_tree() {
    let folder = examples("page");
    let page = folder.run("page shade.table").out;
    let shown_part = shown(&page, "shade.table", &folder.get("shade.table"));
    assert!(shown_part.contains("<h1>shade.table</h1>\n<p class=\"facts\">4 levels, 3 inputs: weight, light, near; 64 rows</p>"));
    assert!(shown_part.contains("<p>2 gates, 2 layers. It is the only tree of this table.</p>"));
    for part in without_style(&folder.run("draw shade.net").out) {
        assert!(shown_part.contains(&part));
    }
    assert!(shown_part.contains(&folder.get("shade.net")));
    assert_eq!(shown_part.matches("<tr>").count(), 1 + 64);
    assert_eq!(
        shown_part.matches("<td style=\"background:rgb(").count(),
        64
    );
    folder.put("a&b.table", SUM_TABLE);
    let page = folder.run("page a&b.table").out;
    let shown = shown(&page, "a&amp;b.table", SUM_TABLE);
    assert!(shown.contains("<h1>a&amp;b.table</h1>"));
    assert!(shown.contains("<p>2 gates, 2 layers. It is one of 3 trees of this table.</p>"));
}

#[test]
fn a_page_of_a_table_without_a_tree() {
    let folder = examples("page_refused");
    let page = folder.run("page majority.table").out;
    let shown = shown(&page, "majority.table", &folder.get("majority.table"));
    let why = folder.run("why majority.table").out;
    for line in why.lines().filter_map(|line| line.strip_prefix("    ")) {
        assert!(shown.contains(&format!("<li>{line}</li>\n")), "{line}");
    }
    for group in ["b,c", "a,b,c"] {
        let matrix = folder.run(&format!("matrix majority.table --group {group}"));
        for part in without_style(&matrix.out) {
            assert!(shown.contains(&part), "{group}");
        }
    }
    // an unreadable table has no page
    folder.put("bad.table", "x\n");
    let refused = folder.run("page bad.table");
    assert_eq!((refused.status, refused.out.as_str()), (1, ""));
}

/// A refused table of 12 inputs: a map of its cells in place of 4,096 rows, and no matrices of as many cells, but where all is asked for.
#[test]
fn a_large_page_stays_small() {
    let folder = Folder::new("page_large");
    let sheet = two_levels("a b c d e f g h i j k l", |index| {
        (index * index + 1) / 7 % 3 % 2
    });
    folder.put("large.table", &sheet);
    let template = std::fs::read_to_string(page_template())
        .expect("the page")
        .len();
    let page = folder.run("page large.table").out;
    let part = shown(&page, "large.table", &sheet);
    assert!(part.contains("<h2>It has no tree</h2>"));
    assert!(part.contains(
        "<p>The matrices of these inputs have 4,096 cells each: <code>--all</code> draws them.</p>"
    ));
    assert!(part.contains("<p>Down: a b c d e f. Across: g h i j k l.</p>"));
    assert_eq!(part.matches("<tr>").count(), 1 + 64);
    assert_eq!(part.matches("<td class=\"ink").count(), 4096);
    assert!(page.len() < template + 300_000, "{} bytes", page.len());
    let all = folder.run("page large.table --all").out;
    let part = shown(&all, "large.table", &sheet);
    assert_eq!(part.matches("<tr>").count(), 1 + 4096);
    assert_eq!(part.matches("<svg ").count(), 2);
    assert!(!part.contains("--all"));
}

#[test]
fn a_page_that_is_not_there() {
    let folder = examples("page_missing");
    let run = |page: &str| {
        let mut command = folder.command();
        let ended = command
            .env("SITGURP_PAGE", page)
            .args(["page", "shade.table"]);
        let ended = ended.output().expect("the command ends");
        let text = |bytes: Vec<u8>| String::from_utf8(bytes).expect("text");
        (ended.status.code(), text(ended.stdout), text(ended.stderr))
    };
    let missing = "none.html: cannot be read: No such file or directory\n./install puts the page there; SITGURP_PAGE names another place\n";
    assert_eq!(
        run("none.html"),
        (Some(2), String::new(), missing.to_string())
    );
    folder.put("other.html", "<!DOCTYPE html>\n<title>Sitgurp</title>\n");
    let other = "other.html: is not the page of Sitgurp that web/build writes\n";
    assert_eq!(
        run("other.html"),
        (Some(2), String::new(), other.to_string())
    );
    is_wrong(folder.run("page shade.table --most 3"), "sitgurp page: ");
}
