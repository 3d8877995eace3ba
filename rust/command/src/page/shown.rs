//! A table, and its tree or why it has none, as HTML without scripts.

use crate::commands::why::paragraphs;
use crate::fault::Fault;
use crate::words::{self, count, list, thousands};
use picture::elements::shade;
use picture::{matrix, svg};
use sitgurp::{Kind, Net, Table};
use std::path::Path;

/// Said instead of a tree if cells are open.
const OPEN: &str = "\
<h2>Open cells</h2>
<p>Some cells are open: their assignments cannot occur. A tree is made of a full table, so there is none here; <code>fill</code> finds inks for
the open cells, and a net can be checked against the others.</p>
";

/// Without `--all`, a matrix of more cells is not drawn, and a table of more cells is shown as a map.
const MOST_DRAWN: usize = 256;

/// Small cells, so that a map of 64 by 64 fits on a sheet of paper.
const MAP_STYLE: &str = "\
#static .map { overflow-x: auto; }
#static .map table { font-size: 9px; line-height: 1.1; }
#static .map th, #static .map td { padding: 0 1px; min-width: 8px; border: 0; font-weight: normal; white-space: nowrap; }
#static .map th span { writing-mode: vertical-rl; }
";

/// Returns what the table is called: its file's name without the folders.
pub fn title(name: &str) -> String {
    let name = Path::new(name).file_name().unwrap_or_default();
    name.to_string_lossy().into_owned()
}

/// Shows the table, and its tree or why it has none, with lists of at most so many lines.
pub fn shown(name: &str, table: &Table, most: usize) -> String {
    let open = match table.open().len() {
        0 => String::new(),
        cells => format!(", {} open", thousands(cells)),
    };
    let facts = format!(
        "{} levels, {}: {}; {}{open}",
        table.levels(),
        count(table.names().len(), "input"),
        table.names().join(", "),
        count(table.inks().len(), "row")
    );
    let body = match (table.settled(), Fault::of(table)) {
        (Ok(net), _) => tree(table, &net),
        (_, Some(fault)) => refused(&fault, most),
        (Err(refusal), None) if refusal.kind() == Kind::OpenCell => OPEN.to_string(),
        (Err(refusal), None) => format!("<p>{}</p>\n", text(&refusal.to_string())),
    };
    let cells = match table.inks().len() <= MOST_DRAWN || most == usize::MAX {
        true => rows(table),
        false => map(table),
    };
    let title = text(&title(name));
    format!("<h1>{title}</h1>\n<p class=\"facts\">{facts}</p>\n{body}{cells}")
}

/// Shows the tree, its layers and how many trees there are.
fn tree(table: &Table, net: &Net) -> String {
    let trees = table.family().map_or(0, |trees| trees.size());
    let fewest = table.shallow().map_or(0, |shallow| shallow.layers);
    let layers = net.layers();
    let shallower = match fewest < layers {
        true => format!(", and another tree of this table has {fewest}"),
        false => String::new(),
    };
    let names = net.unused().into_iter().map(|k| net.names()[k].as_str());
    let names: Vec<&str> = names.collect();
    // trees are counted on the inputs that the settled net uses
    let of = match names.is_empty() {
        true => "of this table",
        false => "on the inputs that it uses",
    };
    let family = match trees {
        1 => format!("It is the only tree {of}."),
        trees => format!("It is one of {trees} trees {of}."),
    };
    let unused = match &names[..] {
        [] => String::new(),
        [one] => format!(" The input {one} never matters, and is not used."),
        several => format!(
            " The inputs {} never matter, and are not used.",
            list(several)
        ),
    };
    format!(
        "<h2>Its tree</h2>\n<p>{}, {}{shallower}. {family}{unused}</p>\n<div class=\"wide\">\n{}</div>\n<h2>The tree as a sheet</h2>\n<pre>{}</pre>\n",
        count(net.gates().len(), "gate"),
        count(layers, "layer"),
        drawing(&svg::draw(net)),
        text(net.as_str())
    )
}

/// Says why there is no tree, with the matrix of the part that has too many classes, and of the group at fault.
fn refused(fault: &Fault, most: usize) -> String {
    let nearest = search::nearest(fault.table);
    let mut body = String::from("<h2>It has no tree</h2>\n");
    for paragraph in paragraphs(fault, nearest.as_ref(), most) {
        body += &format!("<p>{}</p>\n", with_code(&paragraph.words));
        if !paragraph.lines.is_empty() {
            let items: Vec<String> = paragraph
                .lines
                .iter()
                .map(|line| format!("<li>{}</li>\n", with_code(line)))
                .collect();
            body += &format!("<ul>\n{}</ul>\n", items.concat());
        }
    }
    let cells = fault.table.inks().len();
    if cells > MOST_DRAWN && most < usize::MAX {
        let cells = thousands(cells);
        return body
            + &format!("<p>The matrices of these inputs have {cells} cells each: <code>--all</code> draws them.</p>\n");
    }
    let mut drawn = |group: usize, words: String| {
        body += &format!(
            "<h2>{words}</h2>\n<div class=\"wide\">\n{}</div>\n",
            drawing(&matrix::draw(fault.table, group))
        );
    };
    let named = |group: usize| text(&fault.names(group).join(", "));
    let (part, group) = (fault.part(), fault.group());
    drawn(
        part,
        format!("{}: too many classes for one wire", named(part)),
    );
    drawn(
        group,
        format!("{}: the inputs at fault together", named(group)),
    );
    body
}

/// Returns a drawing whose style rules apply to the drawings of this part only.
fn drawing(svg: &str) -> String {
    let Some((before, rest)) = svg.split_once("<style>\n") else {
        return svg.to_string();
    };
    let (rules, after) = rest.split_once("</style>").unwrap_or((rest, ""));
    let rules: String = rules.lines().map(scoped).collect();
    format!("{before}<style>\n{rules}</style>{after}")
}

/// Limits a style rule, on a line of its own, to drawings inside the element `static`.
fn scoped(rule: &str) -> String {
    let (selectors, body) = rule.split_once('{').unwrap_or((rule, ""));
    let selectors = selectors
        .split(',')
        .map(|one| format!("#static svg {}", one.trim()));
    let selectors: Vec<String> = selectors.collect();
    format!("{} {{{body}\n", selectors.join(", "))
}

/// Shows the table as a map: the first inputs down, the others across, each ink in its shade.
fn map(table: &Table) -> String {
    let (levels, names) = (table.levels(), table.names());
    let down = names.len().div_ceil(2);
    let columns = levels.pow((names.len() - down) as u32);
    let shades: String = (0..levels)
        .map(|ink| {
            format!(
                "#static .ink{ink} {{ background: {}; }}\n",
                shade(ink as u8, levels)
            )
        })
        .collect();
    let part = |index: usize, of: std::ops::Range<usize>| {
        let row = table.row(index).expect("a row of the table");
        words::levels(&row.levels[of])
    };
    let heads: String = (0..columns)
        .map(|column| format!("<th><span>{}</span></th>", part(column, down..names.len())))
        .collect();
    let mut html = format!(
        "<h2>The table</h2>\n<p>Down: {}. Across: {}.</p>\n<style>\n{MAP_STYLE}{shades}</style>\n<div class=\"map\">\n<table>\n<tr><th></th>{heads}</tr>\n",
        names[..down].join(" "),
        names[down..].join(" ")
    );
    for (row, inks) in table.inks().chunks(columns).enumerate() {
        let cells: String = inks.iter().map(|&ink| map_cell(ink, levels)).collect();
        html += &format!(
            "<tr><th>{}</th>{cells}</tr>\n",
            part(row * columns, 0..down)
        );
    }
    html + "</table>\n</div>\n"
}

/// Returns a cell of the map.
fn map_cell(ink: u8, levels: usize) -> String {
    match usize::from(ink) == levels {
        true => "<td class=\"open\">-</td>".to_string(),
        false => format!("<td class=\"ink{ink}\">{ink}</td>"),
    }
}

/// Lists the table's rows, each ink in its shade.
fn rows(table: &Table) -> String {
    let head: String = table
        .names()
        .iter()
        .map(|name| format!("<th>{name}</th>"))
        .collect();
    let mut html =
        format!("<h2>The table</h2>\n<div class=\"rows\">\n<table>\n<tr>{head}<th>ink</th></tr>\n");
    for row in table.rows() {
        let levels: String = row
            .levels
            .iter()
            .map(|level| format!("<td>{level}</td>"))
            .collect();
        html += &format!("<tr>{levels}{}</tr>\n", ink(row.ink, table.levels()));
    }
    html + "</table>\n</div>\n"
}

/// Returns an ink in its shade, or that the cell is open.
fn ink(ink: u8, levels: usize) -> String {
    if usize::from(ink) == levels {
        return "<td class=\"open\">open</td>".to_string();
    }
    let shade = shade(ink, levels);
    format!("<td style=\"background:{shade}\">{ink}</td>")
}

/// Returns words as HTML, in which text between backquotes is code.
fn with_code(words: &str) -> String {
    let pieces = words.split('`').enumerate();
    let pieces = pieces.map(|(k, piece)| match k % 2 {
        0 => text(piece),
        _ => format!("<code>{}</code>", text(piece)),
    });
    pieces.collect()
}

/// Returns text as HTML.
pub fn text(text: &str) -> String {
    text.replace('&', "&amp;")
        .replace('<', "&lt;")
        .replace('>', "&gt;")
}
