//! `draw` and `matrix`: the structure of what is written, and the committed pictures.

use crate::common::{answers, examples, is_wrong, repository};

#[test]
fn draw() {
    let folder = examples("draw");
    for name in ["figure1", "seven"] {
        let picture = repository().join(format!("docs/pictures/{name}.svg"));
        let picture = std::fs::read_to_string(picture).expect("a committed picture");
        answers(folder.run(&format!("draw {name}.net")), &picture);
    }
    let dot = folder.run("draw --dot seven.net").out;
    assert!(dot.starts_with("digraph net {\n"));
    let json = folder.run("draw seven.net --json").out;
    assert!(json.starts_with("{\"svg\":\"<svg xmlns="));
}

/// The text of each element of a class, in order.
fn texts<'a>(svg: &'a str, class: &str) -> Vec<&'a str> {
    let start = format!("<text class=\"{class}\" ");
    svg.lines()
        .filter(|line| line.starts_with(&start))
        .map(|line| line.split(['>', '<']).nth(2).expect("a text"))
        .collect()
}

fn count(svg: &str, element: &str) -> usize {
    svg.lines().filter(|line| line.starts_with(element)).count()
}

#[test]
fn matrix() {
    let folder = examples("matrix");
    let svg = folder.run("matrix majority.table --group b,c").out;
    assert_eq!(
        texts(&svg, "caption"),
        ["b, c: 3 classes; a wire carries 2 levels"]
    );
    // the classes, the columns gathered by them, the inks, and the other input's levels
    assert_eq!(texts(&svg, "number"), ["1", "2", "3"]);
    assert_eq!(count(&svg, "<rect class=\"class\""), 3);
    assert_eq!(
        texts(&svg, "level"),
        ["0", "0", "0", "1", "1", "0", "1", "1"]
    );
    assert_eq!(
        texts(&svg, "digit"),
        ["0", "0", "0", "1", "0", "1", "1", "1"]
    );
    assert_eq!(texts(&svg, "head"), ["b", "c", "a", "0", "1"]);
    assert_eq!(count(&svg, "<rect class=\"cell\""), 8);
    // the names' order in the option does not matter
    assert_eq!(folder.run("matrix --group c,b majority.table").out, svg);
    // no other inputs: one row
    let whole = folder.run("matrix majority.table --group a,b,c").out;
    assert_eq!(
        texts(&whole, "caption"),
        ["a, b, c: 2 classes; a wire carries 2 levels"]
    );
    assert_eq!(texts(&whole, "head"), ["a", "b", "c"]);
    let json = folder
        .run("matrix shade.table --group weight,near --json")
        .out;
    assert!(json.starts_with("{\"classes\":4,\"svg\":\"<svg "), "{json}");
    is_wrong(
        folder.run("matrix majority.table"),
        "sitgurp matrix: --group is needed: names of inputs with commas between\n",
    );
    is_wrong(
        folder.run("matrix majority.table --group a,x"),
        "sitgurp matrix: `x` is no input of this table; its inputs are a, b and c\n",
    );
    is_wrong(
        folder.run("matrix majority.table --group a,a"),
        "sitgurp matrix: a is in the group twice\n",
    );
}

/// Inputs that never matter: the picture has them beside the tree, and the page says so.
#[test]
fn inputs_that_are_not_used() {
    let folder = examples("page_unused");
    let sheet = |rule: fn(usize, usize, usize) -> usize| {
        let rows = (0..8).map(|row| {
            let [a, b, c] = [row / 4, row / 2 % 2, row % 2];
            format!("{a} {b} {c} {}\n", rule(a, b, c))
        });
        let rows: String = rows.collect();
        format!("levels inputs\n2 3\na b c ink\n{rows}")
    };
    folder.put("pair.table", sheet(|_, b, c| b ^ c));
    let net = "levels inputs\n2 3\na b c\nleft right table\nb c 0110\n";
    answers(folder.run("make pair.table -o pair.net"), "");
    assert_eq!(folder.get("pair.net"), net);
    let svg = folder.run("draw pair.net").out;
    assert_eq!(texts(&svg, "name"), ["a", "b", "c"]);
    assert_eq!(count(&svg, "<rect class=\"unused\""), 1);
    assert_eq!(
        texts(&svg, "caption")[2],
        "dashed: an input that is not used"
    );
    let dot = folder.run("draw --dot pair.net").out;
    assert!(dot.contains("    \"a\" [style=\"rounded,dashed\"];\n"));
    let page = folder.run("page pair.table").out;
    assert!(page.contains("<p>1 gate, 1 layer. It is the only tree on the inputs that it uses. The input a never matters, and is not used.</p>"));
    folder.put("zero.table", sheet(|_, _, _| 0));
    let page = folder.run("page zero.table").out;
    assert!(page.contains(" The input c never matters, and is not used.</p>"));
    let count = folder.run("count zero.table").out;
    assert_eq!(count, "1\n");
    let four = (0..16).map(|row| {
        let [a, b, c, d] = [row / 8, row / 4 % 2, row / 2 % 2, row % 2];
        format!("{a} {b} {c} {d} {}\n", b & c)
    });
    let four: String = four.collect();
    folder.put(
        "four.table",
        format!("levels inputs\n2 4\na b c d ink\n{four}"),
    );
    let page = folder.run("page four.table").out;
    assert!(page.contains(" The inputs a and d never matter, and are not used.</p>"));
}
