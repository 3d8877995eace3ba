//! `family`: the trees of a table on one page.

use crate::common::{examples, is_wrong, refuses, repository, SUM_TABLE};

/// The numbers of the tiles.
fn numbers(svg: &str) -> Vec<&str> {
    let titles = svg
        .lines()
        .filter(|line| line.starts_with("<text class=\"title\""));
    titles
        .map(|line| line.split(['>', '<']).nth(2).expect("a text"))
        .collect()
}

/// What is written above the tiles.
fn heading(svg: &str) -> &str {
    let line = svg
        .lines()
        .find(|line| line.starts_with("<text class=\"caption\""));
    line.and_then(|line| line.split(['>', '<']).nth(2))
        .expect("a heading")
}

#[test]
fn a_page_of_trees() {
    let folder = examples("family");
    folder.put("sum.table", SUM_TABLE);
    let page = |words: &str| folder.run(&format!("family {words}")).out;
    let all = page("sum.table");
    assert_eq!(numbers(&all), ["0", "1", "2"]);
    assert_eq!(heading(&all), "All 3 trees; 2 levels");
    let some = page("sum.table --from 1 --most 1");
    assert_eq!(
        (numbers(&some), heading(&some)),
        (vec!["1"], "Tree 1 of 3; 2 levels")
    );
    let last = page("sum.table --from 1");
    assert_eq!(
        (numbers(&last), heading(&last)),
        (vec!["1", "2"], "Trees 1 to 2 of 3; 2 levels")
    );
    assert_eq!(heading(&page("shade.table")), "The only tree; 4 levels");
    folder.put(
        "pair.table",
        "levels inputs\n2 3\na b c ink\n0 0 0 0\n0 0 1 1\n0 1 0 0\n0 1 1 1\n1 0 0 1\n1 0 1 0\n1 1 0 1\n1 1 1 0\n",
    );
    assert_eq!(
        heading(&page("pair.table")),
        "The only tree; 2 levels; not used: b"
    );
    let committed = repository().join("docs/pictures/family.svg");
    let committed = std::fs::read_to_string(committed).expect("a committed picture");
    let parity = repository().join("examples/theory/parity.table");
    assert_eq!(page(parity.to_str().expect("a path")), committed);
    let json = page("sum.table --json --most 2");
    assert!(
        json.starts_with("{\"trees\":3,\"from\":0,\"drawn\":2,\"svg\":\"<svg "),
        "{json}"
    );
    folder.run("family -d pages sum.table shade.table");
    assert_eq!(folder.get("pages/sum.svg"), all);
}

#[test]
fn what_is_refused() {
    let folder = examples("family_refused");
    folder.put("sum.table", SUM_TABLE);
    let none = "majority.table: no tree of two-input gates computes this table; at fault are a, b and c together (refusal 16)\n\
                `sitgurp why majority.table` says what to change\n";
    for words in ["majority.table", "majority.table --from 9"] {
        refuses(folder.run(&format!("family {words}")), none);
    }
    refuses(
        folder.run("family sum.table --from 3"),
        "sum.table: the table has 3 trees, 0 to 2, and none of number 3 (refusal 17)\n",
    );
    refuses(
        folder.run("family sum.table --from 18446744073709551615"),
        "sum.table: the table has 3 trees, 0 to 2, and none of number 18446744073709551615 (refusal 17)\n",
    );
    is_wrong(
        folder.run("family sum.table --most 1001"),
        "sitgurp family: --most takes a whole number from 0 to 1000, not `1001`\n",
    );
}
