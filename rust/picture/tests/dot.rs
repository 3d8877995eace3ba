//! The Graphviz text has the sheet's inputs, gates, wires and digits, and nothing else.

use crate::common::net_sheets;

/// Returns the statements expected for a sheet, from its lines alone.
fn due(sheet: &str) -> Vec<String> {
    let lines: Vec<&str> = sheet.lines().collect();
    let used = |name: &str| {
        let mut references = lines[4..].iter().flat_map(|line| line.split(' ').take(2));
        references.any(|reference| reference == name)
    };
    let mut statements: Vec<String> = lines[2]
        .split(' ')
        .map(|name| match used(name) {
            true => format!("\"{name}\" [style=rounded];"),
            false => format!("\"{name}\" [style=\"rounded,dashed\"];"),
        })
        .collect();
    let m: usize = lines[1][..1].parse().expect("levels");
    for (k, line) in lines[4..].iter().enumerate() {
        let fields: Vec<&str> = line.split(' ').collect();
        let number = k + 1;
        let rows: Vec<&str> = (0..m)
            .map(|row| &fields[2][row * m..(row + 1) * m])
            .collect();
        let table = rows.join("\\n");
        statements.push(format!("\"{number}\" [label=\"gate {number}\\n{table}\"];"));
        statements.push(format!(
            "\"{}\" -> \"{number}\" [label=\"left\"];",
            fields[0]
        ));
        statements.push(format!(
            "\"{}\" -> \"{number}\" [label=\"right\"];",
            fields[1]
        ));
    }
    statements.push("\"ink\" [shape=plaintext];".to_string());
    statements.push(format!("\"{}\" -> \"ink\";", lines.len() - 4));
    statements
}

#[test]
fn every_statement_that_is_due_and_no_other() {
    for sheet in net_sheets() {
        let dot = picture::dot::write(&sitgurp::Net::read(&sheet).expect("a good sheet"));
        let statements: Vec<&str> = dot
            .lines()
            .map(str::trim)
            .filter(|line| line.starts_with('"'))
            .collect();
        assert_eq!(statements, due(std::str::from_utf8(&sheet).expect("ASCII")));
        assert!(dot.starts_with("digraph net {\n") && dot.ends_with("\n}\n"));
    }
}
