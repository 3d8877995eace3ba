//! What include/sitgurp.h says beside its declarations: its version and its refusals' numbers are those of the Rust crate.

use sitgurp::Kind;

fn header() -> String {
    let path = concat!(env!("CARGO_MANIFEST_DIR"), "/../../include/sitgurp.h");
    std::fs::read_to_string(path).expect("the header")
}

#[test]
fn the_version_is_the_crates() {
    let line = format!("#define SITGURP_VERSION \"{}\"", env!("CARGO_PKG_VERSION"));
    assert!(header().lines().any(|one| one == line), "{line}");
}

/// `UsedReference` is `SITGURP_REFUSED_USED_REFERENCE`.
fn c_name(kind: Kind) -> String {
    let mut name = String::from("SITGURP_REFUSED");
    for letter in format!("{kind:?}").chars() {
        if letter.is_uppercase() {
            name.push('_');
        }
        name.push(letter.to_ascii_uppercase());
    }
    name
}

#[test]
fn every_kind_of_refusal_has_its_number_in_c() {
    let header = header();
    let listed: Vec<&str> = header
        .lines()
        .filter_map(|line| line.trim().strip_prefix("SITGURP_REFUSED_"))
        .collect();
    assert_eq!(listed.len(), Kind::ALL.len());
    for kind in Kind::ALL {
        let due = format!("{} = {}", c_name(*kind), kind.number());
        let has = |line: &str| {
            let line = line.trim().split("/*").next().unwrap_or("").trim_end();
            line.trim_end_matches(',') == due
        };
        assert!(header.lines().any(has), "{due}");
    }
}
