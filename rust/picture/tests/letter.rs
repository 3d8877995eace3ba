//! The letter of docs/COMMANDS.md and the glyph printed from it are drawn exactly as in docs/pictures.

use std::fs;
use std::path::Path;

#[test]
fn the_letter_is_drawn_as_in_the_documents() {
    let repository = Path::new(env!("CARGO_MANIFEST_DIR")).join("../..");
    let read = |path: String| fs::read_to_string(repository.join(path)).expect("a file");
    for name in ["letter", "shaded"] {
        let picture = sitgurp::Picture::from_text(&read(format!("examples/{name}.txt")));
        let drawn = picture::cells::draw(&picture.expect("a picture"), 4);
        assert_eq!(drawn, read(format!("docs/pictures/{name}.svg")));
    }
}
