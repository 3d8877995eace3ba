//! A picture of levels drawn as SVG: one square per cell, darker for a higher level.

use sitgurp::Picture;
use std::fmt::Write;

/// The side of a cell.
const CELL: usize = 12;

/// The grey of the highest level; level 0 is white.
const DARKEST: usize = 225;

/// Draws a picture that has this many levels, with a thin frame around it.
///
/// # Panics
///
/// If the picture has cells and its width is 0.
pub fn draw(picture: &Picture, levels: u8) -> String {
    let (width, height) = (picture.width * CELL, picture.height * CELL);
    let mut svg = format!(
        "<svg xmlns=\"http://www.w3.org/2000/svg\" width=\"{width}\" height=\"{height}\" viewBox=\"0 0 {width} {height}\">\n"
    );
    let highest = usize::from(levels.max(2)) - 1;
    for (k, &level) in picture.cells.iter().enumerate() {
        let (x, y) = (k % picture.width * CELL, k / picture.width * CELL);
        let grey = 255 - usize::from(level).min(highest) * DARKEST / highest;
        writeln!(
            svg,
            "<rect x=\"{x}\" y=\"{y}\" width=\"{CELL}\" height=\"{CELL}\" fill=\"#{grey:02x}{grey:02x}{grey:02x}\"/>"
        )
        .expect("text is written");
    }
    svg + &format!(
        "<rect width=\"{width}\" height=\"{height}\" fill=\"none\" stroke=\"#9aa5b1\"/>\n</svg>\n"
    )
}
