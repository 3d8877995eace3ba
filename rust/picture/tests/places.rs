//! Nothing overlaps: boxes, wires and texts are compared by their coordinates in the drawing.

use crate::common::{net_sheets, Drawn, Rect};

/// The least distance between two boxes, and between a box and the page's edge.
const ROOM: i32 = 8;
/// An upper bound for the width of a letter per pixel of its height, in the fonts named in the style.
const LETTER: f64 = 0.63;

type Segment = ((i32, i32), (i32, i32));

fn drawings() -> Vec<Drawn> {
    let svg =
        |sheet: Vec<u8>| picture::svg::draw(&sitgurp::Net::read(&sheet).expect("a good sheet"));
    net_sheets()
        .into_iter()
        .map(|sheet| Drawn::read(&svg(sheet)))
        .collect()
}

fn page(drawn: &Drawn) -> &Rect {
    drawn
        .rects
        .iter()
        .find(|rect| rect.class == "page")
        .expect("a page")
}

/// Tests whether two closed ranges have a number in common.
fn meet(a: (i32, i32), b: (i32, i32)) -> bool {
    a.0 <= b.1 && b.0 <= a.1
}

fn apart(a: &Rect, b: &Rect, room: i32) -> bool {
    !meet((a.x - room + 1, a.right + room - 1), (b.x, b.right))
        || !meet((a.y - room + 1, a.bottom + room - 1), (b.y, b.bottom))
}

fn segments(wire: &[(i32, i32)]) -> impl Iterator<Item = Segment> + '_ {
    wire.windows(2).map(|pair| (pair[0], pair[1]))
}

/// Returns the ranges of x and of y that a horizontal or vertical segment covers.
fn ranges(((x, y), (u, v)): Segment) -> ((i32, i32), (i32, i32)) {
    ((x.min(u), x.max(u)), (y.min(v), y.max(v)))
}

fn cross(a: Segment, b: Segment) -> bool {
    let ((ax, ay), (bx, by)) = (ranges(a), ranges(b));
    meet(ax, bx) && meet(ay, by)
}

/// Tests whether a segment enters the inside of a box; the edge is outside.
fn enters(segment: Segment, rect: &Rect) -> bool {
    let (x, y) = ranges(segment);
    meet(x, (rect.x + 1, rect.right - 1)) && meet(y, (rect.y + 1, rect.bottom - 1))
}

#[test]
fn no_two_boxes_overlap_and_all_are_on_the_page() {
    for drawn in drawings() {
        let (boxes, page) = (drawn.boxes(), page(&drawn));
        for (k, a) in boxes.iter().enumerate() {
            assert!(
                boxes[..k].iter().all(|b| apart(a, b, ROOM)),
                "{a:?} in {boxes:?}"
            );
            let inside =
                page.holds(a.x - ROOM, a.y - ROOM) && page.holds(a.right + ROOM, a.bottom + ROOM);
            assert!(inside, "{a:?} on {page:?}");
        }
    }
}

#[test]
fn no_wire_runs_through_a_box() {
    for drawn in drawings() {
        for wire in &drawn.wires {
            for rect in drawn.boxes() {
                assert!(
                    !segments(wire).any(|segment| enters(segment, rect)),
                    "{wire:?} through {rect:?}"
                );
            }
        }
    }
}

#[test]
fn no_two_wires_meet() {
    for drawn in drawings() {
        for (k, wire) in drawn.wires.iter().enumerate() {
            for other in &drawn.wires[..k] {
                let crosses = |a| segments(other).any(|b| cross(a, b));
                assert!(!segments(wire).any(crosses), "{wire:?} and {other:?}");
            }
        }
    }
}

/// Returns the font size of a class, from the style.
fn font_size(svg: &str, class: &str) -> f64 {
    let rule = svg
        .lines()
        .find(|line| line.starts_with('.') && line.contains(&format!(".{class}")));
    let rule = rule.unwrap_or_else(|| panic!("no rule for {class}"));
    let size = rule
        .split("font-size: ")
        .nth(1)
        .and_then(|rest| rest.split("px").next());
    size.and_then(|size| size.parse().ok())
        .expect("a font size")
}

/// Returns the largest rectangle that a text can cover.
fn taken(svg: &str, text: &crate::common::Text) -> Rect {
    let size = font_size(svg, &text.class);
    let width = (LETTER * size * text.text.len() as f64).ceil() as i32;
    let start = if text.class == "caption" {
        text.x
    } else {
        text.x - width / 2
    };
    let half = (size / 2.0).ceil() as i32;
    Rect {
        class: text.class.clone(),
        x: start,
        y: text.y - half,
        right: start + width,
        bottom: text.y + half,
        fill: None,
    }
}

#[test]
fn no_text_lies_on_another_and_names_and_numbers_stay_in_their_boxes() {
    for sheet in net_sheets() {
        let svg = picture::svg::draw(&sitgurp::Net::read(&sheet).expect("a good sheet"));
        let drawn = Drawn::read(&svg);
        let texts: Vec<Rect> = drawn.texts.iter().map(|text| taken(&svg, text)).collect();
        for (k, a) in texts.iter().enumerate() {
            assert!(
                texts[..k].iter().all(|b| apart(a, b, 1)),
                "{a:?} in {texts:?}"
            );
            let boxed = |rect: &&Rect| rect.holds(a.x, a.y) && rect.holds(a.right, a.bottom);
            let outside = ["output", "caption"].contains(&a.class.as_str());
            assert_eq!(
                drawn.boxes().iter().filter(|rect| boxed(rect)).count(),
                usize::from(!outside),
                "{a:?}"
            );
            assert!(boxed(&page(&drawn)), "{a:?} off the page");
            let crossed = |wire: &Vec<(i32, i32)>| segments(wire).any(|segment| enters(segment, a));
            assert!(!drawn.wires.iter().any(crossed), "a wire through {a:?}");
        }
    }
}
