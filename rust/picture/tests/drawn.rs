//! The net that a reader sees in a drawing, from the places of boxes, texts and wires, is the net of the sheet.

use crate::common::{net_sheets, Drawn, Rect};
use reference::net::Wire;
use reference::sheet::read_net_sheet;

/// A gate as seen in the drawing: its number, the sources of its left and right, its digits by rows.
type Seen = (String, String, String, String);

/// Returns the name in a box: an input's name, or a gate's number.
fn called(drawn: &Drawn, rect: &Rect) -> String {
    let class = if rect.class == "gate" {
        "number"
    } else {
        "name"
    };
    let texts = drawn.inside(rect, class);
    assert_eq!(texts.len(), 1, "one {class} in a box");
    texts[0].trim_start_matches("gate ").to_string()
}

/// Returns the box at whose right edge a wire begins.
fn source(drawn: &Drawn, wire: &[(i32, i32)]) -> String {
    let (x, y) = wire[0];
    let starts = |rect: &&&Rect| rect.right == x && rect.y < y && y < rect.bottom;
    let boxes = drawn.boxes();
    let found: Vec<&&Rect> = boxes.iter().filter(starts).collect();
    assert_eq!(found.len(), 1, "a wire begins at one box");
    called(drawn, found[0])
}

/// Returns the sources of the wires that end at a gate's left edge, from the top.
fn sources(drawn: &Drawn, gate: &Rect) -> Vec<String> {
    let end = |wire: &[(i32, i32)]| *wire.last().expect("a corner");
    let mut wires: Vec<_> = drawn.wires.iter().collect();
    wires.retain(|wire| {
        let (x, y) = end(wire);
        x == gate.x && gate.y < y && y < gate.bottom
    });
    wires.sort_by_key(|wire| end(wire).1);
    wires.iter().map(|wire| source(drawn, wire)).collect()
}

fn seen(drawn: &Drawn, gate: &Rect) -> Seen {
    let sources = sources(drawn, gate);
    let [left, right] = <[String; 2]>::try_from(sources).expect("two wires to a gate");
    let digits = drawn.inside(gate, "digit").concat();
    (called(drawn, gate), left, right, digits)
}

/// Returns the inputs and gates of a sheet, as read by the second implementation, and for each input whether some gate refers to it.
fn due(sheet: &[u8]) -> (Vec<(String, bool)>, Vec<Seen>) {
    let (header, net) = read_net_sheet(sheet).expect("a good sheet");
    let name = |bytes: &Vec<u8>| String::from_utf8(bytes.clone()).expect("a name");
    let names: Vec<String> = header.names.iter().map(name).collect();
    let text = |wire: Wire| match wire {
        Wire::Input(input) => names[input].clone(),
        Wire::Gate(number) => number.to_string(),
    };
    let gates = net.gates.iter().enumerate().map(|(k, gate)| {
        let digits = gate.digits.iter().map(|digit| digit.to_string()).collect();
        let number = (k + 1).to_string();
        (number, text(gate.left), text(gate.right), digits)
    });
    let gates = gates.collect();
    let used = (0..net.n).map(|input| net.uses(Wire::Input(input)));
    let inputs = names.iter().cloned().zip(used).collect();
    (inputs, gates)
}

fn of_class<'a>(drawn: &'a Drawn, class: &'a str) -> impl Iterator<Item = &'a Rect> {
    drawn.rects.iter().filter(move |rect| rect.class == class)
}

#[test]
fn every_input_once_and_every_gate_with_its_wires_and_digits() {
    for sheet in net_sheets() {
        let drawn = Drawn::read(&picture::svg::draw(
            &sitgurp::Net::read(&sheet).expect("a good sheet"),
        ));
        let (mut inputs, mut gates) = due(&sheet);
        let named = |class, used| {
            let boxes = of_class(&drawn, class).map(|rect| called(&drawn, rect));
            boxes.map(|name| (name, used)).collect::<Vec<_>>()
        };
        let mut drawn_inputs = [named("input", true), named("unused", false)].concat();
        let mut boxes: Vec<Seen> = of_class(&drawn, "gate")
            .map(|rect| seen(&drawn, rect))
            .collect();
        inputs.sort();
        drawn_inputs.sort();
        assert_eq!(drawn_inputs, inputs);
        let caption = drawn
            .texts
            .iter()
            .any(|text| text.text.contains("not used"));
        assert_eq!(caption, inputs.iter().any(|(_, used)| !used));
        gates.sort();
        boxes.sort();
        assert_eq!(boxes, gates);
    }
}

#[test]
fn the_wire_that_ends_at_no_gate_is_the_output_of_the_last() {
    for sheet in net_sheets() {
        let drawn = Drawn::read(&picture::svg::draw(
            &sitgurp::Net::read(&sheet).expect("a good sheet"),
        ));
        let ends_at_a_gate = |wire: &Vec<(i32, i32)>| {
            let (x, _) = wire[wire.len() - 1];
            of_class(&drawn, "gate").any(|gate| gate.x == x)
        };
        let outputs: Vec<_> = drawn
            .wires
            .iter()
            .filter(|wire| !ends_at_a_gate(wire))
            .collect();
        assert_eq!(outputs.len(), 1);
        let (_, gates) = due(&sheet);
        assert_eq!(source(&drawn, outputs[0]), gates.len().to_string());
        let (x, y) = outputs[0][1];
        let ink = drawn
            .texts
            .iter()
            .find(|text| text.text == "ink")
            .expect("the output's word");
        assert!(ink.x > x && ink.y == y, "the word stands after the wire");
    }
}

#[test]
fn levels_stand_beside_each_grid_and_higher_digits_are_darker() {
    for sheet in net_sheets() {
        let drawn = Drawn::read(&picture::svg::draw(
            &sitgurp::Net::read(&sheet).expect("a good sheet"),
        ));
        let m = read_net_sheet(&sheet).expect("a good sheet").0.m;
        for gate in of_class(&drawn, "gate") {
            let levels: Vec<String> = (0..m).map(|level| level.to_string()).collect();
            assert_eq!(
                drawn.inside(gate, "level"),
                [&levels[..], &levels[..]].concat()
            );
        }
        let mut greys = vec![None; m];
        for cell in of_class(&drawn, "cell") {
            let digit: usize = drawn
                .inside(cell, "digit")
                .concat()
                .parse()
                .expect("one digit");
            let fill = cell.fill.as_deref().expect("a fill");
            let grey: i32 = fill
                .split(['(', ','])
                .nth(1)
                .and_then(|grey| grey.parse().ok())
                .expect("a grey");
            assert!(
                greys[digit].is_none_or(|other| other == grey),
                "one grey for a digit"
            );
            greys[digit] = Some(grey);
        }
        let greys: Vec<i32> = greys.into_iter().flatten().collect();
        assert!(greys.windows(2).all(|pair| pair[0] > pair[1]), "{greys:?}");
    }
}
