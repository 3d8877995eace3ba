//! `glyph`: the picture that a net prints from a picture.

use super::Command;
use crate::call::{Call, Opt};
use crate::cells::{Cells, Format, Step};
use crate::input::{of_names, Sheet};
use crate::json::Json;
use crate::outcome::{Answer, Failure};
use crate::refused::{self, Refused};
use crate::words::list;
use sitgurp::{Kind, Net, Refusal};
use std::ffi::OsStr;

pub static COMMAND: Command = Command {
    name: "glyph",
    usage: "NET [PICTURE] [--at NAME=ACROSS,DOWN ..] [--map GRAY=LEVEL,..] [--source] [--pgm | --svg | --text]",
    summary: "the glyph that a net prints from a picture",
    help: "\
Each cell of the glyph is the net's shade, with each input read from the picture at an offset of its own from that cell; outside
the picture the level is 0. A picture is text, a line for each row and a digit for each cell, `.` for 0; or a portable graymap (PGM,
plain `P2` or raw `P5`, up to 16 bits), level 0 white. The grays of a graymap become levels by equal steps, or by --map. The glyph is
written as the picture is, a graymap in plain text.
",
    sheets: 2,
    more: true,
    options: &[
        Opt {
            many: true,
            ..Opt::value("--at", "NAME=ACROSS,DOWN").says(
                "where an input is read, from -2 to 2 each: `near=-1,0` is the cell to the left, and `light=0,-1` the one above; \
                 an input that is not named is read from the cell itself",
            )
        },
        Opt::value("--map", "GRAY=LEVEL,..").says(
            "the level of each gray of a graymap: `0=3,64=2,200=0` makes grays 0 to 63 level 3, 64 to 199 level 2, and 200 or more level 0",
        ),
        Opt::flag("--source").says("write the picture as it is read, instead of the glyph"),
        Opt::flag("--pgm").says("write a graymap, whatever the picture is"),
        Opt::flag("--svg").says("draw it, a square for each cell"),
        Opt::flag("--text").says("write text, whatever the picture is"),
    ],
    ending: None,
    run,
};

/// Across and down.
type Offset = [i64; 2];

fn run(call: &Call) -> Result<Answer, Failure> {
    let formats = [
        ("--pgm", Format::Graymap),
        ("--svg", Format::Svg),
        ("--text", Format::Text),
    ];
    let mut given = formats.into_iter().filter(|(option, _)| call.has(option));
    let format = match (given.next(), given.next()) {
        (Some((one, _)), Some((other, _))) => {
            return Err(call.wrong(format!("{one} and {other} do not go together")))
        }
        (one, _) => one.map(|(_, format)| format),
    };
    // behind one `--at` there may be more than one input
    let is_offset = |word: &&OsStr| call.has("--at") && word.to_string_lossy().contains('=');
    let words = call.operands.iter().map(AsRef::as_ref);
    let (more, names): (Vec<&OsStr>, Vec<&OsStr>) = words.partition(is_offset);
    let [net_sheet, file] = of_names(call, &names)?;
    let net = refused::net(&net_sheet)?;
    let mut given = call.values("--at");
    given.extend(more.iter().map(|word| word.to_string_lossy().into_owned()));
    let offsets = offsets(call, &net, &given)?;
    let steps = call
        .value("--map")
        .map(|map| steps(call, &net, &map))
        .transpose()?;
    let cells = Cells::read(&file, net.levels(), steps.as_deref())?;
    if steps.is_some() && cells.format == Format::Text {
        return Err(
            call.wrong("--map is for the grays of a graymap, and this picture is text".to_string())
        );
    }
    let glyph =
        sitgurp::glyph_of(net.as_ref(), &cells.picture, &lent(&offsets)).map_err(|refusal| {
            match refusal.kind() {
                Kind::Offsets => too_far(&net_sheet, &net, &offsets, refusal),
                _ => cells.refused(net.levels(), refusal),
            }
        })?;
    let shown = if call.has("--source") {
        &cells.picture
    } else {
        &glyph
    };
    let picture = Json::object([
        ("width", Json::number(shown.width)),
        ("height", Json::number(shown.height)),
        ("levels", Json::number(net.levels())),
        ("cells", Json::numbers(&shown.cells)),
    ]);
    let text = format.unwrap_or(cells.format).written(shown, net.levels());
    let json = match format {
        Some(Format::Svg) => Json::object([("picture", picture), ("svg", Json::text(&text))]),
        _ => Json::object([("picture", picture)]),
    };
    Ok(Answer::new(text, json))
}

/// The steps of `--map`: rising grays from 0, each with the level from it on.
fn steps(call: &Call, net: &Net, map: &str) -> Result<Vec<Step>, Failure> {
    let most = net.levels() - 1;
    let mut steps: Vec<Step> = Vec::new();
    for word in map.split(',') {
        let parts = word.split_once('=');
        let step = parts.and_then(|(gray, level)| {
            Some((gray.trim().parse().ok()?, level.trim().parse().ok()?))
        });
        let Some((gray, level)) = step.filter(|(_, level)| usize::from(*level) <= most) else {
            return Err(call.wrong(format!(
                "--map takes GRAY=LEVEL with a gray up to 65535 and a level from 0 to {most}, and not `{word}`"
            )));
        };
        if steps
            .last()
            .map_or(gray != 0, |(before, _)| *before >= gray)
        {
            return Err(call.wrong("the grays of --map begin at 0 and rise".to_string()));
        }
        steps.push((gray, level));
    }
    Ok(steps)
}

/// An offset for each input, in the net's order.
fn offsets(call: &Call, net: &Net, words: &[String]) -> Result<Vec<Offset>, Failure> {
    let mut given: Vec<Option<Offset>> = vec![None; net.names().len()];
    for word in words {
        let (name, value) = word.split_once('=').ok_or_else(|| {
            call.wrong(format!(
                "--at takes NAME=ACROSS,DOWN, such as {}=0,-1, and not `{word}`",
                net.names()[0]
            ))
        })?;
        let input = net.names().iter().position(|known| known == name);
        let input = input.ok_or_else(|| {
            let names = list(net.names());
            call.wrong(format!(
                "`{name}` is no input of this net; its inputs are {names}"
            ))
        })?;
        let offset = offset(value).ok_or_else(|| {
            call.wrong(format!(
                "the offset of {name} is ACROSS,DOWN, two whole numbers from -2 to 2, and not `{value}`"
            ))
        })?;
        if given[input].replace(offset).is_some() {
            return Err(call.wrong(format!("{name} is given twice")));
        }
    }
    let given = given.into_iter();
    Ok(given.map(Option::unwrap_or_default).collect())
}

/// `-1,0`; how far it may be is the library's to say.
fn offset(value: &str) -> Option<Offset> {
    let (across, down) = value.split_once(',')?;
    Some([across.parse().ok()?, down.parse().ok()?])
}

/// As the library takes them; one that is too far for a byte stays too far.
fn lent(offsets: &[Offset]) -> Vec<i8> {
    let nearest = |&offset: &i64| offset.clamp(i8::MIN.into(), i8::MAX.into()) as i8;
    offsets.iter().flatten().map(nearest).collect()
}

fn too_far(sheet: &Sheet, net: &Net, offsets: &[Offset], refusal: Refusal) -> Refused {
    let is_far = |offset: &Offset| offset.iter().any(|far| !(-2..=2).contains(far));
    let mut inputs = net.names().iter().zip(offsets);
    let words = match inputs.find(|(_, offset)| is_far(offset)) {
        Some((name, [across, down])) => format!(
            "{name} is to be read {across} across and {down} down, and an offset is from -2 to 2"
        ),
        None => refusal.words().to_string(),
    };
    Refused::of_file(sheet, refusal, words)
}
