//! `stream`: one call for each line.

use super::Command;
use crate::call::{Call, Opt};
use crate::outcome::{Answer, Failure};

pub static COMMAND: Command = Command {
    name: "stream",
    usage: "[FILE] [--jobs N]",
    summary: "one call for each line, as JSON, on all cores",
    help: "\
Reads one JSON object for each line and writes one for each, in the same order: `{\"id\":7,\"call\":\"make\",\"sheets\":[\"levels inputs\\n..\"]}`
gives `{\"id\":7,\"status\":0,\"answer\":{..}}`, with the answer that the command gives with --json. A refusal has the status 1 and a list
`refused`; a bad line has the status 2, an `error` and its `line`, and the stream goes on. `call` is any command of `sitgurp --help`, `id` is any
value, and `words` may have further words, such as `[\"--number\",\"3\"]`. Each answer is written as soon as those before it are, and memory
stays bounded, however long the stream is.
",
    sheets: 1,
    more: false,
    options: &[Opt::value("--jobs", "N").says("use N cores in place of all")],
    ending: None,
    run,
};

/// The stream writes as it goes, so it has no one answer.
fn run(call: &Call) -> Result<Answer, Failure> {
    Err(call.wrong("a stream is no call".to_string()))
}
