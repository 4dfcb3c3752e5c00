//! `chart [NAME]` draws the capture on standard input as a sequence chart, an SVG, on standard output. With a name, the
//! chart has it as its title.

mod drawing;
mod fields;
mod gateway;
mod rows;
mod runs;
mod story;
#[path = "../streams.rs"]
mod streams;
#[path = "../svg.rs"]
mod svg;

use std::env;
use std::ffi::OsStr;
use std::process::ExitCode;

fn main() -> ExitCode {
    let name = env::args_os().nth(1).map_or("a capture".into(), |name| shown(&name));
    let drawn = streams::read().and_then(|capture| streams::write(chart(&name, &capture).as_bytes()));
    streams::exit_code("chart", drawn)
}

/// A file's name may hold what no SVG may.
fn shown(name: &OsStr) -> String {
    name.to_string_lossy().replace(char::is_control, "?")
}

fn chart(name: &str, capture: &[u8]) -> String {
    let story = story::Story::of(capture);
    drawing::draw(name, capture.len(), &story, &rows::rows(&story))
}
