//! Draws the rows: both life lines, each message's arrow between them, the phases beside them.

use super::rows::{Body, DeviceMove, GatewayMove, Note, Row, Weight};
use super::story::{Event, Played, Story};
use super::svg::{wrapped, Anchor, Frame, Picture, Point};
use pcp::capture::Direction;
use pcp::{DevicePhase, GatewayPhase, Refusal};

const WIDTH: i32 = 1040;
const MARGIN: i32 = 20;
/// Where the records' numbers end.
const RECORDS: i32 = 78;
/// Both ends: the strip of its phases, and its life line.
const GATEWAY_STRIP: i32 = 88;
const GATEWAY: i32 = 206;
const DEVICE: i32 = 630;
const MIDDLE: i32 = (GATEWAY + DEVICE) / 2;
const DEVICE_STRIP: i32 = 646;
const STRIP_WIDTH: i32 = 102;
/// Where the notes begin, and their text behind a number.
const NOTES: i32 = 764;
const NOTE_TEXT: i32 = NOTES + 34;

const TOP: i32 = 118;
const LINE: i32 = 16;
const ROW: i32 = 38;
/// Between the last row and the line below it.
const BELOW: i32 = 8;

/// How many characters a line has: of the records' numbers, of a note, of an arrow's label, of a run's line, of a strip,
/// of the legend.
const RECORD_CHARACTERS: usize = 10;
const NOTE_CHARACTERS: usize = 34;
const LABEL_CHARACTERS: usize = 56;
const RUN_CHARACTERS: usize = 50;
const STRIP_CHARACTERS: usize = 13;
const LEGEND_CHARACTERS: usize = 155;

const STYLE: &str = "\
path.life { fill: none; stroke: #8c959f; stroke-width: 1.5; stroke-dasharray: 2 4; }
path.way { fill: none; stroke: #3b6ea5; stroke-width: 1.6; }
path.head { fill: #3b6ea5; stroke: none; }
path.way.supposed { stroke: #8c959f; stroke-dasharray: 5 4; }
path.head.supposed { fill: #8c959f; }
path.way.repeated { stroke: #9a6700; }
path.head.repeated { fill: #9a6700; }
path.way.refused { stroke: #b42318; }
path.head.refused { fill: #b42318; }
rect.run { stroke-width: 1; }
rect.damage { fill: #fdeceb; stroke: #b42318; stroke-dasharray: 6 4; }
rect.badge { fill: #b42318; stroke: none; }
rect.badge.repeated { fill: #9a6700; }
rect.end { fill: #24292f; stroke: none; }
rect.idle { fill: #f6f8fa; stroke: #afb8c1; stroke-width: 1; }
rect.load, rect.first { fill: #e7f0fa; stroke: #3b6ea5; stroke-width: 1; }
rect.second { fill: #f1eafb; stroke: #7a55b8; stroke-width: 1; }
rect.done { fill: #e5f4e7; stroke: #3d8b4a; stroke-width: 1; }
rect.work { fill: #fdf2dc; stroke: #b58a2f; stroke-width: 1; }
rect.fail { fill: #fdeceb; stroke: #b42318; stroke-width: 1; }
text.title { font-size: 16px; font-weight: bold; }
text.ends { fill: #ffffff; font-size: 13px; font-weight: bold; }
text.phase { font-weight: bold; }
text.number { fill: #ffffff; font-weight: bold; font-size: 11px; }
text.record { fill: #6e7781; font-size: 11px; }
text.supposed { fill: #57606a; font-style: italic; }
text.repeated { fill: #7a5200; }
text.refused { fill: #b42318; }
";

/// Where a row stands.
struct Place {
    top: i32,
    /// Where its message passes.
    way: i32,
    bottom: i32,
}

/// A phase beside a life line.
struct Strip {
    from: i32,
    class: &'static str,
    lines: Vec<String>,
}

/// Of a strip's text: where the first line stands, and how far the next is.
const STRIP_FIRST: i32 = 16;
const STRIP_LINE: i32 = 13;

impl Strip {
    /// Where it can end at the earliest, for the sake of its text.
    fn least_end(&self) -> i32 {
        self.from + STRIP_FIRST + STRIP_LINE * (self.lines.len() as i32 - 1) + 10
    }
}

pub fn draw(name: &str, length: usize, story: &Story, rows: &[Row]) -> String {
    let places = places(rows);
    let (gateway, device) = (gateway_strips(rows, &places), device_strips(rows, &places));
    let strip_ends = [&gateway, &device].into_iter().filter_map(|strips| strips.last()).map(Strip::least_end);
    let ends = strip_ends.chain(places.last().map(|place| place.bottom));
    let bottom = ends.max().unwrap_or(TOP) + BELOW;
    let legend = legend(story, rows);
    let height = bottom + MARGIN + LINE * legend.len() as i32 + MARGIN / 2;
    let mut picture = Picture::new(WIDTH, height);
    picture.add_style(STYLE);
    picture.text("title", (MARGIN, 36), Anchor::Start, name);
    picture.text("note", (MARGIN, 58), Anchor::Start, &summary(length, story));
    for (x, end) in [(GATEWAY, "gateway"), (DEVICE, "device")] {
        picture.path("life", &format!("M{x} {} V{bottom}", TOP - 12));
        picture.frame("end", Frame { left: x - 48, top: TOP - 42, width: 96, height: 28 });
        picture.text("ends", (x, TOP - 23), Anchor::Middle, end);
    }
    strips(&mut picture, GATEWAY_STRIP, gateway, bottom);
    strips(&mut picture, DEVICE_STRIP, device, bottom);
    for (row, place) in rows.iter().zip(&places) {
        draw_row(&mut picture, row, place);
    }
    picture.path("life", &format!("M{MARGIN} {bottom} H{}", WIDTH - MARGIN));
    column(&mut picture, "note", (MARGIN, bottom + MARGIN + 4), Anchor::Start, &legend);
    picture.svg(&format!("{name}: who sent what, and the phases of both ends"))
}

/// A row is as high as the highest of what stands in it, and begins where the phases that it ends have room for their
/// names.
fn places(rows: &[Row]) -> Vec<Place> {
    let mut top = TOP;
    let (mut gateway_end, mut device_end) = (TOP, TOP);
    let place = |row: &Row| {
        let lines = body_lines(row).len() as i32;
        let (way, body) = match row.body {
            Body::Arrow { .. } => (10 + LINE * lines, 22 + LINE * lines),
            Body::Run { .. } | Body::Damage { .. } => (20, 18 + (LINE + 2) * lines),
        };
        let notes: i32 = row.notes.iter().map(|note| LINE * note_lines(note).len() as i32).sum();
        let gateway = row.gateway.as_ref().map(|to| (to, if to.before { 0 } else { way }));
        let ends = [gateway.map(|(_, from)| gateway_end - from), row.device.map(|_| device_end - way)];
        top = ends.into_iter().flatten().chain([top]).max().unwrap_or(top);
        if let Some((to, from)) = gateway {
            gateway_end = gateway_strip(to, top + from).least_end();
        }
        if let Some(to) = row.device {
            device_end = device_strip(to, top + way).least_end();
        }
        let place = Place { top, way: top + way, bottom: top + ROW.max(body).max(notes + 16) };
        top = place.bottom;
        place
    };
    rows.iter().map(place).collect()
}

fn body_lines(row: &Row) -> Vec<String> {
    match &row.body {
        Body::Arrow { label, .. } if row.times > 1 => {
            wrapped(&format!("{label}, {} times", row.times), LABEL_CHARACTERS)
        }
        Body::Arrow { label, .. } => wrapped(label, LABEL_CHARACTERS),
        Body::Run { lines, .. } => {
            lines.iter().flat_map(|(_, line, _)| wrapped(line, RUN_CHARACTERS)).collect()
        }
        Body::Damage { line } => wrapped(line, LABEL_CHARACTERS),
    }
}

fn note_lines(note: &Note) -> Vec<String> {
    wrapped(&note.text, if note.number.is_some() { NOTE_CHARACTERS } else { NOTE_CHARACTERS + 4 })
}

fn draw_row(picture: &mut Picture, row: &Row, place: &Place) {
    match &row.body {
        Body::Arrow { direction, weight, .. } => {
            let (class, lines) = (class(*weight), body_lines(row));
            column(
                picture,
                class,
                (MIDDLE, place.way - 7 - LINE * (lines.len() as i32 - 1)),
                Anchor::Middle,
                &lines,
            );
            arrow(picture, class, *direction, place.way, (GATEWAY, DEVICE));
        }
        Body::Run { lines, download } => run(picture, lines, *download, place),
        Body::Damage { .. } => {
            picture.frame("damage", between(place.top + 4, place.bottom - place.top - 8));
            column(picture, "refused", (MIDDLE, place.top + 24), Anchor::Middle, &body_lines(row));
        }
    }
    let level = if matches!(row.body, Body::Arrow { .. }) { place.way } else { place.way + 4 };
    let records = row.records.map_or(String::new(), |(first, last)| match last - first {
        0 => first.to_string(),
        _ => format!("{first} to {last}"),
    });
    column(picture, "record", (RECORDS, level), Anchor::End, &wrapped(&records, RECORD_CHARACTERS));
    notes(picture, &row.notes, place.top + 22);
}

/// Lines one below the other.
fn column(picture: &mut Picture, class: &str, first: Point, anchor: Anchor, lines: &[String]) {
    for (line, y) in lines.iter().zip((first.1..).step_by(LINE as usize)) {
        picture.text(class, (first.0, y), anchor, line);
    }
}

fn class(weight: Weight) -> &'static str {
    match weight {
        Weight::Plain => "plain",
        Weight::Supposed => "supposed",
        Weight::Repeated => "repeated",
        Weight::Refused => "refused",
    }
}

/// An arrow from life line to life line, or between other places.
fn arrow(picture: &mut Picture, class: &str, direction: Direction, y: i32, (left, right): (i32, i32)) {
    let (tip, back) = match direction {
        Direction::ToDevice => (right - 2, right - 12),
        Direction::FromDevice => (left + 2, left + 12),
    };
    let tail = if direction == Direction::ToDevice { left + 2 } else { right - 2 };
    picture.path(&format!("way {class}"), &format!("M{tail} {y} H{back}"));
    picture.path(&format!("head {class}"), &format!("M{tip} {y} L{back} {} V{} z", y - 5, y + 5));
}

/// A box between the life lines.
fn between(top: i32, height: i32) -> Frame {
    Frame { left: GATEWAY + 8, top, width: DEVICE - GATEWAY - 16, height }
}

/// One download's colour is not the next one's; before the first there is none.
fn tint(download: usize) -> &'static str {
    match download % 2 {
        _ if download == 0 => "idle",
        1 => "first",
        _ => "second",
    }
}

/// A box with a line for each direction, and an arrow before each.
fn run(picture: &mut Picture, lines: &[(Direction, String, Weight)], download: usize, place: &Place) {
    const ARROW: (i32, i32) = (GATEWAY + 20, GATEWAY + 58);
    let count: usize = lines.iter().map(|(_, line, _)| wrapped(line, RUN_CHARACTERS).len()).sum();
    let height = 12 + (LINE + 2) * count as i32;
    picture.frame(&format!("run {}", tint(download)), between(place.top + 4, height));
    let mut y = place.top + 22;
    for (direction, line, weight) in lines {
        let class = class(*weight);
        arrow(picture, class, *direction, y - 4, ARROW);
        for line in wrapped(line, RUN_CHARACTERS) {
            picture.text(class, (ARROW.1 + 10, y), Anchor::Start, &line);
            y += LINE + 2;
        }
    }
}

fn notes(picture: &mut Picture, notes: &[Note], first: i32) {
    let mut y = first;
    for note in notes {
        let (class, x) = match note.number {
            Some(refusal) => {
                let weight = if refusal == Refusal::AlreadyStored { "repeated" } else { "refused" };
                picture.frame(
                    &format!("badge {weight}"),
                    Frame { left: NOTES, top: y - 12, width: 28, height: 16 },
                );
                picture.text("number", (NOTES + 14, y), Anchor::Middle, &u8::from(refusal).to_string());
                (weight, NOTE_TEXT)
            }
            None => ("plain", NOTES),
        };
        for line in note_lines(note) {
            picture.text(class, (x, y), Anchor::Start, &line);
            y += LINE;
        }
    }
}

fn strips(picture: &mut Picture, left: i32, strips: Vec<Strip>, bottom: i32) {
    let ends: Vec<i32> = strips.iter().skip(1).map(|strip| strip.from).chain([bottom - BELOW]).collect();
    for (strip, end) in strips.iter().zip(ends) {
        let frame = Frame { left, top: strip.from + 1, width: STRIP_WIDTH, height: end - strip.from - 2 };
        picture.frame(strip.class, frame);
        let places = (strip.from + STRIP_FIRST..).step_by(STRIP_LINE as usize);
        for (at, (line, y)) in strip.lines.iter().zip(places).enumerate() {
            picture.text(if at == 0 { "phase" } else { "record" }, (frame.middle(), y), Anchor::Middle, line);
        }
    }
}

/// A phase begins above the message that shows it, or at the one that brings it about.
fn gateway_strips(rows: &[Row], places: &[Place]) -> Vec<Strip> {
    let moves = rows.iter().zip(places).filter_map(|(row, place)| row.gateway.as_ref().map(|to| (to, place)));
    moves.map(|(to, place)| gateway_strip(to, if to.before { place.top } else { place.way })).collect()
}

fn gateway_strip(to: &GatewayMove, from: i32) -> Strip {
    let class = match (to.to.phase, to.to.ending) {
        (Some(GatewayPhase::Serve), _) => "load",
        (Some(GatewayPhase::Run), _) => "work",
        (Some(GatewayPhase::Ended), Some(ending)) if !ending.is_success() => "fail",
        (Some(GatewayPhase::Ended), _) => "done",
        _ => "idle",
    };
    let phase = to.to.phase.map_or(String::new(), |phase| format!("{phase:?}"));
    let ending = to.to.ending.iter().flat_map(|ending| wrapped(&ending.to_string(), STRIP_CHARACTERS));
    let new = Some("a new one".to_string()).filter(|_| to.is_new);
    Strip { from, class, lines: [phase].into_iter().chain(ending).chain(new).collect() }
}

fn device_strips(rows: &[Row], places: &[Place]) -> Vec<Strip> {
    let moves = rows.iter().zip(places).filter_map(|(row, place)| row.device.map(|to| (to, place.way)));
    let first = DeviceMove { phase: DevicePhase::Idle, download: 0, code: None };
    [(first, TOP - 8)].into_iter().chain(moves).map(|(to, from)| device_strip(to, from)).collect()
}

/// Where a download is at stake, it also says of which package.
fn device_strip(to: DeviceMove, from: i32) -> Strip {
    let class = match to.phase {
        DevicePhase::Idle => "idle",
        DevicePhase::Loading => tint(to.download),
        DevicePhase::Loaded | DevicePhase::Acked => "done",
        DevicePhase::Failed => "fail",
        DevicePhase::Installing | DevicePhase::Reporting => "work",
    };
    let code = to.code.map_or("no code".to_string(), |code| format!("code {code:04X}"));
    let code = Some(code).filter(|_| matches!(to.phase, DevicePhase::Loading | DevicePhase::Loaded));
    Strip { from, class, lines: [format!("{:?}", to.phase)].into_iter().chain(code).collect() }
}

fn summary(length: usize, story: &Story) -> String {
    let damages = story.events.iter().filter(|event| matches!(event, Event::Damage(..))).count();
    let damages = match damages {
        0 => String::new(),
        1 => ", damaged in 1 place".to_string(),
        many => format!(", damaged in {many} places"),
    };
    format!("{} in {}{damages}", counted(story.records, "record"), counted(length, "byte"))
}

fn counted(count: usize, what: &str) -> String {
    format!("{} {what}{}", grouped(count), if count == 1 { "" } else { "s" })
}

/// Digits in groups of three.
fn grouped(number: usize) -> String {
    match number {
        0..=999 => number.to_string(),
        _ => format!("{},{:03}", grouped(number / 1_000), number % 1_000),
    }
}

fn legend(story: &Story, rows: &[Row]) -> Vec<String> {
    let downloads = rows.iter().filter_map(|row| row.device).map(|to| to.download).max().unwrap_or(0);
    let damaged = story.events.iter().any(|event| matches!(event, Event::Damage(..)));
    let played = &story.played;
    let mut notes = vec![
        "Left: the records' numbers from 0, and the gateway's phase, inferred from what it sends and from what is sent to it."
            .to_string(),
        format!(
            "Right: the phase of {} ({}, an image of {} bytes, a map of {}), to which the capture was played; the numbers with \
             which it refused a message; what a message has led to.",
            if played == &Played::replays() { "replay's device" } else { "a device like the one recorded" },
            played.running.as_str(),
            grouped(played.image),
            grouped(played.map)
        ),
    ];
    if downloads > 1 {
        notes.push("Another colour of Loading and of runs of fragments: another download.".to_string());
    }
    if !story.has_answers {
        notes.push(
            "Broken arrows: what replay's device answers. The capture has nothing from a device.".to_string(),
        );
    }
    if story.has_report {
        notes.push(
            "No installer is at work here: it is taken to have ended as the device's report says."
                .to_string(),
        );
    }
    if damaged {
        notes.push("Behind a damage, the records are numbered as in the mended capture.".to_string());
    }
    notes.iter().flat_map(|note| wrapped(note, LEGEND_CHARACTERS)).collect()
}
