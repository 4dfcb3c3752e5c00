//! Draws the phases of an end where a plan places them.

use super::machine::{Machine, Phase};
use super::svg::{wrapped, Anchor, Frame, Picture, Point};
use std::collections::BTreeSet;
use std::fmt::Debug;

/// A phase's box in the picture, and the class of its colours.
pub struct Place {
    pub phase: Phase,
    pub frame: Frame,
    pub class: &'static str,
}

/// Where a label's first line stands, and how many characters a line has.
pub struct Label {
    at: Point,
    anchor: Anchor,
    line: usize,
}

/// A label that ends here, left of an arrow.
pub const fn left(at: Point, line: usize) -> Label {
    Label { at, anchor: Anchor::End, line }
}

/// A label that begins here, right of an arrow.
pub const fn right(at: Point, line: usize) -> Label {
    Label { at, anchor: Anchor::Start, line }
}

/// A label that has its middle here, above or below an arrow.
pub const fn along(at: Point, line: usize) -> Label {
    Label { at, anchor: Anchor::Middle, line }
}

/// An arrow's way from box to box, and its label.
pub struct Route {
    from: Phase,
    to: Phase,
    way: &'static [Point],
    label: Label,
}

pub const fn route(from: Phase, to: Phase, way: &'static [Point], label: Label) -> Route {
    Route { from, to, way, label }
}

/// Where everything stands. Places and routes must be those of the machine: it says what there is to draw.
pub struct Plan {
    pub title: &'static str,
    pub size: (i32, i32),
    pub group: Option<(&'static str, Frame)>,
    pub places: &'static [Place],
    pub routes: &'static [Route],
}

const LINE_HEIGHT: i32 = 16;
const MARGIN: i32 = 24;

impl Plan {
    pub fn draw(&self, machine: &Machine) -> Result<String, String> {
        self.covers(machine)?;
        let mut picture = Picture::new(self.size.0, self.size.1);
        if let Some((title, frame)) = self.group {
            picture.frame("group", frame);
            picture.text("name", (frame.middle(), frame.top + 24), Anchor::Middle, title);
        }
        for route in self.routes {
            picture.arrow(&rounded(route.way));
        }
        for route in self.routes {
            let Label { at, anchor, line } = route.label;
            let labels = machine.labels(route.from, route.to);
            let lines = labels.iter().flat_map(|label| wrapped(label, line)).collect();
            lines_of(&mut picture, "label", at, anchor, lines);
        }
        for place in self.places {
            place.draw(&mut picture, machine);
        }
        self.notes(&mut picture, machine);
        Ok(picture.svg(self.title))
    }

    fn covers(&self, machine: &Machine) -> Result<(), String> {
        let places = self.places.iter().map(|place| place.phase).collect();
        let routes = self.routes.iter().map(|route| (route.from, route.to)).collect();
        same(&machine.phases().collect(), &places)?;
        same(&machine.arrows(), &routes)
    }

    fn notes(&self, picture: &mut Picture, machine: &Machine) {
        let everywhere: String =
            machine.everywhere().iter().map(|message| format!("{}; ", message)).collect();
        let notes = [
            "Arrows: message, its result, [case] / the reply's result. Boxes: what is sent when asked, and what stays there."
                .to_string(),
            format!(
                "Not drawn, for it changes nothing: {}what is refused; what is answered with another result than 00.",
                everywhere
            ),
        ];
        let most = (self.size.0 - 2 * MARGIN) as usize / 7;
        let lines: Vec<String> = notes.iter().flat_map(|note| wrapped(note, most)).collect();
        let first = self.size.1 - MARGIN - LINE_HEIGHT * (lines.len() as i32 - 1);
        lines_of(picture, "note", (MARGIN, first), Anchor::Start, lines);
    }
}

fn same<T: Ord + Debug>(found: &BTreeSet<T>, placed: &BTreeSet<T>) -> Result<(), String> {
    let missing: Vec<&T> = found.difference(placed).collect();
    let vain: Vec<&T> = placed.difference(found).collect();
    if missing.is_empty() && vain.is_empty() {
        Ok(())
    } else {
        Err(format!("without a place: {:?}; placed, but not found: {:?}", missing, vain))
    }
}

impl Place {
    fn draw(&self, picture: &mut Picture, machine: &Machine) {
        let sends = machine.sends[self.phase].iter().map(|message| format!("sends {}", message));
        let stays =
            machine.labels(self.phase, self.phase).into_iter().map(|label| format!("stays: {}", label));
        let lines: Vec<String> = sends.chain(stays).collect();
        let name = self.frame.top + (self.frame.height - LINE_HEIGHT * lines.len() as i32) / 2 + 5;
        let middle = self.frame.middle();
        picture.frame(self.class, self.frame);
        picture.text("name", (middle, name), Anchor::Middle, self.phase);
        lines_of(picture, "label", (middle, name + LINE_HEIGHT + 2), Anchor::Middle, lines);
    }
}

fn lines_of(picture: &mut Picture, class: &str, first: Point, anchor: Anchor, lines: Vec<String>) {
    for (line, y) in lines.iter().zip((first.1..).step_by(LINE_HEIGHT as usize)) {
        picture.text(class, (first.0, y), anchor, line);
    }
}

const RADIUS: i32 = 12;

/// A way along level and upright lines, with its corners rounded.
fn rounded(way: &[Point]) -> String {
    let last = way.len() - 1;
    let mut path = format!("M{} {}", way[0].0, way[0].1);
    for corner in 1..last {
        let (x, y) = way[corner];
        let before = toward(way[corner], way[corner - 1]);
        let after = toward(way[corner], way[corner + 1]);
        path += &format!(" L{} {} Q{} {} {} {}", before.0, before.1, x, y, after.0, after.1);
    }
    path + &format!(" L{} {}", way[last].0, way[last].1)
}

/// The point that lies a radius from a corner toward the next point.
fn toward(corner: Point, next: Point) -> Point {
    let step = |from: i32, to: i32| from + (to - from).signum() * RADIUS;
    (step(corner.0, next.0), step(corner.1, next.1))
}
