//! The picture of the crates, from crates.txt.

use super::layers::{Layers, Slot};
use super::svg::{Anchor, Frame, Picture};

/// A line of crates.txt: the crates that it uses come before it, but for those of the toolchain.
struct Crate {
    name: String,
    /// By their numbers in the file.
    uses: Vec<usize>,
    is_program: bool,
}

const BOX_HEIGHT: i32 = 38;
const LAYER_HEIGHT: i32 = 86;
/// About the names in the boxes, and about the picture.
const PADDING: i32 = 14;
const MARGIN: i32 = 40;
/// Below a group's edge, for its title.
const TITLE: i32 = 26;
/// Where an arrow passes.
const PASSAGE: f64 = 14.0;

/// Draws the repository's crates in layers, the lowest at the bottom.
pub fn draw(file: &str) -> Result<String, String> {
    let crates = read(file)?;
    Ok(Drawing::new(&crates).svg())
}

/// The libraries come first, then a blank line and the programs. What has no line is the toolchain's.
fn read(file: &str) -> Result<Vec<Crate>, String> {
    let mut crates: Vec<Crate> = Vec::new();
    let mut is_program = false;
    for line in file.lines().filter(|line| !line.starts_with('#')) {
        if line.trim().is_empty() {
            is_program = !crates.is_empty();
            continue;
        }
        let (head, used) = line.split_once(':').ok_or(format!("crates.txt: no colon in '{}'", line))?;
        // Behind the name may stand what kind of library it is.
        let name = head.split_whitespace().next().ok_or(format!("crates.txt: no name in '{}'", line))?;
        let number = |used: &str| crates.iter().position(|before| before.name == used);
        let uses = used.split_whitespace().filter_map(number).collect();
        crates.push(Crate { name: name.to_string(), uses, is_program });
    }
    Ok(crates)
}

/// Whether a crate uses another, itself or through others.
fn reaches(crates: &[Crate], from: usize, to: usize) -> bool {
    crates[from].uses.iter().any(|used| *used == to || reaches(crates, *used, to))
}

/// The arrows that say all: those that follow from others are left out.
fn arrows(crates: &[Crate]) -> Vec<(usize, usize)> {
    let is_needed = |from: usize, to: usize| !crates[from].uses.iter().any(|used| reaches(crates, *used, to));
    let of_crate = |from: usize| crates[from].uses.iter().map(move |to| (from, *to));
    (0..crates.len()).flat_map(of_crate).filter(|(from, to)| is_needed(*from, *to)).collect()
}

/// Each crate's layer: the lowest above all that it uses, for a program also one that no other program has.
fn layers(crates: &[Crate]) -> Vec<usize> {
    let mut layers: Vec<usize> = Vec::new();
    for one in crates {
        let lowest = one.uses.iter().map(|used| layers[*used] + 1).max().unwrap_or(0);
        let is_taken =
            |layer: &usize| crates.iter().zip(&layers).any(|(other, at)| other.is_program && at == layer);
        let layer = (lowest..).find(|layer| !one.is_program || !is_taken(layer));
        layers.push(layer.expect("the layers have no end"));
    }
    layers
}

/// The crates with their places.
struct Drawing<'a> {
    crates: &'a [Crate],
    frames: Vec<Frame>,
    /// The slots along each arrow.
    ways: Vec<Vec<usize>>,
    slots: Vec<(i32, i32)>,
    width: i32,
    height: i32,
}

impl<'a> Drawing<'a> {
    fn new(crates: &'a [Crate]) -> Drawing<'a> {
        let longest = crates.iter().map(|one| one.name.len()).max().unwrap_or(0) as i32;
        let box_width = longest * 9 + 2 * PADDING;
        let slot = |(one, layer): (&Crate, usize)| Slot {
            layer,
            width: box_width.into(),
            is_passage: false,
            is_apart: one.is_program,
        };
        let slots = crates.iter().zip(layers(crates)).map(slot).collect();
        let mut graph = Layers { slots, links: Vec::new() };
        let ways = arrows(crates).iter().map(|(from, to)| way(&mut graph, *from, *to)).collect();
        let top = graph.slots.iter().map(|slot| slot.layer).max().unwrap_or(0) as i32;
        let place = |(middle, slot): (&f64, &Slot)| {
            (MARGIN + middle.round() as i32, MARGIN + TITLE + (top - slot.layer as i32) * LAYER_HEIGHT)
        };
        let slots: Vec<(i32, i32)> = graph.places().iter().zip(&graph.slots).map(place).collect();
        let frame = |(middle, top): &(i32, i32)| Frame {
            left: middle - box_width / 2,
            top: *top,
            width: box_width,
            height: BOX_HEIGHT,
        };
        let frames: Vec<Frame> = slots[..crates.len()].iter().map(frame).collect();
        let right = frames.iter().map(|frame| frame.left + frame.width).max().unwrap_or(0);
        let height = MARGIN + TITLE + top * LAYER_HEIGHT + BOX_HEIGHT + MARGIN;
        Drawing { crates, frames, ways, slots, width: right + MARGIN, height }
    }

    fn svg(&self) -> String {
        let mut picture = Picture::new(self.width, self.height);
        for (title, is_program) in [("libraries", false), ("programs", true)] {
            self.group(&mut picture, title, is_program);
        }
        for way in &self.ways {
            picture.arrow(&self.path(way));
        }
        for (one, frame) in self.crates.iter().zip(&self.frames) {
            picture.frame(if one.is_program { "other" } else { "plain" }, *frame);
            picture.text("name", (frame.middle(), frame.top + 24), Anchor::Middle, &one.name);
        }
        picture.svg("The crates: an arrow goes from a crate to one that it uses")
    }

    /// The ground under the libraries, or under the programs.
    fn group(&self, picture: &mut Picture, title: &str, is_program: bool) {
        let frames = self.crates.iter().zip(&self.frames).filter(|(one, _)| one.is_program == is_program);
        let frames: Vec<&Frame> = frames.map(|(_, frame)| frame).collect();
        let passages = if is_program { &[] } else { &self.slots[self.crates.len()..] };
        let passages = || passages.iter().map(|(middle, _)| *middle);
        let left = frames.iter().map(|frame| frame.left).chain(passages()).min().unwrap_or(0) - PADDING;
        let right = frames.iter().map(|frame| frame.left + frame.width).chain(passages()).max().unwrap_or(0)
            + PADDING;
        let top = MARGIN - PADDING;
        let height = self.height - 2 * top;
        picture.frame("group", Frame { left, top, width: right - left, height });
        picture.text("note", (left + PADDING, top + 20), Anchor::Start, title);
    }

    /// A curve through the slots of a way, upright at each.
    fn path(&self, way: &[usize]) -> String {
        let (first, last) = (way[0], way[way.len() - 1]);
        let (mut x, mut y) = (self.port(first, way[1], 0), self.slots[first].1 + BOX_HEIGHT);
        let mut path = format!("M{} {}", x, y);
        for slot in &way[1..] {
            let (middle, top) = self.slots[*slot];
            let next = if *slot == last { self.port(last, way[way.len() - 2], 1) } else { middle };
            let half = (y + top) / 2;
            path += &format!(" C{} {} {} {} {} {}", x, half, next, half, next, top);
            (x, y) = (next, top);
            if *slot != last {
                y += BOX_HEIGHT;
                path += &format!(" V{}", y);
            }
        }
        path
    }

    /// Where an arrow leaves a box (side 0) or comes to one (side 1): side by side, in the order of their next slots.
    fn port(&self, slot: usize, next: usize, side: usize) -> i32 {
        let nexts = self.ways.iter().filter_map(|way| match (side, way.len()) {
            (0, _) if way[0] == slot => Some(way[1]),
            (1, length) if way[length - 1] == slot => Some(way[length - 2]),
            _ => None,
        });
        let mut nexts: Vec<usize> = nexts.collect();
        nexts.sort_by_key(|other| self.slots[*other].0);
        let rank = nexts.iter().position(|other| *other == next).unwrap_or(0) as i32;
        let frame = self.frames[slot];
        frame.left + frame.width * (rank + 1) / (nexts.len() as i32 + 1)
    }
}

/// Links two crates, with a slot in each layer between them; gives the slots from the one to the other.
fn way(graph: &mut Layers, from: usize, to: usize) -> Vec<usize> {
    let mut way = vec![from];
    for layer in (graph.slots[to].layer + 1..graph.slots[from].layer).rev() {
        way.push(graph.slots.len());
        graph.slots.push(Slot { layer, width: PASSAGE, is_passage: true, is_apart: false });
    }
    way.push(to);
    graph.links.extend(way.windows(2).map(|pair| (pair[0], pair[1])));
    way
}
