//! A picture, as SVG, of what something costs, by the size of what it is done with.

const WIDTH: f64 = 720.0;
const HEIGHT: f64 = 400.0;

/// Where the axes are: sizes run from the left to the right, each doubling as wide as the others; costs from 0 at the
/// bottom.
const LEFT: f64 = 64.0;
const RIGHT: f64 = 680.0;
const TOP: f64 = 84.0;
const BOTTOM: f64 = 340.0;

const COLOURS: [&str; 4] = ["#3b6ea5", "#b58a2f", "#4f8a4f", "#8c5aa8"];

/// As many sizes are named, at the most.
const LABELS: usize = 8;

const STYLE: &str = "\
text { font-family: 'DejaVu Sans', Verdana, Helvetica, Arial, sans-serif; font-size: 12px; fill: #24292f; }
text.title { font-size: 14px; font-weight: bold; }
rect.ground { fill: #ffffff; stroke: #d0d7de; stroke-width: 1.5; }
line.grid { stroke: #d0d7de; }
polyline { fill: none; stroke-width: 2; }
";

/// What was measured of one side: sizes, and nanoseconds.
pub struct Line {
    name: &'static str,
    pub points: Vec<(usize, f64)>,
}

impl Line {
    pub fn new(name: &'static str) -> Line {
        Line { name, points: Vec::new() }
    }
}

/// Costs by size.
pub struct Chart {
    pub title: String,
    /// What the sizes are of.
    pub along: &'static str,
    /// In which costs are told, and how many nanoseconds it has.
    pub unit: (&'static str, f64),
    pub named: fn(usize) -> String,
    /// All of the same sizes.
    pub lines: Vec<Line>,
}

impl Chart {
    pub fn drawn(&self) -> String {
        let mut shapes = text(" class=\"title\"", LEFT, 34.0, "start", &self.title);
        for cost in 0..=self.highest() {
            let y = self.y(self.unit.1 * cost as f64);
            shapes +=
                &format!("<line class=\"grid\" x1=\"{LEFT}\" y1=\"{y:.1}\" x2=\"{RIGHT}\" y2=\"{y:.1}\"/>\n");
            shapes += &label(LEFT - 8.0, y + 4.0, "end", &format!("{cost} {}", self.unit.0));
        }
        let sizes = &self.lines[0].points;
        let each = (sizes.len() + LABELS - 1) / LABELS;
        for (size, _) in sizes.iter().step_by(each) {
            shapes += &label(self.x(*size), BOTTOM + 22.0, "middle", &(self.named)(*size));
        }
        shapes += &label((LEFT + RIGHT) / 2.0, BOTTOM + 44.0, "middle", self.along);
        for (at, (line, colour)) in self.lines.iter().zip(COLOURS).enumerate() {
            shapes += &self.line(line, colour);
            let left = LEFT + 130.0 * at as f64;
            shapes +=
                &format!("<rect x=\"{left}\" y=\"50\" width=\"12\" height=\"12\" fill=\"{colour}\"/>\n");
            shapes += &label(left + 20.0, 61.0, "start", line.name);
        }
        format!(
            "<svg xmlns=\"http://www.w3.org/2000/svg\" width=\"{WIDTH}\" height=\"{HEIGHT}\" viewBox=\"0 0 {WIDTH} {HEIGHT}\">\n\
             <title>{}</title>\n<style>\n{STYLE}</style>\n\
             <rect class=\"ground\" x=\"1\" y=\"1\" width=\"{}\" height=\"{}\" rx=\"8\"/>\n{shapes}</svg>\n",
            self.title,
            WIDTH - 2.0,
            HEIGHT - 2.0
        )
    }

    /// The highest cost, in whole units.
    fn highest(&self) -> usize {
        let costs = self.lines.iter().flat_map(|line| &line.points).map(|point| point.1);
        (costs.fold(0.0, f64::max) / self.unit.1).ceil() as usize
    }

    fn x(&self, size: usize) -> f64 {
        let sizes = &self.lines[0].points;
        let doublings = |size: usize| (size as f64 / sizes[0].0 as f64).log2();
        LEFT + 24.0 + (RIGHT - LEFT - 48.0) * doublings(size) / doublings(sizes[sizes.len() - 1].0)
    }

    fn y(&self, nanoseconds: f64) -> f64 {
        BOTTOM - (BOTTOM - TOP) * nanoseconds / (self.unit.1 * self.highest() as f64)
    }

    fn line(&self, line: &Line, colour: &str) -> String {
        let places: Vec<(f64, f64)> =
            line.points.iter().map(|&(size, ns)| (self.x(size), self.y(ns))).collect();
        let corners: Vec<String> = places.iter().map(|(x, y)| format!("{x:.1},{y:.1}")).collect();
        let mut shapes = format!("<polyline stroke=\"{colour}\" points=\"{}\"/>\n", corners.join(" "));
        for (x, y) in places {
            shapes += &format!("<circle cx=\"{x:.1}\" cy=\"{y:.1}\" r=\"3\" fill=\"{colour}\"/>\n");
        }
        shapes
    }
}

fn label(x: f64, y: f64, anchor: &str, words: &str) -> String {
    text("", x, y, anchor, words)
}

fn text(class: &str, x: f64, y: f64, anchor: &str, words: &str) -> String {
    format!("<text{class} x=\"{x:.1}\" y=\"{y:.1}\" text-anchor=\"{anchor}\">{words}</text>\n")
}
