//! The few shapes of SVG that pictures and charts take.

// Each program uses a part of it.
#![allow(dead_code)]

/// From the left, and from the top.
pub type Point = (i32, i32);

/// How a text lies about its place.
#[derive(Clone, Copy, Debug)]
pub enum Anchor {
    Start,
    Middle,
    End,
}

/// A box by its left upper corner, its width and its height.
#[derive(Clone, Copy, Debug)]
pub struct Frame {
    pub left: i32,
    pub top: i32,
    pub width: i32,
    pub height: i32,
}

impl Frame {
    pub fn middle(&self) -> i32 {
        self.left + self.width / 2
    }
}

const STYLE: &str = "\
text { font-family: 'DejaVu Sans', Verdana, Helvetica, Arial, sans-serif; font-size: 12px; fill: #24292f; }
text.name { font-size: 14px; font-weight: bold; }
text.note { fill: #57606a; }
rect { stroke-width: 1.5; }
rect.ground { fill: #ffffff; stroke: #d0d7de; }
rect.group { fill: #f6f8fa; stroke: #d0d7de; }
rect.plain { fill: #e7f0fa; stroke: #3b6ea5; }
rect.good { fill: #e5f4e7; stroke: #3d8b4a; }
rect.bad { fill: #fbeae7; stroke: #b5513f; }
rect.other { fill: #fdf2dc; stroke: #b58a2f; }
path.arrow { fill: none; stroke: #57606a; stroke-width: 1.5; marker-end: url(#head); }
";

const HEAD: &str = "<defs><marker id=\"head\" viewBox=\"0 0 10 10\" refX=\"9\" refY=\"5\" markerWidth=\"7\" \
markerHeight=\"7\" orient=\"auto\"><path d=\"M0 0 L10 5 L0 10 z\" fill=\"#57606a\"/></marker></defs>\n";

/// A picture while it is drawn.
pub struct Picture {
    width: i32,
    height: i32,
    style: String,
    shapes: String,
}

impl Picture {
    /// A white ground, so that the picture can also be read on a dark page.
    pub fn new(width: i32, height: i32) -> Picture {
        let mut picture = Picture { width, height, style: STYLE.to_string(), shapes: String::new() };
        picture.frame("ground", Frame { left: 1, top: 1, width: width - 2, height: height - 2 });
        picture
    }

    /// Rules of style for further classes.
    pub fn add_style(&mut self, rules: &str) {
        self.style += rules;
    }

    pub fn frame(&mut self, class: &str, frame: Frame) {
        let Frame { left, top, width, height } = frame;
        self.shapes += &format!(
            "<rect class=\"{}\" x=\"{}\" y=\"{}\" width=\"{}\" height=\"{}\" rx=\"8\"/>\n",
            class, left, top, width, height
        );
    }

    pub fn text(&mut self, class: &str, at: Point, anchor: Anchor, text: &str) {
        let anchor = match anchor {
            Anchor::Start => "start",
            Anchor::Middle => "middle",
            Anchor::End => "end",
        };
        self.shapes += &format!(
            "<text class=\"{}\" x=\"{}\" y=\"{}\" text-anchor=\"{}\">{}</text>\n",
            class,
            at.0,
            at.1,
            anchor,
            escaped(text)
        );
    }

    /// An arrow along a path, whose form is SVG's.
    pub fn arrow(&mut self, path: &str) {
        self.path("arrow", path);
    }

    pub fn path(&mut self, class: &str, path: &str) {
        self.shapes += &format!("<path class=\"{}\" d=\"{}\"/>\n", class, path);
    }

    pub fn svg(&self, title: &str) -> String {
        format!(
            "<svg xmlns=\"http://www.w3.org/2000/svg\" width=\"{0}\" height=\"{1}\" viewBox=\"0 0 {0} {1}\">\n\
             <title>{2}</title>\n<style>\n{3}</style>\n{4}{5}</svg>\n",
            self.width,
            self.height,
            escaped(title),
            self.style,
            HEAD,
            self.shapes
        )
    }
}

/// A label in lines of so many characters, broken between words.
pub fn wrapped(label: &str, most: usize) -> Vec<String> {
    let mut lines: Vec<String> = Vec::new();
    for word in label.split(' ') {
        match lines.last_mut() {
            Some(line) if line.len() + 1 + word.len() <= most => *line += &format!(" {}", word),
            _ => lines.push(word.to_string()),
        }
    }
    lines
}

fn escaped(text: &str) -> String {
    text.replace('&', "&amp;").replace('<', "&lt;").replace('>', "&gt;")
}
