//! Elements that are added to a finished sheet.
use crate::sheet::lettering::{Anchor, Line};
use crate::sheet::shape::{Point, Rect};
use crate::sheet::svg::{mm, path, Attribute, Content, Node, Svg};

/// A group of elements.
pub struct Ink {
    svg: Svg,
}

/// A line of text: where it begins, its baseline and its size.
pub struct Words<'a> {
    pub text: &'a str,
    pub at: Point,
    pub size: f64,
    pub bold: bool,
    pub colour: &'a str,
}

impl Ink {
    pub fn group(id: &str) -> Self {
        let mut svg = Svg::default();
        svg.open("g", &[("id", id.to_string())]);
        Ink { svg }
    }

    pub fn line(&mut self, points: &[Point], colour: &str, wide: f64) {
        let mut attributes = vec![("d", path(points)), ("fill", "none".to_string())];
        attributes.extend(stroke(colour, wide));
        attributes.push(("stroke-linejoin", "round".to_string()));
        self.svg.leaf("path", &attributes);
    }

    pub fn rect(&mut self, r: &Rect, fill: &str, colour: &str) {
        let mut attributes =
            vec![("x", mm(r.left)), ("y", mm(r.top)), ("width", mm(r.width())), ("height", mm(r.height()))];
        attributes.push(("fill", fill.to_string()));
        attributes.extend(stroke(colour, 0.25));
        self.svg.leaf("rect", &attributes);
    }

    pub fn words(&mut self, words: &Words<'_>) {
        let (text, [x, y]) = (words.text.to_string(), words.at);
        let line = Line { text, x, y, size: words.size, bold: words.bold, anchor: Anchor::Start };
        self.svg.line(&line, &[("fill", words.colour.to_string())]);
    }

    /// Puts the group into an element: after the group that has this id, or last where there is none.
    pub fn into(self, root: &mut Node, after: &str) {
        if let Content::Nodes(nodes) = &mut root.content {
            let place =
                nodes.iter().position(|node| node.attribute("id") == Some(after)).map_or(nodes.len(), |i| i + 1);
            nodes.splice(place..place, self.svg.finished());
        }
    }
}

fn stroke(colour: &str, wide: f64) -> [Attribute; 2] {
    [("stroke", colour.to_string()), ("stroke-width", mm(wide))]
}
