//! The elements of a page as PDF operators, in millimetres.
use crate::font::Font;
use crate::sheet::svg::{add_mm, mm, Content as Inside, Node};
use std::collections::{BTreeSet, HashMap};

/// How far the handles of a quarter circle reach, in radii.
const HANDLE: f64 = 0.5523;

#[derive(Default)]
pub struct Content {
    pub text: String,
    /// Characters that the fonts haven't.
    pub missing: BTreeSet<char>,
    /// The last operands of each operator that sets a state.
    set: HashMap<&'static str, String>,
    /// The last colours.
    colours: HashMap<&'static str, String>,
}

/// What an element has from those around it.
#[derive(Clone)]
struct Paint {
    fill: String,
    stroke: String,
    wide: String,
    round: bool,
    rim: bool,
}

impl Paint {
    fn inside(&self, node: &Node) -> Paint {
        let or = |name: &str, value: &str| node.attribute(name).unwrap_or(value).to_string();
        Paint {
            fill: or("fill", &self.fill),
            stroke: or("stroke", &self.stroke),
            wide: or("stroke-width", &self.wide),
            round: node.attribute("stroke-linejoin").map_or(self.round, |join| join == "round"),
            rim: node.attribute("paint-order").map_or(self.rim, |order| order == "stroke"),
        }
    }
}

fn float(node: &Node, name: &str) -> f64 {
    node.attribute(name).and_then(|text| text.parse().ok()).unwrap_or(0.0)
}

/// A colour as three numbers from 0 to 1.
fn rgb(colour: &str) -> String {
    let part = |i: usize| colour.get(i..i + 2).and_then(|two| u8::from_str_radix(two, 16).ok()).unwrap_or(0);
    [1, 3, 5].map(|i| format!("{:.4}", f64::from(part(i)) / 255.0)).join(" ")
}

impl Content {
    pub fn draw(&mut self, root: &Node) {
        let black = Paint {
            fill: "#000000".to_string(),
            stroke: "none".to_string(),
            wide: "1".to_string(),
            round: false,
            rim: false,
        };
        self.node(root, &black);
    }

    fn node(&mut self, node: &Node, around: &Paint) {
        let paint = around.inside(node);
        match (node.name, &node.content) {
            ("svg" | "g", Inside::Nodes(nodes)) => nodes.iter().for_each(|inner| self.node(inner, &paint)),
            ("path", _) => self.path(node, &paint),
            ("rect", _) => self.rect(node, &paint),
            ("circle", _) => self.circle(node, &paint),
            ("text", Inside::Text(text)) => self.line(node, &paint, text),
            _ => {}
        }
    }

    /// An operator that sets a state, where it changes it.
    fn set(&mut self, operator: &'static str, operands: String) {
        if self.set.get(operator) != Some(&operands) {
            self.text.push_str(&format!("{operands} {operator}\n"));
            self.set.insert(operator, operands);
        }
    }

    /// Sets a colour, where it isn't the last one.
    fn colour(&mut self, operator: &'static str, colour: &str) {
        if self.colours.get(operator).map(String::as_str) != Some(colour) {
            self.colours.insert(operator, colour.to_string());
            self.set(operator, rgb(colour));
        }
    }

    /// Sets colours and stroke; gives whether there is a fill and a stroke.
    fn prepare(&mut self, node: &Node, paint: &Paint) -> (bool, bool) {
        let both = (paint.fill.starts_with('#'), paint.stroke.starts_with('#'));
        if both.0 {
            self.colour("rg", &paint.fill);
        }
        if both.1 {
            self.colour("RG", &paint.stroke);
            self.set("w", paint.wide.clone());
            self.set("j", if paint.round { "1" } else { "0" }.to_string());
            let dashes = node.attribute("stroke-dasharray").unwrap_or("");
            self.set("d", format!("[{dashes}] {}", node.attribute("stroke-dashoffset").unwrap_or("0")));
        }
        both
    }

    fn finish(&mut self, (fill, stroke): (bool, bool)) {
        self.text.push_str(match (fill, stroke) {
            (true, true) => "B\n",
            (true, false) => "f\n",
            (false, true) => "S\n",
            (false, false) => "n\n",
        });
    }

    fn path(&mut self, node: &Node, paint: &Paint) {
        // A path that isn't closed is a stroke: the sheet fills none of them.
        let d = node.attribute("d").unwrap_or("");
        let bare = Paint { fill: "none".to_string(), ..paint.clone() };
        let both = self.prepare(node, if d.ends_with('Z') { paint } else { &bare });
        for part in d.trim_end_matches('Z').split('M').filter(|part| !part.is_empty()) {
            for (i, point) in part.split('L').enumerate() {
                self.text.push_str(point);
                self.text.push_str(if i == 0 { " m\n" } else { " l\n" });
            }
        }
        if d.ends_with('Z') {
            self.text.push_str("h\n");
        }
        self.finish(both);
    }

    fn rect(&mut self, node: &Node, paint: &Paint) {
        let both = self.prepare(node, paint);
        let [x, y, wide, high, r] = ["x", "y", "width", "height", "rx"].map(|name| float(node, name));
        if r == 0.0 {
            self.text.push_str(&format!("{} {} {} {} re\n", mm(x), mm(y), mm(wide), mm(high)));
        } else {
            let r = r.min(wide / 2.0).min(high / 2.0);
            let (right, bottom, h) = (x + wide, y + high, r * (1.0 - HANDLE));
            self.to(&[[x + r, y]], "m");
            self.to(&[[right - r, y]], "l");
            self.to(&[[right - h, y], [right, y + h], [right, y + r]], "c");
            self.to(&[[right, bottom - r]], "l");
            self.to(&[[right, bottom - h], [right - h, bottom], [right - r, bottom]], "c");
            self.to(&[[x + r, bottom]], "l");
            self.to(&[[x + h, bottom], [x, bottom - h], [x, bottom - r]], "c");
            self.to(&[[x, y + r]], "l");
            self.to(&[[x, y + h], [x + h, y], [x + r, y]], "c");
            self.text.push_str("h\n");
        }
        self.finish(both);
    }

    fn circle(&mut self, node: &Node, paint: &Paint) {
        let both = self.prepare(node, paint);
        let [x, y, r] = ["cx", "cy", "r"].map(|name| float(node, name));
        let h = HANDLE * r;
        self.to(&[[x + r, y]], "m");
        self.to(&[[x + r, y + h], [x + h, y + r], [x, y + r]], "c");
        self.to(&[[x - h, y + r], [x - r, y + h], [x - r, y]], "c");
        self.to(&[[x - r, y - h], [x - h, y - r], [x, y - r]], "c");
        self.to(&[[x + h, y - r], [x + r, y - h], [x + r, y]], "c");
        self.text.push_str("h\n");
        self.finish(both);
    }

    fn to(&mut self, points: &[[f64; 2]], operator: &str) {
        for [x, y] in points {
            self.text.push_str(&format!("{x:.3} {y:.3} "));
        }
        self.text.push_str(operator);
        self.text.push('\n');
    }

    /// A line of text, with its rim behind it.
    fn line(&mut self, node: &Node, paint: &Paint, text: &str) {
        let bold = node.attribute("font-weight") == Some("bold");
        let size = float(node, "font-size");
        let (glyphs, wide) = self.glyphs(text, bold);
        let part = match node.attribute("text-anchor") {
            Some("middle") => 0.5,
            Some("end") => 1.0,
            _ => 0.0,
        };
        let x = float(node, "x") - part * wide * size;
        let (_, rim) = self.prepare(node, paint);
        let font = if bold { "/F1" } else { "/F0" };
        let shown = text_at(&glyphs, font, [x, float(node, "y")], size);
        if rim && paint.rim {
            self.set("Tr", "1".to_string());
            self.text.push_str(&shown);
        }
        self.set("Tr", "0".to_string());
        self.text.push_str(&shown);
    }

    /// The glyphs of a text as hexadecimal digits, and its width in sizes.
    fn glyphs(&mut self, text: &str, bold: bool) -> (String, f64) {
        let font = Font::of(bold);
        let (mut digits, mut sum) = (String::new(), 0);
        for c in text.chars() {
            let glyph = font.glyph(c).unwrap_or_else(|| {
                self.missing.insert(c);
                0
            });
            for shift in [12, 8, 4, 0] {
                digits.push(char::from(b"0123456789ABCDEF"[usize::from(glyph >> shift & 15)]));
            }
            sum += font.advances()[usize::from(glyph)];
        }
        (digits, f64::from(sum) / 1000.0)
    }

    /// A line of text at a place.
    pub fn put(&mut self, text: &str, [x, y]: [f64; 2], size: f64) {
        let (glyphs, _) = self.glyphs(text, false);
        self.text.push_str(&text_at(&glyphs, "/F0", [x, y], size));
    }
}

/// Glyphs shown at a place.
fn text_at(glyphs: &str, font: &str, [x, y]: [f64; 2], size: f64) -> String {
    let mut out = String::with_capacity(glyphs.len() + 64);
    for (before, number) in [("BT ", None), (font, None), (" ", Some(size)), (" Tf 1 0 0 -1 ", Some(x)), (" ", Some(y))]
    {
        out.push_str(before);
        number.into_iter().for_each(|number| add_mm(&mut out, number));
    }
    out.push_str(" Tm <");
    out.push_str(glyphs);
    out.push_str("> Tj ET\n");
    out
}
