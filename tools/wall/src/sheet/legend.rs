//! The legend in the title block: how voltages are drawn, and what the signs mean.
use super::block::{Block, SIGNS, VOLTAGES};
use super::body::{DOUBT, DOUBTED, FIVES, PAPER, SHARED};
use super::lettering::{width, Anchor, Line};
use super::page::ROWS;
use super::palette::{core, stroke, RED};
use super::shape::{Point, Rect};
use super::signs::What;
use super::svg::{cross, mm, path, Attribute, Svg};
use crate::colours::Paint;
use crate::number::{thousands, voltage};

/// The colour of the edges of boxes.
const EDGE: &str = "#55524a";

/// A rectangle by its corner and its sides.
fn filled([x, y]: Point, [wide, high]: Point, fill: &str, edge: Option<&str>) -> Vec<Attribute> {
    let place = [("x", x), ("y", y), ("width", wide), ("height", high)];
    let mut attributes: Vec<Attribute> = place.map(|(name, value)| (name, mm(value))).to_vec();
    attributes.push(("fill", fill.to_string()));
    if let Some(edge) = edge {
        attributes.extend([("stroke", edge.to_string()), ("stroke-width", "0.2".to_string())]);
    }
    attributes
}

/// What the legend explains.
#[derive(Clone, Copy, PartialEq)]
pub enum Sign {
    Bar,
    Branch,
    Mixed,
    Open,
    Joined,
    UnderBar,
    UnderBox,
    Shared,
    Fives,
    Doubt,
    Index,
    Kinds,
    Placeless,
}

impl Sign {
    const ALL: [Sign; 13] = [
        Sign::Bar,
        Sign::Branch,
        Sign::Mixed,
        Sign::Open,
        Sign::Joined,
        Sign::UnderBar,
        Sign::UnderBox,
        Sign::Shared,
        Sign::Fives,
        Sign::Doubt,
        Sign::Index,
        Sign::Kinds,
        Sign::Placeless,
    ];

    fn words(self) -> &'static str {
        match self {
            Sign::Bar => "bar of a bus",
            Sign::Branch => "branch, one voltage",
            Sign::Mixed => "branch, two voltages",
            Sign::Open => "open branch",
            Sign::Joined => "joined, with its number",
            Sign::UnderBar => "passes under the bar",
            Sign::UnderBox => "passes under a box",
            Sign::Shared => "circuits as one stroke",
            Sign::Fives => "rows in fives, see index",
            Sign::Doubt => "may be misread, see index",
            Sign::Index => "name, rows: see index",
            Sign::Kinds => "transformer, coupler",
            Sign::Placeless => "place not known",
        }
    }
}

/// Which signs the sheet has that not every sheet has.
#[derive(Clone, Copy, Default)]
pub struct Present {
    pub under: bool,
    pub shared: bool,
    pub fives: bool,
    pub doubts: bool,
    pub index: bool,
    pub kinds: bool,
    pub placeless: bool,
    pub switches: bool,
}

impl Present {
    fn has(self, sign: Sign) -> bool {
        match sign {
            Sign::UnderBox => self.under,
            Sign::Shared => self.shared,
            Sign::Fives => self.fives,
            Sign::Doubt => self.doubts,
            Sign::Index => self.index,
            Sign::Kinds => self.kinds,
            Sign::Placeless => self.placeless,
            _ => true,
        }
    }
}

impl Block<'_> {
    pub fn legend_columns(&self) -> usize {
        if self.palette.levels.len() < ROWS {
            1
        } else {
            2
        }
    }

    /// A bar and a line for each level; where not all fit, the last row says how many are left.
    pub fn voltages(&self, svg: &mut Svg, left: f64) {
        let (t, rows) = (self.page.text, ROWS - 1);
        let levels = &self.palette.levels;
        let room = rows * self.legend_columns();
        let shown = if levels.len() > room { room - 1 } else { levels.len() };
        self.put(svg, "Voltages", [left + t, 0.0], t, true, VOLTAGES * t);
        for (i, &kv) in levels.iter().enumerate().take(shown) {
            let (x, row) = (left + t + (i / rows) as f64 * VOLTAGES * t, (i % rows + 1) as f64);
            let (y, paint) = (self.row(row) - 0.36 * t, self.palette.paint(Some(i)));
            for (points, wide) in [
                ([[x, y - 0.2 * t], [x + 2.6 * t, y - 0.2 * t]], 0.32),
                ([[x, y + 0.28 * t], [x + 2.6 * t, y + 0.28 * t]], 0.14),
            ] {
                svg.leaf("path", &stroke(path(&points), &paint.hex(), wide * t));
                core(svg, paint, &[points.to_vec()], wide * t);
            }
            self.put(svg, &voltage(kv), [x + 3.2 * t, row], t, false, (VOLTAGES - 4.0) * t);
        }
        if shown < levels.len() {
            let x = left + t + (shown / rows) as f64 * VOLTAGES * t;
            let text = format!("and {} more", thousands(levels.len() - shown));
            self.put(svg, &text, [x, (shown % rows + 1) as f64], t, false, (VOLTAGES - 1.0) * t);
        }
    }

    /// The signs that the sheet has, in their rows; where they are too many, bars and lines stand beside the voltages only.
    pub fn signs(&self, svg: &mut Svg, left: f64) {
        let t = self.page.text;
        let mut shown: Vec<Sign> = Sign::ALL.into_iter().filter(|sign| self.present.has(*sign)).collect();
        let spare = shown.len().saturating_sub(ROWS - 1).min(4);
        shown.drain(..spare);
        self.put(svg, "Signs", [left + t, 0.0], t, true, SIGNS * t);
        for (i, sign) in shown.into_iter().enumerate() {
            let row = (i + 1) as f64;
            self.sign(svg, sign, left + t, self.row(row) - 0.36 * t);
            let isolated = sign == Sign::Joined && self.present.switches;
            let words = if isolated { "joined, number [isolator]" } else { sign.words() };
            self.put(svg, words, [left + 5.0 * t, row], t, false, (SIGNS - 5.2) * t);
        }
    }

    /// The sign in a row of the legend, three text sizes wide.
    fn sign(&self, svg: &mut Svg, sign: Sign, x: f64, y: f64) {
        let (t, paint) = (self.page.text, self.palette.paint((!self.palette.levels.is_empty()).then_some(0)));
        let (colour, middle, across) = (paint.hex(), x + 1.5 * t, [[x, y], [x + 3.0 * t, y]]);
        let line = |paint: Paint, wide: f64, svg: &mut Svg| {
            svg.leaf("path", &stroke(path(&across), &paint.hex(), wide));
            core(svg, paint, &[across.to_vec()], wide);
        };
        match sign {
            Sign::Bar => line(paint, 0.32 * t, svg),
            Sign::Branch => line(paint, 0.14 * t, svg),
            Sign::Mixed => line(self.palette.paint(None), 0.14 * t, svg),
            Sign::Open => {
                let dashes = ("stroke-dasharray", format!("{} {}", mm(0.5 * t), mm(0.3 * t)));
                svg.leaf("path", &[stroke(path(&across), &colour, 0.14 * t), vec![dashes]].concat());
                svg.leaf("path", &stroke(cross([middle, y], 0.35 * t), RED, 0.16 * t));
            }
            Sign::UnderBox => {
                let parts = path(&[[x, y], [x + 0.8 * t, y]]) + &path(&[[x + 2.2 * t, y], [x + 3.0 * t, y]]);
                svg.leaf("path", &stroke(parts, &colour, 0.14 * t));
                svg.leaf("rect", &filled([middle - 0.45 * t, y - 0.55 * t], [0.9 * t, 1.1 * t], PAPER, Some(EDGE)));
            }
            Sign::Shared => {
                svg.leaf("path", &stroke(path(&across), SHARED, 0.55 * t));
                svg.leaf("path", &stroke(path(&across), &colour, 0.14 * t));
            }
            Sign::Fives => self.fives(svg, [x + 0.6 * t, y - 0.55 * t]),
            Sign::Doubt => {
                let disc = [("cx", mm(middle)), ("cy", mm(y)), ("r", mm(0.5 * t)), ("fill", DOUBTED.to_string())];
                let edge = [("stroke", DOUBT.to_string()), ("stroke-width", mm(0.08 * t))];
                svg.leaf("circle", &[&disc[..], &edge[..]].concat());
            }
            Sign::Index => {
                for (what, left) in [(What::Name, middle - 0.9 * t), (What::Rows, middle + 0.3 * t)] {
                    let outline = what.outline(&Rect::new(left, y - 0.3 * t, left + 0.6 * t, y + 0.3 * t), true, true);
                    svg.leaf("path", &[("d", path(&outline) + "Z"), ("fill", "#111111".to_string())]);
                }
            }
            Sign::Placeless => {
                let (at, size) = ([middle - 0.8 * t, y - 0.5 * t], [1.6 * t, t]);
                svg.leaf("rect", &filled(at, size, PAPER, Some(RED)));
            }
            Sign::Kinds => self.kinds_sign(svg, [middle, y], &colour),
            Sign::Joined | Sign::UnderBar => self.joint(svg, sign == Sign::Joined, x, y),
        }
    }

    /// A transformer's circles and a coupler's square.
    fn kinds_sign(&self, svg: &mut Svg, [x, y]: Point, colour: &str) {
        let (t, edge) = (self.page.text, Some(colour));
        for middle in [x - 1.05 * t, x - 0.65 * t] {
            let circle = [("cx", mm(middle)), ("cy", mm(y)), ("r", mm(0.35 * t)), ("fill", "none".to_string())];
            let stroke = [("stroke", colour.to_string()), ("stroke-width", "0.2".to_string())];
            svg.leaf("circle", &[&circle[..], &stroke[..]].concat());
        }
        svg.leaf("rect", &filled([x + 0.4 * t, y - 0.35 * t], [0.7 * t, 0.7 * t], "#ffffff", edge));
    }

    /// A box with a band of five rows.
    fn fives(&self, svg: &mut Svg, [x, y]: Point) {
        let t = self.page.text;
        svg.leaf("rect", &filled([x, y], [1.8 * t, 1.1 * t], PAPER, Some(EDGE)));
        svg.leaf("rect", &filled([x, y + 0.4 * t], [1.8 * t, 0.4 * t], FIVES, None));
    }

    /// A line at a bar: joined to it, with a number, or passing under it.
    fn joint(&self, svg: &mut Svg, joined: bool, x: f64, y: f64) {
        let (t, colour) = (self.page.text, self.palette.paint((!self.palette.levels.is_empty()).then_some(0)).hex());
        let middle = x + if joined { 2.2 } else { 1.5 } * t;
        let upright = path(&[[middle, y - 0.55 * t], [middle, y + 0.55 * t]]);
        let from = if joined { middle } else { x };
        svg.leaf("path", &stroke(path(&[[from, y], [x + 3.0 * t, y]]), &colour, 0.14 * t));
        svg.leaf("path", &stroke(upright.clone(), "#ffffff", 0.54 * t));
        svg.leaf("path", &stroke(upright, &colour, 0.3 * t));
        if joined {
            let dot = [("cx", mm(middle)), ("cy", mm(y)), ("r", mm(0.3 * t)), ("fill", colour)];
            svg.leaf("circle", &dot);
            let (size, wide) = (t.min(2.8), width("17", t.min(2.8), false));
            let line = Line {
                text: "17".to_string(),
                x: middle - 0.42 * t - wide,
                y: y + 0.36 * size,
                size,
                bold: false,
                anchor: Anchor::End,
            };
            svg.line(&line, &[]);
        }
    }
}
