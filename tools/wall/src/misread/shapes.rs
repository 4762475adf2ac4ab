//! The shapes of a finished sheet that a reader follows, in millimetres: what stands where, however it came there.
pub use crate::check::{away, Point, Span};
use std::rc::Rc;

/// A substation's box.
pub struct Boxed {
    pub station: usize,
    pub span: Span,
    /// Whether its name stands on the sheet.
    pub named: bool,
    /// Whether a sign sends the reader to the index for its name.
    pub signed: bool,
    /// Whether a number at one of its rows isn't there.
    pub counted: bool,
    /// Whether bands or a sign send the reader to the index for its rows.
    pub banded: bool,
}

pub struct Bar {
    pub bus: usize,
    pub station: usize,
    pub x: f64,
    pub top: f64,
    pub bottom: f64,
    pub colour: Rc<str>,
}

impl Bar {
    pub fn ends(&self) -> [Point; 2] {
        [[self.x, self.top], [self.x, self.bottom]]
    }
}

pub struct Run {
    pub branch: usize,
    pub buses: [usize; 2],
    pub stations: [usize; 2],
    pub open: bool,
    pub wide: f64,
    pub colour: Rc<str>,
    /// What is seen of it, from its first bar to its second.
    pub parts: Vec<Vec<Point>>,
}

impl Run {
    /// The straight pieces that are seen.
    pub fn pieces(&self) -> impl Iterator<Item = [Point; 2]> + '_ {
        self.parts.iter().flat_map(|part| part.windows(2).map(|two| [two[0], two[1]]))
    }

    /// Its two ends, where it is seen at all.
    pub fn ends(&self) -> Option<[Point; 2]> {
        Some([*self.parts.first()?.first()?, *self.parts.last()?.last()?])
    }

    /// The length of what is seen.
    pub fn length(&self) -> f64 {
        self.pieces().map(length).sum()
    }
}

/// A dot where a live run is joined, or a ring where an open one ends.
pub struct Round {
    pub branch: usize,
    pub at: Point,
    pub radius: f64,
}

/// A number of a branch at one of its ends, or at its cross.
pub struct Number {
    pub branch: usize,
    pub end: Option<usize>,
    pub span: Span,
}

/// The name of a substation, and whether a line leads from it to its box.
pub struct Name {
    pub station: usize,
    pub span: Span,
    /// What each of its lines covers.
    pub lines: Vec<Span>,
    pub led: bool,
}

/// The name of a bus in its box.
pub struct Tag {
    pub bus: usize,
    pub station: usize,
    pub span: Span,
}

/// A band under circuits that run as one stroke.
pub struct Band {
    pub branches: Vec<usize>,
    pub points: Vec<Point>,
}

#[derive(Default)]
pub struct Shapes {
    pub page: Span,
    pub boxes: Vec<Boxed>,
    pub bars: Vec<Bar>,
    pub runs: Vec<Run>,
    pub dots: Vec<Round>,
    pub rings: Vec<Round>,
    /// The middles of crosses, by branch.
    pub crosses: Vec<(usize, Point)>,
    pub bands: Vec<Band>,
    pub numbers: Vec<Number>,
    pub names: Vec<Name>,
    pub tags: Vec<Tag>,
}

/// Rounding of numbers on the sheet.
pub const LEVEL: f64 = 0.011;

/// Whether a piece is the row of a line in one of its own boxes.
pub fn on_row(run: &Run, station: usize, piece: [Point; 2]) -> bool {
    let level = (piece[0][1] - piece[1][1]).abs() < LEVEL;
    let own = |end: usize| run.stations[end] == station && run.ends().is_some_and(|ends| piece.contains(&ends[end]));
    level && (own(0) || own(1))
}

pub fn apart(p: Point, q: Point) -> f64 {
    ((p[0] - q[0]) * (p[0] - q[0]) + (p[1] - q[1]) * (p[1] - q[1])).sqrt()
}

pub fn length([p, q]: [Point; 2]) -> f64 {
    apart(p, q)
}

/// How far text reaches above and below its baseline, in sizes: capitals and descenders.
const RISE: f64 = 0.75;
const DROP: f64 = 0.22;

/// About how wide a character is in the fonts that viewers have, in sizes.
fn character(c: char) -> f64 {
    match c {
        'i' | 'j' | 'l' | 't' | 'f' | 'I' | ' ' | '.' | ',' | ':' | ';' | '\'' | '|' | '!' | '/' => 0.28,
        'm' | 'w' | 'M' | 'W' | '@' | '%' => 0.9,
        'A'..='Z' => 0.7,
        _ if c.is_ascii() => 0.556,
        _ => 0.7,
    }
}

/// What a line of text covers, about: its anchor is its start, its middle or its end.
pub fn lettering(text: &str, [x, y]: Point, size: f64, anchor: &str) -> Span {
    let wide = size * text.chars().map(character).sum::<f64>();
    let left = match anchor {
        "middle" => x - wide / 2.0,
        "end" => x - wide,
        _ => x,
    };
    Span([left, y - RISE * size, left + wide, y + DROP * size])
}

/// The gap between two rectangles; 0 where they meet.
pub fn gap(a: &Span, b: &Span) -> f64 {
    let across = (a.0[0] - b.0[2]).max(b.0[0] - a.0[2]).max(0.0);
    let down = (a.0[1] - b.0[3]).max(b.0[1] - a.0[3]).max(0.0);
    across.hypot(down)
}

/// The part of a straight piece that lies inside a rectangle: from, to, as parts of its way.
pub fn inside(span: &Span, [p, q]: [Point; 2]) -> Option<[f64; 2]> {
    let (mut enter, mut leave) = (0.0_f64, 1.0_f64);
    for axis in [0, 1] {
        let (from, step) = (p[axis], q[axis] - p[axis]);
        let (low, high) = (span.0[axis], span.0[axis + 2]);
        if step == 0.0 {
            if from <= low || from >= high {
                return None;
            }
            continue;
        }
        let (a, b) = ((low - from) / step, (high - from) / step);
        enter = enter.max(a.min(b));
        leave = leave.min(a.max(b));
    }
    (enter < leave).then_some([enter, leave])
}

/// The point a part of the way along a straight piece.
pub fn part_of([p, q]: [Point; 2], part: f64) -> Point {
    [p[0] + (q[0] - p[0]) * part, p[1] + (q[1] - p[1]) * part]
}

/// Where two straight pieces cross, if they do.
pub fn crossing([p, q]: [Point; 2], [u, v]: [Point; 2]) -> Option<Point> {
    let (d, e) = ([q[0] - p[0], q[1] - p[1]], [v[0] - u[0], v[1] - u[1]]);
    let turn = d[0] * e[1] - d[1] * e[0];
    if turn == 0.0 {
        return None;
    }
    let off = [u[0] - p[0], u[1] - p[1]];
    let (s, t) = ((off[0] * e[1] - off[1] * e[0]) / turn, (off[0] * d[1] - off[1] * d[0]) / turn);
    ((0.0..=1.0).contains(&s) && (0.0..=1.0).contains(&t)).then(|| part_of([p, q], s))
}
