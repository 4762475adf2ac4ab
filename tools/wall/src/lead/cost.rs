//! What is wrong with a way of a line: the less, the better.
use super::slots::Slot;
use super::Plan;
use crate::check::Span;
use crate::misread::shapes::{away, crossing, inside, Point};
use crate::misread::turns::is_hairpin;

/// How grave each thing is, in millimetres of length.
const OWN: f64 = 4000.0;
const FOREIGN: f64 = 1500.0;
const HAIRPIN: f64 = 1200.0;
const BEND: f64 = 400.0;
const BESIDE: f64 = 120.0;
const SHARP: f64 = 20.0;
const TURN: f64 = 3.0;
const CROSSING: f64 = 4.0;
const SHALLOW: f64 = 40.0;
const BAR: f64 = 6.0;
const TIGHT: f64 = 30.0;
const GRAZED: f64 = 200.0;
const SHARED: f64 = 2000.0;
const OUTSIDE: f64 = 5000.0;

/// Strokes nearer than this, beside half their widths, touch to the eye, and lines whose middles are nearer are taken as one;
/// lines that run so close are read as one.
const TOUCH: f64 = 0.2;
const TAKEN: f64 = 0.65;
const CLOSE: f64 = 0.75;

/// The paper that lines keep free round boxes, where there is room, and what is an edge to the eye.
const CLEAR: f64 = 0.75;
const EDGE: f64 = 0.35;

/// A shorter way beside another line isn't seen as one; nor is one along an edge.
const LONG: f64 = 2.5;
const GRAZES: f64 = 1.2;
const NEAR: f64 = 1.0;

/// Pieces of ways of one line that are measured: their ends, whether they are its rows, and what is wrong with them.
#[derive(Default)]
pub struct Known(Vec<([Point; 2], [bool; 2], f64)>);

impl Plan {
    /// What is wrong with a way for a line, its length included.
    pub fn cost(&self, line: usize, points: &[Point], known: &mut Known) -> f64 {
        let last = points.len() - 2;
        let mut cost = turns(points) + self.rows(line, points);
        for (i, two) in points.windows(2).enumerate() {
            cost += far(two[0], two[1]) + self.piece(line, [two[0], two[1]], [i == 0, i == last], known);
        }
        cost
    }

    /// The points of a line whose pieces or turns have something grave; none where nothing is.
    pub fn grave(&self, line: usize, known: &mut Known) -> Vec<usize> {
        let points = &self.lines[line].points;
        let last = points.len() - 2;
        let mut list = Vec::new();
        for (i, two) in points.windows(2).enumerate() {
            let wrong = self.piece(line, [two[0], two[1]], [i == 0, i == last], known);
            list.extend((wrong >= TIGHT).then_some([i, i + 1]).into_iter().flatten());
        }
        for (i, three) in points.windows(3).enumerate() {
            list.extend((turns(three) >= HAIRPIN).then_some([i, i + 1, i + 2]).into_iter().flatten());
        }
        list.sort_unstable();
        list.dedup();
        list
    }

    /// What is wrong with one piece, measured once.
    fn piece(&self, line: usize, ends: [Point; 2], at_row: [bool; 2], known: &mut Known) -> f64 {
        if let Some((.., cost)) = known.0.iter().find(|(of, row, _)| *of == ends && *row == at_row) {
            return *cost;
        }
        let outside = if self.page.holds(&Span::of(ends[0], ends[1])) { 0.0 } else { OUTSIDE };
        let cost = outside + self.boxes(line, ends, at_row) + self.lines(line, ends, at_row);
        known.0.push((ends, at_row, cost));
        cost
    }

    /// Bars that the rows pass under, and rows of other open branches that an open one would be on.
    fn rows(&self, line: usize, points: &[Point]) -> f64 {
        let count = points.len();
        let ends = [[points[0], points[1]], [points[count - 1], points[count - 2]]];
        let passed = |(station, [p, q]): (usize, [Point; 2])| {
            let bars = self.place(station).map_or(&[][..], |place| &place.bars);
            bars.iter().filter(|x| (**x - p[0]) * (**x - q[0]) < -1e-6).count()
        };
        let of = &self.lines[line];
        let shared = |(station, [p, q]): (usize, [Point; 2])| self.clashes(station, &Slot::new(of.branch, p, q));
        let bars = of.stations.into_iter().zip(ends).map(passed).sum::<usize>();
        let rows = if of.open { of.stations.into_iter().zip(ends).map(shared).sum::<usize>() } else { 0 };
        BAR * bars as f64 + SHARED * rows as f64
    }

    /// Boxes that a piece passes, or comes too close to. Rows lie in their own boxes.
    fn boxes(&self, line: usize, ends: [Point; 2], at_row: [bool; 2]) -> f64 {
        let stations = self.lines[line].stations;
        let mut cost = 0.0;
        self.boxes.visit(ends, CLEAR, &mut |station| {
            let Some(place) = self.place(station) else { return };
            let own = [0, 1].map(|i| stations[i] == station);
            if (own[0] && at_row[0]) || (own[1] && at_row[1]) {
                return;
            }
            let long =
                |by: f64| inside(&place.span.grown(by), ends).map_or(0.0, |[a, b]| (b - a) * far(ends[0], ends[1]));
            let row_end = |i: usize| own[i] && self.is_exit(line, i, ends);
            let turns = |p: Point| place.span.grown(EDGE).holds(&Span::of(p, p));
            cost += match long(-0.05) {
                within if within > 0.3 => within + if own[0] || own[1] { OWN } else { FOREIGN },
                _ if long(EDGE) > GRAZES => GRAZED,
                _ if (turns(ends[0]) || turns(ends[1])) && !row_end(0) && !row_end(1) => GRAZED,
                _ if long(CLEAR) > if own[0] || own[1] { LONG } else { NEAR } => TIGHT,
                _ => 0.0,
            };
        });
        cost
    }

    /// Whether a piece begins or ends where the row at an end of its line does.
    fn is_exit(&self, line: usize, end: usize, ends: [Point; 2]) -> bool {
        let Some(points) = self.rows_end(line) else { return false };
        ends.iter().any(|p| (p[1] - points[end]).abs() < 0.01)
    }

    /// The heights of the rows of a line.
    fn rows_end(&self, line: usize) -> Option<[f64; 2]> {
        let points = &self.lines[line].points;
        Some([points.first()?[1], points.last()?[1]])
    }

    /// Other lines that a piece bends on, runs beside or crosses. The outer end of a row is a bend too.
    fn lines(&self, line: usize, ends: [Point; 2], at_row: [bool; 2]) -> f64 {
        let own = self.lines[line].wide;
        let mut cost = 0.0;
        self.near.visit(ends, CLOSE + own, &mut |i| {
            let piece = &self.pieces[i];
            if piece.line == line || piece.version != self.versions[piece.line] {
                return;
            }
            let half = (own + self.lines[piece.line].wide) / 2.0;
            if apart(ends, piece.ends, half + CLOSE) {
                return;
            }
            cost += met(ends, piece.ends, half, at_row);
        });
        cost
    }
}

/// Whether two pieces are farther apart than this on an axis.
fn apart([p, q]: [Point; 2], [u, v]: [Point; 2], by: f64) -> bool {
    let off = |axis: usize| {
        let (low, high) = (p[axis].min(q[axis]) - by, p[axis].max(q[axis]) + by);
        u[axis].max(v[axis]) < low || u[axis].min(v[axis]) > high
    };
    off(0) || off(1)
}

/// What is wrong between a piece and one of another line, half of whose strokes together are so wide.
fn met(ends: [Point; 2], other: [Point; 2], half: f64, at_row: [bool; 2]) -> f64 {
    let touch = (half + TOUCH).max(TAKEN);
    let bent = |p: Point| away(p, ends[0], ends[1]) < touch;
    let meets = crossing(ends, other).is_some();
    let mut cost = if meets { CROSSING } else { 0.0 };
    // An end on a bar is no bend.
    if (!at_row[1] && away(ends[1], other[0], other[1]) < touch) || bent(other[0]) || bent(other[1]) {
        cost = BEND;
    }
    let (part, slope) = beside(ends, other, half + CLOSE);
    cost + match part {
        long if long > LONG => BESIDE + 10.0 * long,
        _ if meets && slope < 0.25 => SHALLOW,
        _ => 0.0,
    }
}

fn far(p: Point, q: Point) -> f64 {
    ((q[0] - p[0]) * (q[0] - p[0]) + (q[1] - p[1]) * (q[1] - p[1])).sqrt()
}

fn turns(points: &[Point]) -> f64 {
    let turn = |three: &[Point]| {
        let [a, b, c] = [three[0], three[1], three[2]];
        let (u, v) = ([a[0] - b[0], a[1] - b[1]], [c[0] - b[0], c[1] - b[1]]);
        let cosine = (u[0] * v[0] + u[1] * v[1]) / (far(a, b) * far(b, c)).max(1e-9);
        TURN + if is_hairpin([a, b, c]) {
            HAIRPIN
        } else if cosine > 0.3 {
            SHARP
        } else {
            0.0
        }
    };
    points.windows(3).map(turn).sum()
}

/// How long a piece runs nearly level with another and so near to it, and the sine of the angle between them.
fn beside([p, q]: [Point; 2], [u, v]: [Point; 2], near: f64) -> (f64, f64) {
    let (long, other) = (far(p, q), far(u, v));
    if long < 1e-9 || other < 1e-9 {
        return (0.0, 1.0);
    }
    let d = [(q[0] - p[0]) / long, (q[1] - p[1]) / long];
    let e = [(v[0] - u[0]) / other, (v[1] - u[1]) / other];
    let slope = (d[0] * e[1] - d[1] * e[0]).abs();
    let along = |r: Point| (r[0] - p[0]) * d[0] + (r[1] - p[1]) * d[1];
    let across = |r: Point| (r[0] - p[0]) * d[1] - (r[1] - p[1]) * d[0];
    let (a, b) = ((along(u), across(u)), (along(v), across(v)));
    // The part of the other piece that lies in a strip along this one.
    let (mut enter, mut leave) = (0.0_f64, 1.0_f64);
    for (from, to, low, high) in [(a.0, b.0, 0.0, long), (a.1, b.1, -near, near)] {
        if (to - from).abs() < 1e-9 {
            if from < low || from > high {
                return (0.0, slope);
            }
            continue;
        }
        let (s, t) = ((low - from) / (to - from), (high - from) / (to - from));
        enter = enter.max(s.min(t));
        leave = leave.min(s.max(t));
    }
    let part = ((leave - enter) * other).max(0.0);
    (if slope < 0.5 { part } else { 0.0 }, slope)
}
