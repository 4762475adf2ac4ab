//! Boxes in a line's way: which one is met first, by either rule, and the way round it.
use super::plane::{entered, hits, larger_side, middle, shrunk};
use super::{hypot, maximum, minimum, Frame, Point, Rule};

/// Occupied stations' boxes, each with its station.
pub struct Obstacles<'a> {
    boxes: &'a [Frame],
    occupied: &'a [usize],
    cell: f64,
    rule: Rule,
}

fn cell_of(x: f64, cell: f64) -> i64 {
    (x / cell).floor() as i64
}

/// One axis of the walk over cells: the present cell, the last one, the place at which the next is entered.
struct Axis {
    at: i64,
    end: i64,
    step: i64,
    next: f64,
    each: f64,
}

impl Axis {
    fn new(p: f64, q: f64, cell: f64) -> Self {
        let (at, moved) = (cell_of(p, cell), q - p);
        let side = (at + i64::from(moved > 0.0)) as f64 * cell;
        let (next, each) =
            if moved == 0.0 { (f64::INFINITY, f64::INFINITY) } else { ((side - p) / moved, cell / moved.abs()) };
        Self { at, end: cell_of(q, cell), step: if moved > 0.0 { 1 } else { -1 }, next, each }
    }

    fn go(&mut self) {
        self.next += self.each;
        self.at += self.step;
    }
}

impl<'a> Obstacles<'a> {
    pub fn new(boxes: &'a [Frame], occupied: &'a [usize], rule: Rule) -> Self {
        let cell = occupied.iter().fold(0.0, |c, &s| maximum(c, larger_side(&boxes[s])));
        Self { boxes, occupied, cell: maximum(cell, f64::MIN_POSITIVE), rule }
    }

    /// The box that the piece from p to q is led round, one of two stations passed over.
    pub fn first(&self, p: Point, q: Point, own: [usize; 2]) -> Option<usize> {
        let hit = |&s: &usize| !own.contains(&s) && hits(p, q, &self.boxes[s]);
        let struck: Vec<usize> = self.occupied.iter().copied().filter(hit).collect();
        if struck.is_empty() {
            return None;
        }
        match self.rule {
            Rule::Cells => self.walk(p, q, &struck),
            Rule::Nearest => self.entered_first(p, q, &struck),
        }
    }

    /// The box entered first, of those that are hit; the lower station number at a tie.
    fn entered_first(&self, p: Point, q: Point, struck: &[usize]) -> Option<usize> {
        let mut first: Option<(f64, usize)> = None;
        for &s in struck {
            let place = entered(p, q, &self.boxes[s]);
            if first.map_or(true, |(least, _)| place < least) {
                first = Some((place, s));
            }
        }
        first.map(|(_, s)| s)
    }

    /// The walk over cells: of the boxes hit in the cells so far, the one whose middle is nearest to p.
    fn walk(&self, p: Point, q: Point, struck: &[usize]) -> Option<usize> {
        let c = self.cell;
        let (mut x, mut y) = (Axis::new(p.0, q.0, c), Axis::new(p.1, q.1, c));
        let length = hypot(q.0 - p.0, q.1 - p.1);
        let steps = (i128::from(x.end) - i128::from(x.at)).abs() + (i128::from(y.end) - i128::from(y.at)).abs();
        let mut best: Option<(f64, usize)> = None;
        for _ in 0..=steps.min(1_000_000) {
            for &s in struck {
                let b = &self.boxes[s];
                let holds = |low: f64, high: f64, at: i64| cell_of(low, c) <= at && at <= cell_of(high, c);
                if holds(b[0], b[2], x.at) && holds(b[1], b[3], y.at) {
                    let m = middle(b);
                    let d = hypot(m.0 - p.0, m.1 - p.1);
                    if best.map_or(true, |(least, _)| d < least) {
                        best = Some((d, s));
                    }
                }
            }
            let arrived = x.at == x.end && y.at == y.end;
            let leaves = minimum(x.next, y.next);
            if let Some((d, _)) = best {
                if (leaves > 1.0 || !arrived) && leaves * length > d + c {
                    break;
                }
            }
            if arrived {
                break;
            }
            if x.next < y.next {
                x.go();
            } else {
                y.go();
            }
        }
        best.map(|(_, s)| s)
    }

    /// The corner, moved out by `out`, by which a way from p to q round a box is shortest: of those whose two legs clear the
    /// box shrunk by 1e-9, if any, else of all; the first of equal ones.
    fn corner(&self, p: Point, q: Point, s: usize, out: f64) -> Point {
        let b = &self.boxes[s];
        let (left, top, right, bottom) = (b[0] - out, b[1] - out, b[2] + out, b[3] + out);
        let all = [(left, top), (right, top), (right, bottom), (left, bottom)];
        let inner = shrunk(b);
        let clear: Vec<Point> = all.iter().copied().filter(|&c| !hits(p, c, &inner) && !hits(c, q, &inner)).collect();
        let choice = if clear.is_empty() { all.to_vec() } else { clear };
        let long = |c: Point| hypot(c.0 - p.0, c.1 - p.1) + hypot(q.0 - c.0, q.1 - c.1);
        let mut best = choice[0];
        for &c in &choice[1..] {
            if long(c).total_cmp(&long(best)).is_lt() {
                best = c;
            }
        }
        best
    }

    /// A path with at most four points more, each by a corner of the box that is met first on its piece; the same piece is
    /// looked at again after each. And how many were put in.
    pub fn led_round(&self, mut path: Vec<Point>, own: [usize; 2], gap: f64) -> (Vec<Point>, usize) {
        let mut inserted = 0;
        let mut i = 0;
        while inserted < 4 && i + 1 < path.len() {
            match self.first(path[i], path[i + 1], own) {
                None => i += 1,
                Some(s) => {
                    let corner = self.corner(path[i], path[i + 1], s, gap * 0.5);
                    path.insert(i + 1, corner);
                    inserted += 1;
                }
            }
        }
        (path, inserted)
    }
}
