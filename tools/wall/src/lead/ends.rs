//! A line that turns back into its own box goes round it: its row leaves on either side, and its way turns round corners.
use super::cost::Known;
use super::{Place, Plan};
use crate::misread::shapes::{inside, Point, Span};

/// Lanes round a box: how far the first is from its edge, and the step to the next, in millimetres at least and in blocks.
const FIRST: (f64, f64) = (0.8, 0.3);
const STEP: (f64, f64) = (0.9, 0.22);
const LANES: usize = 5;

/// So many of the shortest ways are tried in other lanes.
const KEPT: usize = 6;

/// A way out of a box: on which side, and round how many corners upwards or downwards.
#[derive(Clone, Copy)]
struct Exit {
    left: bool,
    corners: i8,
}

impl Exit {
    fn all() -> impl Iterator<Item = Exit> {
        [false, true].into_iter().flat_map(|left| (-2..=2).map(move |corners| Exit { left, corners }))
    }

    /// The points from a row's end on, in a lane.
    fn way(self, place: &Place, row: Point, lane: usize) -> Vec<Point> {
        let size = |(least, blocks): (f64, f64)| least.max(blocks * place.block);
        let by = size(FIRST) + lane as f64 * size(STEP);
        let [left, top, right, bottom] = place.span.grown(by).0;
        let edge = if self.left { place.span.0[0] } else { place.span.0[2] };
        let (near, far) = if self.left { (left, right) } else { (right, left) };
        let y = if self.corners < 0 { top } else { bottom };
        match self.corners.abs() {
            0 => vec![row, [edge, row[1]]],
            1 => vec![row, [near, row[1]], [near, y]],
            _ => vec![row, [near, row[1]], [near, y], [far, y]],
        }
    }
}

/// A way as it is put together: the exits at both ends, none where it stays as it is, their lanes, and the points between.
#[derive(Clone)]
pub struct Wish {
    exits: [Option<Exit>; 2],
    lanes: [usize; 2],
    between: std::ops::Range<usize>,
}

impl Wish {
    /// All ways out of both boxes of a line that runs straight between them; in a large network those round one corner at
    /// most.
    pub fn all(many: bool) -> Vec<Wish> {
        let most = if many { 1 } else { 2 };
        let exits = || Exit::all().filter(move |exit| exit.corners.abs() <= most);
        let wish = |start: Exit, end: Exit| Wish { exits: [Some(start), Some(end)], lanes: [0, 0], between: 2..2 };
        exits().flat_map(|start| exits().map(move |end| wish(start, end))).collect()
    }

    /// All ways out of both boxes of a line, or as it is, with the points from the first to the last or all but one of them.
    fn with_between(first: usize, last: usize) -> Vec<Wish> {
        let ends = || std::iter::once(None).chain(Exit::all().map(Some));
        let parts = [first..last, (first + 1).min(last)..last, first..last.saturating_sub(1).max(first)];
        let mut list = Vec::new();
        for start in ends() {
            for end in ends() {
                let wish = |between: std::ops::Range<usize>| Wish { exits: [start, end], lanes: [0, 0], between };
                list.extend(parts.iter().cloned().map(wish));
            }
        }
        list
    }
}

impl Plan {
    /// Leads a line round its own boxes, where it turns back into them and a better way is found.
    pub fn lead_ends(&mut self, line: usize) {
        let own = self.lines[line].stations;
        let back = [0, 1].map(|end| self.turns_back(line, own[end], end));
        if back == [None, None] {
            return;
        }
        let count = self.lines[line].points.len();
        let first = back[0].unwrap_or(2).min(count - 2);
        let last = (count - back[1].unwrap_or(2).min(count - 2)).max(first);
        self.choose(line, Wish::with_between(first, last));
    }

    /// Tries all ways out of its boxes for a line that something grave is left on.
    pub fn lead_exits(&mut self, line: usize) {
        let count = self.lines[line].points.len();
        if count >= 4 && !self.grave(line, &mut Known::default()).is_empty() {
            self.choose(line, Wish::with_between(2, count - 2));
        }
    }

    /// Takes the best of the wishes, where one is better than the line is.
    fn choose(&mut self, line: usize, wishes: Vec<Wish>) {
        let (_, way) = self.best(line, wishes);
        if way != self.lines[line].points {
            self.set(line, way);
        }
    }

    /// The best of the line as it is and the wishes, each also in other lanes where it is among the shortest.
    pub fn best(&self, line: usize, wishes: Vec<Wish>) -> (f64, Vec<Point>) {
        let mut rough: Vec<(f64, Wish)> =
            wishes.into_iter().map(|wish| (self.rough(line, &self.way(line, &wish)), wish)).collect();
        rough.sort_by(|a, b| a.0.total_cmp(&b.0));
        let (now, mut known) = (self.lines[line].points.clone(), Known::default());
        let mut best = (self.cost(line, &now, &mut known), now);
        for (_, mut wish) in rough.into_iter().take(KEPT) {
            for end in [0, 1] {
                let tries =
                    (0..if wish.exits[end].is_some_and(|exit| exit.corners != 0) { LANES } else { 1 }).map(|lane| {
                        let mut lanes = wish.lanes;
                        lanes[end] = lane;
                        let way = self.way(line, &Wish { lanes, ..wish.clone() });
                        (self.cost(line, &way, &mut known), lane, way)
                    });
                if let Some((cost, lane, way)) = tries.min_by(|a, b| a.0.total_cmp(&b.0)) {
                    wish.lanes[end] = lane;
                    if cost < best.0 {
                        best = (cost, way);
                    }
                }
            }
        }
        best
    }

    /// The points of a wish.
    fn way(&self, line: usize, wish: &Wish) -> Vec<Point> {
        let (of, count) = (&self.lines[line], self.lines[line].points.len());
        let end = |end: usize, row: Point, next: Point| {
            let place = self.place(of.stations[end]);
            match wish.exits[end].zip(place) {
                Some((exit, place)) => exit.way(place, row, wish.lanes[end]),
                None => vec![row, next],
            }
        };
        let mut points = end(0, of.points[0], of.points[1]);
        points.extend_from_slice(&of.points[wish.between.clone()]);
        points.extend(end(1, of.points[count - 1], of.points[count - 2]).into_iter().rev());
        points
    }

    /// A lower bound of what is wrong with a way, quickly found: its length, and whether it passes its own boxes.
    fn rough(&self, line: usize, points: &[Point]) -> f64 {
        let last = points.len() - 2;
        let mut cost = 0.0;
        for (i, two) in points.windows(2).enumerate() {
            cost += (two[1][0] - two[0][0]).hypot(two[1][1] - two[0][1]);
            for (end, at_row) in [(0, i == 0), (1, i == last)] {
                let place = self.place(self.lines[line].stations[end]).filter(|_| !at_row);
                let hit = place.is_some_and(|place| passes(&place.span, [two[0], two[1]]));
                cost += if hit { 1e4 } else { 0.0 };
            }
        }
        cost
    }

    /// Where a line turns back into a box of its own: how many points it has, from that end on, before it is out of it for good.
    pub fn turns_back(&self, line: usize, station: usize, end: usize) -> Option<usize> {
        let span = self.place(station)?.span;
        let mut points = self.lines[line].points.clone();
        if end == 1 {
            points.reverse();
        }
        let pieces = points[..points.len() - 1].windows(2).enumerate().skip(1);
        let last = pieces.filter(|(_, two)| passes(&span, [two[0], two[1]])).map(|(i, _)| i).last()?;
        Some(last + 1)
    }
}

/// Whether a piece runs inside a box for more than a touch.
fn passes(span: &Span, ends: [Point; 2]) -> bool {
    let long = (ends[1][0] - ends[0][0]).hypot(ends[1][1] - ends[0][1]);
    inside(&span.grown(-0.05), ends).is_some_and(|[a, b]| (b - a) * long > 0.3)
}
