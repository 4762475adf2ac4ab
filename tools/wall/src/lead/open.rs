//! Open branches led as lines are: level from a place between two rows of each bar out of its box, and clear of what is in the
//! way. Each has a row of its own between its bar and the edge, so that it passes no dot and no other ring.
use super::ends::Wish;
use super::slots::Slot;
use super::{Line, Plan};
use crate::misread::shapes::Point;

/// So many places are tried at each end, the nearest to the middle of the bar first.
const TRIED: usize = 3;

/// A way is taken at once where it is worse than its length by less.
const GOOD: f64 = 200.0;

/// A place on a bar, the way out of the box, and the end of its row at the edge.
#[derive(Clone, Copy)]
struct Start {
    at: Point,
    edge: Point,
}

impl Plan {
    /// Leads an open branch between the bars of two stations.
    pub fn lead_open(&mut self, branch: usize, buses: [usize; 2], stations: [usize; 2], wide: f64) {
        let starts = [0, 1].map(|end| self.starts(stations, buses[end], end));
        if starts.iter().any(Vec::is_empty) {
            return;
        }
        let line = self.lines.len();
        self.lines.push(Line { branch, stations, points: Vec::new(), wide, open: true });
        self.versions.push(0);
        let mut best: Option<(f64, Vec<Point>)> = None;
        for (i, j) in pairs(starts[0].len(), starts[1].len()) {
            let (a, b) = (starts[0][i], starts[1][j]);
            self.lines[line].points = vec![a.at, a.edge, b.edge, b.at];
            let (cost, way) = self.best(line, Wish::all(self.many));
            let straight = (b.at[0] - a.at[0]).hypot(b.at[1] - a.at[1]);
            if best.as_ref().is_none_or(|(least, _)| cost < *least) {
                best = Some((cost, way));
            }
            if cost < 1.3 * straight + GOOD {
                break;
            }
        }
        if let Some((_, way)) = best {
            self.take_rows(branch, stations, &way);
            self.set(line, way);
        }
    }

    /// Keeps the rows of a way for it.
    fn take_rows(&mut self, branch: usize, stations: [usize; 2], way: &[Point]) {
        let last = way.len() - 1;
        for (station, [p, q]) in stations.into_iter().zip([[way[0], way[1]], [way[last], way[last - 1]]]) {
            self.slots[station].push(Slot::new(branch, p, q));
        }
    }

    /// Places of an end, those whose rows are free first: towards the other station, and away from it.
    fn starts(&self, stations: [usize; 2], bus: usize, end: usize) -> Vec<Start> {
        let Some((own, other)) = self.place(stations[end]).zip(self.place(stations[1 - end])) else {
            return Vec::new();
        };
        let towards = other.span.middle()[0] >= own.span.middle()[0];
        let x = self.bars[bus].x;
        let start = |right: bool, y: f64| {
            let edge = if right { own.span.0[2] } else { own.span.0[0] };
            Start { at: [x, y], edge: [edge, y] }
        };
        let heights = self.heights(stations[end], bus);
        let all = || [towards, !towards].into_iter().flat_map(|right| heights.iter().map(move |&y| start(right, y)));
        let clashes = |start: &Start| self.clashes(stations[end], &Slot::new(usize::MAX, start.at, start.edge));
        let mut list: Vec<(usize, Start)> = all().map(|start| (clashes(&start), start)).collect();
        list.sort_by_key(|(clashes, _)| *clashes);
        list.truncate(TRIED);
        list.into_iter().map(|(_, start)| start).collect()
    }
}

/// Pairs of places, the first of both first.
fn pairs(one: usize, two: usize) -> Vec<(usize, usize)> {
    let mut list: Vec<(usize, usize)> = (0..one).flat_map(|i| (0..two).map(move |j| (i, j))).collect();
    list.sort_by_key(|(i, j)| i + j);
    list
}
