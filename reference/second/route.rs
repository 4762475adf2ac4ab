//! Lines led over the mesh: its test, the walk of each line, the rounds of spacing.
use std::collections::HashMap;

use super::channel::Channel;
use super::network::Mesh;
use super::placement::Placed;
use super::plane::{cross, place_on};
use super::Point;

/// A line's two stations, by their numbers among the occupied ones, and its exits.
pub struct Line {
    pub ends: [usize; 2],
    pub exits: [Point; 2],
}

struct Crossing {
    channel: usize,
    place: f64,
}

/// The half-edge after h in its triangle.
fn after(h: usize) -> usize {
    if h % 3 == 2 { h - 2 } else { h + 1 }
}

impl Mesh<'_> {
    fn corner(&self, h: usize) -> usize {
        self.corners[h] as usize
    }

    fn ends(&self, h: usize) -> [usize; 2] {
        [self.corner(h), self.corner(after(h))]
    }

    fn triangle(&self, t: usize) -> [usize; 3] {
        [self.corner(3 * t), self.corner(3 * t + 1), self.corner(3 * t + 2)]
    }

    fn twin(&self, h: usize) -> Option<usize> {
        (self.twins[h] != 4294967295).then_some(self.twins[h] as usize)
    }

    /// Refusal 9.
    pub fn ill_formed(&self, occupied: usize) -> bool {
        let length = self.corners.len();
        if self.twins.len() != length || length % 3 != 0 || length > 24576 {
            return true;
        }
        if self.corners.iter().any(|&c| c as usize >= occupied) {
            return true;
        }
        let same = |[a, b, c]: [usize; 3]| a == b || b == c || c == a;
        if (0..length / 3).any(|t| same(self.triangle(t))) {
            return true;
        }
        let unmatched = |h: usize| match self.twin(h) {
            None => false,
            Some(g) => g >= length || self.twins[g] as usize != h || self.ends(g) != [self.ends(h)[1], self.ends(h)[0]],
        };
        (0..length).any(unmatched)
    }

    /// The half-edge that a line leaves its first triangle by: triangles round its first corner by number, until one holds the
    /// other end.
    fn start(&self, [a, b]: [usize; 2], at: &[Point]) -> Option<usize> {
        for t in 0..self.corners.len() / 3 {
            let corners = self.triangle(t);
            if !corners.contains(&a) {
                continue;
            }
            if corners.contains(&b) {
                return None;
            }
            let left = (3 * t..3 * t + 3).find(|&h| {
                let [x, y] = self.ends(h);
                x != a && y != a && cross(at[a], at[b], at[x], at[y])
            });
            if left.is_some() {
                return left;
            }
        }
        None
    }

    /// The half-edges that a line crosses, and whether its path is kept.
    fn trace(&self, ends: [usize; 2], at: &[Point]) -> (Vec<usize>, bool) {
        let (p, q) = (at[ends[0]], at[ends[1]]);
        let mut crossed = Vec::new();
        let mut next = self.start(ends, at);
        while let Some(h) = next {
            if crossed.len() == self.corners.len() {
                return (crossed, false);
            }
            crossed.push(h);
            let Some(g) = self.twin(h) else { return (crossed, true) };
            let third = self.corner(after(after(g)));
            if third == ends[1] {
                return (crossed, true);
            }
            next = [after(g), after(after(g))].into_iter().find(|&o| {
                let [x, y] = self.ends(o);
                cross(p, q, at[x], at[y])
            });
            if next.is_none() {
                return (crossed, false);
            }
        }
        (crossed, true)
    }
}

pub struct Routes {
    /// All crossings, those of cleared paths included.
    pub crossings: usize,
    /// For each line the points on its way, in order.
    pub ways: Vec<Vec<Point>>,
}

struct Routing {
    channels: Vec<Channel>,
    /// By channel, its crossings in the order in which they came, as line and step.
    on: Vec<Vec<(usize, usize)>>,
    /// By line, its crossings in order.
    paths: Vec<Vec<Crossing>>,
    kept: Vec<bool>,
}

impl Routing {
    fn point(&self, line: usize, step: usize) -> Point {
        let crossing = &self.paths[line][step];
        self.channels[crossing.channel].point(crossing.place)
    }

    /// Where the line through a crossing's neighbours meets its channel; where it is, if its path was cleared or that line
    /// is parallel.
    fn wish(&self, lines: &[Line], line: usize, step: usize) -> f64 {
        let path = &self.paths[line];
        let present = path[step].place;
        if !self.kept[line] {
            return present;
        }
        let before = if step == 0 { lines[line].exits[0] } else { self.point(line, step - 1) };
        let behind = if step + 1 == path.len() { lines[line].exits[1] } else { self.point(line, step + 1) };
        let channel = &self.channels[path[step].channel];
        place_on(before, behind, channel.u, channel.w).unwrap_or(present)
    }

    fn round(&mut self, lines: &[Line]) {
        for c in 0..self.channels.len() {
            let wishes: Vec<f64> = self.on[c].iter().map(|&(line, step)| self.wish(lines, line, step)).collect();
            let places = self.channels[c].space(&wishes);
            for (i, place) in places.into_iter().enumerate() {
                let (line, step) = self.on[c][i];
                self.paths[line][step].place = place;
            }
        }
    }
}

fn traced(mesh: &Mesh, at: &[Point], occupied: &[usize], drawn: &Placed, lines: &[Line], gap: f64) -> Routing {
    let mut all = Routing { channels: Vec::new(), on: Vec::new(), paths: Vec::new(), kept: Vec::new() };
    let mut pairs: HashMap<(usize, usize), usize> = HashMap::new();
    for (l, line) in lines.iter().enumerate() {
        let (crossed, kept) = mesh.trace(line.ends, at);
        let mut path = Vec::new();
        for (step, &h) in crossed.iter().enumerate() {
            let [a, b] = mesh.ends(h);
            let pair = if a < b { (a, b) } else { (b, a) };
            let c = *pairs.entry(pair).or_insert(all.channels.len());
            if c == all.channels.len() {
                let end = |v: usize| (at[v], &drawn.boxes[occupied[v]], drawn.scales[occupied[v]]);
                all.channels.push(Channel::between(end(pair.0), end(pair.1), gap));
                all.on.push(Vec::new());
            }
            let channel = &all.channels[c];
            let place = place_on(at[line.ends[0]], at[line.ends[1]], channel.u, channel.w).unwrap_or(0.5);
            all.on[c].push((l, step));
            path.push(Crossing { channel: c, place });
        }
        all.paths.push(path);
        all.kept.push(kept);
    }
    all
}

pub fn routes(mesh: &Mesh, occupied: &[usize], drawn: &Placed, lines: &[Line], gap: f64, iterations: i64) -> Routes {
    let at: Vec<Point> = occupied.iter().map(|&s| drawn.places[s]).collect();
    let mut all = traced(mesh, &at, occupied, drawn, lines, gap);
    for _ in 0..iterations {
        all.round(lines);
    }
    let way = |l: usize| if all.kept[l] { (0..all.paths[l].len()).map(|step| all.point(l, step)).collect() } else { Vec::new() };
    Routes { crossings: all.paths.iter().map(Vec::len).sum(), ways: (0..lines.len()).map(way).collect() }
}
