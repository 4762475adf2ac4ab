//! Circuits that run as one stroke: stretches where two or more runs lie so close that paper shows one line.
use super::near::Near;
use super::scene::Scene;
use super::shape::{between, distance, within, Point, Rect};
use std::collections::BTreeMap;

/// Runs this close, in millimetres, for this long are seen as one; wider ones where their strokes touch.
const CLOSE: f64 = 0.5;
const LONG: f64 = 5.0;

/// What is seen of a run on both sides of a gap counts as so far apart, in millimetres.
const APART: f64 = 1.0;

pub struct Stretch {
    /// The runs, by their place in the scene.
    pub runs: Vec<usize>,
    /// Its points, along the first of them.
    pub points: Vec<Point>,
}

/// A straight piece of a run, and how far along the run it begins.
struct Piece {
    run: usize,
    ends: [Point; 2],
    start: f64,
}

/// Which part of the way from p to q is at most so far from the piece from u to v.
fn close(p: Point, q: Point, u: Point, v: Point, far: f64) -> Option<[f64; 2]> {
    let d = [q[0] - p[0], q[1] - p[1]];
    let parts = [beside(p, d, u, v, far), round(p, d, u, far), round(p, d, v, far)];
    let found = parts.into_iter().flatten().reduce(|a, b| [a[0].min(b[0]), a[1].max(b[1])])?;
    let held = [found[0].max(0.0), found[1].min(1.0)];
    (held[0] < held[1]).then_some(held)
}

/// The part beside the piece: a strip along it.
fn beside(p: Point, d: Point, u: Point, v: Point, far: f64) -> Option<[f64; 2]> {
    let long = distance(u, v);
    if long == 0.0 {
        return None;
    }
    let e = [(v[0] - u[0]) / long, (v[1] - u[1]) / long];
    let along = ((p[0] - u[0]) * e[0] + (p[1] - u[1]) * e[1], d[0] * e[0] + d[1] * e[1]);
    let across = ((p[0] - u[0]) * e[1] - (p[1] - u[1]) * e[0], d[0] * e[1] - d[1] * e[0]);
    let lanes = [(along.0, along.1, 0.0, long), (across.0, across.1, -far, far)];
    within(lanes, [f64::NEG_INFINITY, f64::INFINITY])
}

/// The part round an end of the piece: a circle.
fn round(p: Point, d: Point, c: Point, far: f64) -> Option<[f64; 2]> {
    let (a, b) = (d[0] * d[0] + d[1] * d[1], d[0] * (p[0] - c[0]) + d[1] * (p[1] - c[1]));
    let rest = (p[0] - c[0]) * (p[0] - c[0]) + (p[1] - c[1]) * (p[1] - c[1]) - far * far;
    let under = b * b - a * rest;
    (a > 0.0 && under > 0.0).then(|| [(-b - under.sqrt()) / a, (-b + under.sqrt()) / a])
}

fn pieces(scene: &Scene) -> Vec<Piece> {
    let mut list = Vec::new();
    for (run, of) in scene.runs.iter().enumerate() {
        let mut start = 0.0;
        for part in &of.shown {
            for two in part.windows(2) {
                list.push(Piece { run, ends: [two[0], two[1]], start });
                start += distance(two[0], two[1]);
            }
            start += APART;
        }
    }
    list
}

/// How far apart two runs with strokes of these widths are seen as one.
fn reach(a: f64, b: f64) -> f64 {
    CLOSE.max((a + b) / 2.0)
}

/// For each run, the stretches of it that a later run shares: from, to, and which.
fn shared(scene: &Scene, widths: &[f64], page: &Rect) -> Vec<Vec<(f64, f64, usize)>> {
    let widest = widths.iter().copied().fold(0.0, f64::max);
    let list = pieces(scene);
    let mut near = Near::new(page);
    list.iter().enumerate().for_each(|(i, piece)| near.insert_piece(i, piece.ends[0], piece.ends[1]));
    let mut found: Vec<BTreeMap<usize, Vec<[f64; 2]>>> = (0..scene.runs.len()).map(|_| BTreeMap::new()).collect();
    for (number, piece) in list.iter().enumerate() {
        let [p, q] = piece.ends;
        let long = distance(p, q);
        let later = near.later(number, p, q, reach(widest, widest)).into_iter().map(|i| &list[i]);
        for other in later.filter(|other| other.run > piece.run) {
            let far = reach(widths[piece.run], widths[other.run]);
            if let Some([a, b]) = close(p, q, other.ends[0], other.ends[1], far) {
                let part = [piece.start + a * long, piece.start + b * long];
                found[piece.run].entry(other.run).or_default().push(part);
            }
        }
    }
    let long = |(run, parts): (usize, Vec<[f64; 2]>)| {
        joined(parts).into_iter().filter(|[a, b]| b - a >= LONG - 1e-6).map(move |[a, b]| (a, b, run))
    };
    found.into_iter().map(|others| others.into_iter().flat_map(long).collect()).collect()
}

/// Parts that touch made one.
fn joined(mut parts: Vec<[f64; 2]>) -> Vec<[f64; 2]> {
    parts.sort_by(|a, b| a[0].total_cmp(&b[0]));
    let mut list: Vec<[f64; 2]> = Vec::new();
    for part in parts {
        match list.last_mut() {
            Some(last) if part[0] <= last[1] + 0.01 => last[1] = last[1].max(part[1]),
            _ => list.push(part),
        }
    }
    list
}

/// The points of what is seen of a run from one length along it to another.
fn along(parts: &[Vec<Point>], from: f64, to: f64) -> Vec<Point> {
    let (mut list, mut start) = (Vec::new(), 0.0);
    for part in parts {
        for two in part.windows(2) {
            let long = distance(two[0], two[1]);
            let (a, b) = ((from - start) / long, (to - start) / long);
            if long > 0.0 && a < 1.0 && b > 0.0 {
                if list.is_empty() {
                    list.push(between(two[0], two[1], a.max(0.0)));
                }
                list.push(between(two[0], two[1], b.min(1.0)));
            }
            start += long;
        }
        start += APART;
    }
    list
}

/// The point half way.
pub fn middle(points: &[Point]) -> Point {
    at(points, 0.5).0
}

/// The point a part of the way along, and the direction there.
pub fn at(points: &[Point], part: f64) -> (Point, Point) {
    let total: f64 = points.windows(2).map(|two| distance(two[0], two[1])).sum();
    let mut left = part * total;
    for two in points.windows(2) {
        let long = distance(two[0], two[1]);
        if left <= long && long > 0.0 {
            let way = [(two[1][0] - two[0][0]) / long, (two[1][1] - two[0][1]) / long];
            return (between(two[0], two[1], left / long), way);
        }
        left -= long;
    }
    (points[points.len() - 1], [1.0, 0.0])
}

/// How far a point is from a line of points.
fn away(p: Point, points: &[Point]) -> f64 {
    let one = |two: &[Point]| {
        let (d, long) = ([two[1][0] - two[0][0], two[1][1] - two[0][1]], distance(two[0], two[1]).max(1e-9));
        let part = ((p[0] - two[0][0]) * d[0] + (p[1] - two[0][1]) * d[1]) / (long * long);
        distance(p, between(two[0], two[1], part.clamp(0.0, 1.0)))
    };
    points.windows(2).map(one).fold(f64::INFINITY, f64::min)
}

/// All stretches, by their first run; runs that join an earlier stretch, all along, are added to it. The runs' strokes have these
/// widths.
pub fn found(scene: &Scene, widths: &[f64], page: &Rect) -> Vec<Stretch> {
    let mut list: Vec<Stretch> = Vec::new();
    let mut of_run: BTreeMap<usize, Vec<usize>> = BTreeMap::new();
    for (run, mut parts) in shared(scene, widths, page).into_iter().enumerate() {
        parts.sort_by(|a, b| a.0.total_cmp(&b.0).then(a.2.cmp(&b.2)));
        for (from, to, mut runs) in grouped(parts) {
            runs.push(run);
            runs.sort_unstable();
            runs.dedup();
            let points = along(&scene.runs[run].shown, from, to);
            let there = [points[0], middle(&points), points[points.len() - 1]];
            let known =
                |i: &&usize| there.iter().all(|&p| away(p, &list[**i].points) < 2.0 * reach(widths[run], widths[run]));
            let earlier = of_run.get(&run).and_then(|ids| ids.iter().find(known).copied());
            let place = earlier.unwrap_or_else(|| {
                list.push(Stretch { runs: Vec::new(), points });
                list.len() - 1
            });
            for r in runs {
                if let Err(at) = list[place].runs.binary_search(&r) {
                    list[place].runs.insert(at, r);
                    of_run.entry(r).or_default().push(place);
                }
            }
        }
    }
    list
}

/// Parts of one run that overlap, with all runs that share them.
fn grouped(parts: Vec<(f64, f64, usize)>) -> Vec<(f64, f64, Vec<usize>)> {
    let mut list: Vec<(f64, f64, Vec<usize>)> = Vec::new();
    for (from, to, other) in parts {
        match list.last_mut() {
            Some(last) if from < last.1 => {
                last.1 = last.1.max(to);
                last.2.push(other);
            }
            _ => list.push((from, to, vec![other])),
        }
    }
    list
}

#[cfg(test)]
mod tests {
    use super::*;
    use crate::sheet::scene::Run;

    fn scene(runs: &[&[Point]]) -> Scene {
        let run = |(branch, points): (usize, &&[Point])| Run {
            branch,
            role: 0,
            points: points.to_vec(),
            shown: vec![points.to_vec()],
            level: None,
            block: 1.0,
            stations: [0, 1],
        };
        Scene { stations: Vec::new(), bars: Vec::new(), runs: runs.iter().enumerate().map(run).collect() }
    }

    fn of(runs: &[&[Point]]) -> Vec<(Vec<usize>, f64)> {
        of_width(runs, 0.3)
    }

    fn of_width(runs: &[&[Point]], wide: f64) -> Vec<(Vec<usize>, f64)> {
        let page = Rect::new(0.0, 0.0, 200.0, 200.0);
        let long = |points: &[Point]| points.windows(2).map(|two| distance(two[0], two[1])).sum::<f64>();
        found(&scene(runs), &vec![wide; runs.len()], &page)
            .into_iter()
            .map(|s| (s.runs, (long(&s.points) * 10.0).round() / 10.0))
            .collect()
    }

    #[test]
    fn stretches() {
        let line: &[Point] = &[[0.0, 10.0], [50.0, 10.0]];
        assert_eq!(of(&[line, &[[0.0, 10.4], [50.0, 10.4]]]), [(vec![0, 1], 50.0)]);
        assert_eq!(of(&[line, &[[0.0, 10.6], [50.0, 10.6]]]), []);
        assert_eq!(of(&[line, &[[25.0, 0.0], [25.0, 20.0]]]), [], "a crossing is short");
        assert_eq!(of(&[line, &[[50.3, 10.0], [90.0, 10.0]]]), [], "end to end");
        assert_eq!(of(&[line, &[[45.4, 10.1], [90.0, 10.1]]]).len(), 1);
        assert_eq!(of(&[line, &[[45.6, 10.1], [90.0, 10.1]]]).len(), 0);
    }

    #[test]
    fn wide_strokes() {
        let two = |apart: f64| [vec![[0.0, 10.0], [50.0, 10.0]], vec![[0.0, 10.0 + apart], [50.0, 10.0 + apart]]];
        let count = |apart: f64| of_width(&two(apart).iter().map(Vec::as_slice).collect::<Vec<_>>(), 0.6).len();
        assert_eq!((count(0.55), count(0.65)), (1, 0), "no paper between them, and 0.05 mm");
    }

    #[test]
    fn round_a_bend() {
        let (a, b): (&[Point], &[Point]) =
            (&[[0.0, 0.0], [4.0, 0.0], [4.0, 4.0]], &[[0.0, 0.2], [3.8, 0.2], [3.8, 4.0]]);
        assert_eq!(of(&[a, b]), [(vec![0, 1], 8.0)]);
    }

    #[test]
    fn three_are_one_stretch() {
        let rows = [10.0, 10.3, 10.45].map(|y| vec![[0.0, y], [50.0, y]]);
        assert_eq!(of(&rows.iter().map(Vec::as_slice).collect::<Vec<_>>()), [(vec![0, 1, 2], 50.0)]);
    }
}
