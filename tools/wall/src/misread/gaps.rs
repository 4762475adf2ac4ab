//! Lines that pass under boxes: what comes out has to be what went in. A line that bends there, or comes out near another one,
//! can be taken for another.
use super::near::Near;
use super::shapes::{apart, length, Point, Run, Shapes, Span};
use super::{Kind, Place};
use std::collections::BTreeMap;

/// How far beside the way that it went in a line may come out: in millimetres, and for each of the way under the box.
const BESIDE: f64 = 0.6;
const SLOPE: f64 = 0.02;

/// Gaps of two lines at one box are side by side where their ends are nearer, in millimetres.
const CLOSE: f64 = 12.0;

/// How far beyond a box the gap at it ends, at most.
const BEYOND: f64 = 1.7;

/// A gap of a line: its ends, and the points before and behind them.
struct Gap {
    run: usize,
    ends: [Point; 2],
    bent: bool,
}

pub fn found(shapes: &Shapes) -> Vec<Place> {
    let gaps: Vec<Gap> = shapes.runs.iter().enumerate().flat_map(|(i, run)| of_run(i, run)).collect();
    if gaps.is_empty() {
        return Vec::new();
    }
    let mut boxes = Near::new(&shapes.page);
    shapes.boxes.iter().enumerate().for_each(|(i, boxed)| boxes.add(i, &boxed.span));
    let mut at_boxes: BTreeMap<usize, Vec<&Gap>> = BTreeMap::new();
    let mut places = Vec::new();
    for gap in &gaps {
        let passed = passed(shapes, &boxes, gap);
        let station = passed.first().map(|&i| shapes.boxes[i].station);
        if gap.bent {
            let branch = Some(shapes.runs[gap.run].branch);
            places.push(Place { branch, station, ..Place::new(Kind::Bent, gap.ends[0]) });
        }
        passed.into_iter().for_each(|i| at_boxes.entry(i).or_default().push(gap));
    }
    places.extend(at_boxes.into_iter().flat_map(|(i, list)| side_by_side(shapes, i, &list)));
    places
}

fn of_run(run: usize, of: &Run) -> Vec<Gap> {
    let gap = |two: &[Vec<Point>]| {
        let (before, behind) = (&two[0], &two[1]);
        let (last, first) = (*before.last()?, *behind.first()?);
        let off = |from: Point, to: Point, other: Point| beside(from, to, other) > BESIDE + SLOPE * apart(last, first);
        let bent = before.len() > 1 && off(before[before.len() - 2], last, first)
            || behind.len() > 1 && off(behind[1], first, last);
        Some(Gap { run, ends: [last, first], bent })
    };
    of.parts.windows(2).filter_map(gap).collect()
}

/// How far a point is beside the straight line on which one goes from a point to another and on, or how far it lies back.
fn beside(from: Point, to: Point, p: Point) -> f64 {
    let long = length([from, to]);
    if long == 0.0 {
        return 0.0;
    }
    let d = [(to[0] - from[0]) / long, (to[1] - from[1]) / long];
    let (x, y) = (p[0] - to[0], p[1] - to[1]);
    (x * d[1] - y * d[0]).abs().max(-(x * d[0] + y * d[1]))
}

/// The boxes between the ends of a gap.
fn passed(shapes: &Shapes, boxes: &Near, gap: &Gap) -> Vec<usize> {
    let [p, q] = gap.ends;
    let holds = |span: &Span, p: Point| span.grown(BEYOND).holds(&Span::of(p, p));
    let between = |i: &usize| {
        let span = &shapes.boxes[*i].span;
        holds(span, p) || holds(span, q) || super::shapes::inside(span, gap.ends).is_some()
    };
    boxes.along(gap.ends, BEYOND).into_iter().filter(between).collect()
}

/// One place for each pair of lines whose gaps at a box are side by side.
fn side_by_side(shapes: &Shapes, at: usize, gaps: &[&Gap]) -> Vec<Place> {
    let mut found: BTreeMap<[usize; 2], Point> = BTreeMap::new();
    for (i, gap) in gaps.iter().enumerate() {
        for other in gaps[i + 1..].iter().filter(|other| other.run != gap.run) {
            let near = |&end: &Point| other.ends.iter().any(|&p| apart(p, end) < CLOSE);
            if let Some(end) = gap.ends.into_iter().find(near) {
                let pair = [gap.run, other.run].map(|run| shapes.runs[run].branch);
                found.entry([pair[0].min(pair[1]), pair[0].max(pair[1])]).or_insert(end);
            }
        }
    }
    let station = Some(shapes.boxes[at].station);
    let place = |([a, b], end): ([usize; 2], Point)| Place {
        branch: Some(a),
        other: Some(b),
        station,
        ..Place::new(Kind::Beside, end)
    };
    found.into_iter().map(place).collect()
}
