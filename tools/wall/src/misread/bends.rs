//! Bends of a line on or close to another's stroke: where two lines meet there and part again, either may go on as the other.
use super::near::Near;
use super::shapes::{apart, away, Band, Point, Shapes};
use super::{Kind, Place};
use std::collections::HashMap;

/// Strokes this close, in millimetres beside half their widths, touch to the eye; and lines whose middles are this close are
/// taken as one, however thin they are.
const TOUCH: f64 = 0.1;
const CLOSE: f64 = 0.6;

/// How far from a band's middle a place is on it.
const BANDED: f64 = 1.2;

/// Places of two lines that are nearer, in millimetres, are one.
const ONE: f64 = 5.0;

/// Where two branches meet in bends that are known.
type Known = HashMap<[usize; 2], Vec<Point>>;

/// Strokes of lines, open ones too, by where they are.
struct Strokes<'a> {
    shapes: &'a Shapes,
    pieces: Vec<(usize, [Point; 2])>,
    near: Near,
    widest: f64,
}

/// One place for each pair of lines that meet in a bend; where they run as one stroke, a band says so already.
pub fn found(shapes: &Shapes) -> Vec<Place> {
    let mut strokes = Strokes { shapes, pieces: Vec::new(), near: Near::new(&shapes.page), widest: 0.0 };
    for (i, run) in shapes.runs.iter().enumerate() {
        for piece in run.pieces() {
            strokes.near.add_piece(strokes.pieces.len(), piece);
            strokes.pieces.push((i, piece));
        }
        strokes.widest = strokes.widest.max(run.wide);
    }
    let mut known: Known = HashMap::new();
    let mut places: Vec<Place> = Vec::new();
    for (i, run) in shapes.runs.iter().enumerate() {
        for bend in run.parts.iter().flat_map(|part| part.iter().take(part.len().saturating_sub(1)).skip(1)) {
            places.extend(strokes.met(i, *bend, &mut known));
        }
    }
    places
}

impl Strokes<'_> {
    /// The other lines that a bend of a line is on.
    fn met(&self, i: usize, bend: Point, known: &mut Known) -> Vec<Place> {
        let (run, mut places) = (&self.shapes.runs[i], Vec::new());
        for j in self.near.along([bend, bend], (self.widest + TOUCH).max(CLOSE)) {
            let (other, piece) = (&self.shapes.runs[self.pieces[j].0], self.pieces[j].1);
            let touch = ((run.wide + other.wide) / 2.0 + TOUCH).max(CLOSE);
            if other.branch == run.branch || away(bend, piece[0], piece[1]) >= touch {
                continue;
            }
            let pair = [run.branch.min(other.branch), run.branch.max(other.branch)];
            let there = known.entry(pair).or_default();
            if there.iter().all(|at| apart(*at, bend) >= ONE) && !banded(&self.shapes.bands, pair, bend) {
                let [branch, other] = pair.map(Some);
                there.push(bend);
                places.push(Place { branch, other, ..Place::new(Kind::Bend, bend) });
            }
        }
        places
    }
}

/// Whether a band with both branches passes a point.
fn banded(bands: &[Band], pair: [usize; 2], at: Point) -> bool {
    let both = bands.iter().filter(|band| pair.iter().all(|branch| band.branches.contains(branch)));
    both.flat_map(|band| band.points.windows(2)).any(|two| away(at, two[0], two[1]) < BANDED)
}
