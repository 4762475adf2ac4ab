//! A piece and a box, two segments, a place on a segment.
use super::{hypot, maximum, minimum, Frame, Point};

/// Whether the piece from p to q meets the box, touching included: the part of it between the two sides, in each direction
/// that it moves in, is cut from 0 to 1 (Liang and Barsky).
pub fn hits(p: Point, q: Point, b: &Frame) -> bool {
    let (mut enters, mut leaves) = (0.0, 1.0);
    for (start, end, low, high) in [(p.0, q.0, b[0], b[2]), (p.1, q.1, b[1], b[3])] {
        let moved = end - start;
        if moved == 0.0 {
            if start - low < 0.0 || high - start < 0.0 {
                return false;
            }
            continue;
        }
        let (first, last) = if moved > 0.0 { (low, high) } else { (high, low) };
        enters = maximum(enters, (first - start) / moved);
        leaves = minimum(leaves, (last - start) / moved);
        if enters > leaves {
            return false;
        }
    }
    true
}

/// The fraction at which a piece enters a box that it hits: at least 0, and for x and for y, where the piece moves, at least
/// (near edge − start) / (end − start).
pub fn entered(p: Point, q: Point, b: &Frame) -> f64 {
    let mut place = 0.0;
    if q.0 != p.0 {
        let edge = if q.0 > p.0 { b[0] } else { b[2] };
        place = maximum(place, (edge - p.0) / (q.0 - p.0));
    }
    if q.1 != p.1 {
        let edge = if q.1 > p.1 { b[1] } else { b[3] };
        place = maximum(place, (edge - p.1) / (q.1 - p.1));
    }
    place
}

/// Twice the area of the triangle o, a, b, signed.
fn turn(o: Point, a: Point, b: Point) -> f64 {
    let first = (a.0 - o.0) * (b.1 - o.1);
    let second = (a.1 - o.1) * (b.0 - o.0);
    first - second
}

/// Whether the two segments cross inside both.
pub fn cross(p: Point, q: Point, a: Point, b: Point) -> bool {
    turn(a, b, p) * turn(a, b, q) < 0.0 && turn(p, q, a) * turn(p, q, b) < 0.0
}

/// Where the line through p and q meets the segment from u to w, 0 at u and 1 at w; none where they are parallel.
pub fn place_on(p: Point, q: Point, u: Point, w: Point) -> Option<f64> {
    let along = (q.0 - p.0, q.1 - p.1);
    let side = (w.0 - u.0, w.1 - u.1);
    let divisor = along.0 * side.1 - along.1 * side.0;
    let lengths = hypot(along.0, along.1) * hypot(side.0, side.1);
    if divisor.abs() < 1e-12 * maximum(lengths, f64::MIN_POSITIVE) {
        return None;
    }
    let t = ((u.0 - p.0) * along.1 - (u.1 - p.1) * along.0) / divisor;
    Some(held(t, 0.0, 1.0))
}

/// A number held between two others.
pub fn held(t: f64, low: f64, high: f64) -> f64 {
    if t < low {
        low
    } else if t > high {
        high
    } else {
        t
    }
}

/// Strict overlap.
pub fn overlap(a: &Frame, b: &Frame) -> bool {
    a[0] < b[2] && b[0] < a[2] && a[1] < b[3] && b[1] < a[3]
}

/// A box 1e-9 smaller on each side.
pub fn shrunk(b: &Frame) -> Frame {
    [b[0] + 1e-9, b[1] + 1e-9, b[2] - 1e-9, b[3] - 1e-9]
}

pub fn middle(b: &Frame) -> Point {
    ((b[0] + b[2]) / 2.0, (b[1] + b[3]) / 2.0)
}

/// The larger of a box's two sides.
pub fn larger_side(b: &Frame) -> f64 {
    maximum(b[2] - b[0], b[3] - b[1])
}
