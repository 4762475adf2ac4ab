//! Points on a fine whole-number grid, and the two tests of a Delaunay mesh on them, exact.

/// Steps of the grid along the longer side of the points' rectangle. Products below stay under 2^121.
const STEPS: f64 = (1u64 << 28) as f64;

pub type Spot = (i64, i64);

/// The points on the grid; none where they have no extent or a number isn't finite.
pub fn snapped(points: &[[f64; 2]]) -> Option<Vec<Spot>> {
    let side = |axis: usize| {
        let numbers = || points.iter().map(|p| p[axis]);
        (numbers().fold(f64::INFINITY, f64::min), numbers().fold(f64::NEG_INFINITY, f64::max))
    };
    let ((left, right), (top, bottom)) = (side(0), side(1));
    let extent = (right - left).max(bottom - top);
    if !extent.is_finite() || extent <= 0.0 || points.iter().flatten().any(|v| !v.is_finite()) {
        return None;
    }
    let step = |v: f64, from: f64| ((v - from) / extent * STEPS).round() as i64;
    Some(points.iter().map(|p| (step(p[0], left), step(p[1], top))).collect())
}

/// Above 0 where a, b, c turn one way, below 0 where they turn the other, 0 on one straight line.
pub fn turn(a: Spot, b: Spot, c: Spot) -> i128 {
    let (bx, by) = (i128::from(b.0 - a.0), i128::from(b.1 - a.1));
    let (cx, cy) = (i128::from(c.0 - a.0), i128::from(c.1 - a.1));
    bx * cy - by * cx
}

/// Whether p lies inside the circle through a, b and c, where `turn(a, b, c)` is above 0.
pub fn in_circle(a: Spot, b: Spot, c: Spot, p: Spot) -> bool {
    let row = |q: Spot| {
        let (x, y) = (i128::from(q.0 - p.0), i128::from(q.1 - p.1));
        (x, y, x * x + y * y)
    };
    let (a, b, c) = (row(a), row(b), row(c));
    a.2 * (b.0 * c.1 - b.1 * c.0) - b.2 * (a.0 * c.1 - a.1 * c.0) + c.2 * (a.0 * b.1 - a.1 * b.0) > 0
}

#[cfg(test)]
mod tests {
    use super::*;

    #[test]
    fn circle() {
        let (a, b, c) = ((0, 0), (4, 0), (0, 4));
        assert!(turn(a, b, c) > 0);
        assert!(in_circle(a, b, c, (3, 3)));
        assert!(!in_circle(a, b, c, (4, 4)), "on the circle isn't inside");
        assert!(!in_circle(a, b, c, (5, 4)));
    }

    #[test]
    fn far_corners_do_not_overflow() {
        let far = 1 << 28;
        assert!(in_circle((0, 0), (far, 0), (0, far), (far - 1, far - 1)));
        assert!(!in_circle((0, 0), (far, 0), (0, far), (far, far)));
    }

    #[test]
    fn points_without_extent() {
        assert_eq!(snapped(&[[1.0, 1.0], [1.0, 1.0]]), None);
        assert_eq!(snapped(&[]), None);
        assert_eq!(snapped(&[[0.0, 0.0], [f64::NAN, 1.0]]), None);
    }
}
