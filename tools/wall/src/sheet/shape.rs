//! Points and rectangles on the page, in millimetres.

pub type Point = [f64; 2];

#[derive(Clone, Copy, Debug, PartialEq)]
pub struct Rect {
    pub left: f64,
    pub top: f64,
    pub right: f64,
    pub bottom: f64,
}

impl Rect {
    pub fn new(left: f64, top: f64, right: f64, bottom: f64) -> Self {
        Rect { left, top, right, bottom }
    }

    pub fn width(&self) -> f64 {
        self.right - self.left
    }

    pub fn height(&self) -> f64 {
        self.bottom - self.top
    }

    pub fn middle(&self) -> Point {
        [(self.left + self.right) / 2.0, (self.top + self.bottom) / 2.0]
    }

    /// Larger by so much on each side.
    pub fn grown(&self, by: f64) -> Self {
        Rect::new(self.left - by, self.top - by, self.right + by, self.bottom + by)
    }

    pub fn overlaps(&self, other: &Rect) -> bool {
        self.left < other.right && other.left < self.right && self.top < other.bottom && other.top < self.bottom
    }

    pub fn holds(&self, other: &Rect) -> bool {
        self.left <= other.left && self.top <= other.top && other.right <= self.right && other.bottom <= self.bottom
    }

    pub fn has(&self, p: Point) -> bool {
        self.left <= p[0] && p[0] <= self.right && self.top <= p[1] && p[1] <= self.bottom
    }

    /// The smallest one around this and a point.
    pub fn with(&self, p: Point) -> Self {
        Rect::new(self.left.min(p[0]), self.top.min(p[1]), self.right.max(p[0]), self.bottom.max(p[1]))
    }

    /// The smallest one around two points.
    pub fn around(p: Point, q: Point) -> Self {
        Rect::new(p[0], p[1], p[0], p[1]).with(q)
    }

    /// Which part of the way between two points lies in it.
    pub fn part(&self, p: Point, q: Point) -> Option<[f64; 2]> {
        let lanes = [(p[0], q[0] - p[0], self.left, self.right), (p[1], q[1] - p[1], self.top, self.bottom)];
        within(lanes, [0.0, 1.0])
    }

    /// Whether the straight piece between two points meets it.
    pub fn meets(&self, p: Point, q: Point) -> bool {
        self.part(p, q).is_some()
    }
}

/// Which part of a straight way keeps its bounds in two directions: each has where the way begins, how far it goes, and
/// the two bounds. At most the given part is.
pub fn within(lanes: [(f64, f64, f64, f64); 2], [mut enter, mut leave]: [f64; 2]) -> Option<[f64; 2]> {
    for (from, step, low, high) in lanes {
        if step == 0.0 {
            if from < low || from > high {
                return None;
            }
            continue;
        }
        let (a, b) = ((low - from) / step, (high - from) / step);
        enter = enter.max(a.min(b));
        leave = leave.min(a.max(b));
    }
    (enter <= leave).then_some([enter, leave])
}

pub fn distance(p: Point, q: Point) -> f64 {
    ((p[0] - q[0]) * (p[0] - q[0]) + (p[1] - q[1]) * (p[1] - q[1])).sqrt()
}

/// The point a part of the way from one to another.
pub fn between(p: Point, q: Point, part: f64) -> Point {
    [p[0] + (q[0] - p[0]) * part, p[1] + (q[1] - p[1]) * part]
}

#[cfg(test)]
mod tests {
    use super::*;

    #[test]
    fn pieces_and_rectangles() {
        let r = Rect::new(0.0, 0.0, 2.0, 1.0);
        assert!(r.meets([-1.0, 0.5], [3.0, 0.5]));
        assert!(r.meets([1.0, 0.5], [1.0, 0.6]));
        assert!(!r.meets([-1.0, 2.0], [3.0, 2.0]));
        assert!(!r.meets([-1.0, 0.5], [-0.1, 0.5]));
        assert!(!r.meets([1.5, 3.0], [4.0, 0.0]));
    }
}
