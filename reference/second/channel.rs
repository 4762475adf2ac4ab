//! The channel between two stations: where lines may cross the edge between their places, and how they are spaced there.
use super::plane::held;
use super::{hypot, maximum, minimum, Frame, Point};

pub struct Channel {
    pub u: Point,
    pub w: Point,
    low: f64,
    high: f64,
    gap: f64,
}

/// From a box's middle along a direction to its edge.
fn reach(b: &Frame, direction: Point) -> f64 {
    let part = |side: f64, along: f64| if along.abs() > 1e-12 { side / 2.0 / along.abs() } else { f64::INFINITY };
    minimum(part(b[2] - b[0], direction.0), part(b[3] - b[1], direction.1))
}

impl Channel {
    /// Between two places with their boxes and scales; gap is that of the whole drawing.
    pub fn between(u: (Point, &Frame, f64), w: (Point, &Frame, f64), gap: f64) -> Self {
        let ((u, ub, us), (w, wb, ws)) = (u, w);
        let (dx, dy) = (w.0 - u.0, w.1 - u.1);
        let length = maximum(hypot(dx, dy), f64::MIN_POSITIVE);
        let direction = (dx / length, dy / length);
        let own = gap * minimum(us, ws);
        let mut low = (reach(ub, direction) + own) / length;
        let mut high = 1.0 - (reach(wb, direction) + own) / length;
        if low > high {
            low = (low + high) / 2.0;
            high = low;
        }
        Self { u, w, low: held(low, 0.0, 1.0), high: held(high, 0.0, 1.0), gap: own / length }
    }

    pub fn point(&self, t: f64) -> Point {
        (self.u.0 + t * (self.w.0 - self.u.0), self.u.1 + t * (self.w.1 - self.u.1))
    }

    /// For each wish its place: near the wish, in the order of wishes (equal ones in that of the list), a gap apart, within
    /// the channel's ends; evenly where they don't fit.
    pub fn space(&self, wishes: &[f64]) -> Vec<f64> {
        let n = wishes.len();
        let mut order: Vec<usize> = (0..n).collect();
        order.sort_by(|&i, &j| wishes[i].total_cmp(&wishes[j]).then(i.cmp(&j)));
        let width = self.high - self.low;
        let mut along = Vec::with_capacity(n);
        if n > 0 && (n - 1) as f64 * self.gap > width {
            for i in 0..n {
                let even = || self.low + width * i as f64 / (n - 1) as f64;
                along.push(if n == 1 { (self.low + self.high) / 2.0 } else { even() });
            }
        } else {
            for (i, &j) in order.iter().enumerate() {
                let wish = held(wishes[j], self.low, self.high);
                along.push(if i == 0 { wish } else { maximum(wish, along[i - 1] + self.gap) });
            }
            if n > 0 {
                along[n - 1] = minimum(along[n - 1], self.high);
            }
            for i in (1..n).rev() {
                along[i - 1] = minimum(along[i - 1], along[i] - self.gap);
            }
        }
        let mut places = vec![0.0; n];
        for (i, &j) in order.iter().enumerate() {
            places[j] = along[i];
        }
        places
    }
}
