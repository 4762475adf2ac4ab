//! Nearest and near neighbours over all pairs (docs/RULES.md, 'Spacing and unit', 'Scales').
use crate::hypot::hypot;

/// For each point the least positive distance to another; infinite where there is none.
pub fn nearest_neighbour_distances(points: &[(f64, f64)]) -> Vec<f64> {
    let mut out = vec![f64::INFINITY; points.len()];
    for (i, p) in points.iter().enumerate() {
        for (j, q) in points.iter().enumerate() {
            if i != j {
                let d = hypot(q.0 - p.0, q.1 - p.1);
                if d > 0.0 && d < out[i] {
                    out[i] = d;
                }
            }
        }
    }
    out
}

/// For each point how many others are at most `radius` away; none where `radius` is not above 0.
pub fn count_within(points: &[(f64, f64)], radius: f64) -> Vec<usize> {
    let mut out = vec![0; points.len()];
    for (i, p) in points.iter().enumerate() {
        for (j, q) in points.iter().enumerate() {
            if i != j && radius > 0.0 && hypot(q.0 - p.0, q.1 - p.1) <= radius {
                out[i] += 1;
            }
        }
    }
    out
}
