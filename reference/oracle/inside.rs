//! Opens the original's private functions: a child module of the patched copy.
use super::*;

pub type P = (f64, f64);

pub fn hits(s: &[f64], b: &[f64]) -> bool {
    segment_hits_box(s, b)
}

pub fn cross(p: P, q: P, a: P, b: P) -> bool {
    segments_cross(p, q, a, b)
}

pub fn param(p: P, q: P, u: P, w: P) -> Option<f64> {
    line_param(p, q, u, w)
}

/// Lower end, upper end and gap of the channel between two stations, whose boxes stand in order in `boxes`.
pub fn ends(u: P, w: P, boxes: &[f64], scale: &[f64], gap: f64) -> (f64, f64, f64) {
    let c = channel(u, w, 0, 1, boxes, scale, gap);
    (c.lo, c.hi, c.gap)
}

/// The place of each wish, by the wish's index.
pub fn places(wishes: &[f64], lo: f64, hi: f64, gap: f64) -> Vec<f64> {
    let mut desired: Vec<(f64, usize)> = wishes.iter().copied().zip(0..).collect();
    let mut out = vec![0.0; wishes.len()];
    for (j, t) in space(&mut desired, lo, hi, gap) {
        out[j] = t;
    }
    out
}

pub fn middle(values: &[f64]) -> Option<f64> {
    median(values)
}

pub fn nearest(points: &[P]) -> Vec<f64> {
    nearest_neighbour_distances(points)
}

pub fn within(points: &[P], radius: f64) -> Vec<usize> {
    count_within(points, radius)
}

/// The first of the boxes that a piece hits, by the original's cell walk.
pub fn first_hit(boxes: &[f64], p: P, q: P) -> Option<usize> {
    let all: Vec<usize> = (0..boxes.len() / 4).collect();
    BoxIndex::new(boxes, &all).first_hit(p, q, [usize::MAX; 2])
}
