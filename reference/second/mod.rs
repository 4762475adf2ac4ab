//! A second implementation of layout and audit, written from the rules that docs/RULES.md states, and not from the original
//! nor from crates/*/src. It judges what the original can't: other gaps, and detours round the box entered first.
//! Loops are plain and over all stations; nothing is shared with the original's code, `hypot` included.
//!
//! These functions of the original were read and written anew:
//!   the walk of a line over the mesh, the rounds (`route_lines`)                route.rs
//!   a channel's ends and gap (`channel`), places along it (`space`)              channel.rs
//!   the clip test, the crossing test, the place on a segment (`segment_hits_box`, `segments_cross`, `line_param`)  plane.rs
//!   the walk over cells (`BoxIndex`, `first_hit`), the corners of a way round a box (`detour`)   around.rs
//!   the figures' quotients (`tx_layout_quality`)                                 audit.rs
//!   in the body of `tx_schematic_layout`: the order of pieces (branches that are no lines first), the gap 0.8 × unit of
//!   channels and detours, the order in which bounds are joined                   layout.rs, route.rs
mod around;
mod audit;
mod channel;
mod interior;
mod layout;
mod network;
mod placement;
mod plane;
mod root;
mod route;

pub use audit::{audit, Audited};
pub use layout::{layout, Room};
pub use network::{Mesh, Network, Options};
pub use root::hypot;

/// Which box a detour goes round, and when a piece counts as running through one.
#[derive(Clone, Copy, PartialEq)]
pub enum Rule {
    /// The original's walk over cells.
    Cells,
    /// The box entered first.
    Nearest,
}

/// The box of these, all of occupied stations, that a piece is led round; two stations are passed over.
pub fn first_box(boxes: &[Frame], p: Point, q: Point, own: [usize; 2], rule: Rule) -> Option<usize> {
    let occupied: Vec<usize> = (0..boxes.len()).collect();
    around::Obstacles::new(boxes, &occupied, rule).first(p, q, own)
}

pub type Point = (f64, f64);

/// Left, top, right, bottom.
pub type Frame = [f64; 4];

/// The second operand only where it is greater.
pub fn maximum(a: f64, b: f64) -> f64 {
    if b > a { b } else { a }
}

/// The second operand only where it is less.
pub fn minimum(a: f64, b: f64) -> f64 {
    if b < a { b } else { a }
}

/// The middle of the finite numbers: the sorted list's element at half its length, rounded down.
pub fn median(list: &[f64]) -> Option<f64> {
    let mut finite: Vec<f64> = list.iter().copied().filter(|x| x.is_finite()).collect();
    finite.sort_by(|a, b| a.total_cmp(b));
    finite.get(finite.len() / 2).copied()
}

/// Each point's least positive distance to another, infinite without one.
pub fn nearest(points: &[Point]) -> Vec<f64> {
    let mut least = vec![f64::INFINITY; points.len()];
    for i in 0..points.len() {
        for j in 0..i {
            let d = hypot(points[i].0 - points[j].0, points[i].1 - points[j].1);
            if d > 0.0 {
                least[i] = minimum(least[i], d);
                least[j] = minimum(least[j], d);
            }
        }
    }
    least
}
