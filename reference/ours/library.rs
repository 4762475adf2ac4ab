//! The static library's calls: those of bindings/rust, and two that only measurements make.
#[macro_use]
#[path = "../../bindings/rust/src/ffi.rs"]
mod ffi;

use crate::network;
pub use ffi::*;

#[link(name = "exports", kind = "static")]
extern "C" {}

call!(hypot = tansygate_hypot(; x: f64, y: f64;) -> f64);
call!(nearest = tansygate_nearest(out: f64;; points: f64) -> usize);

/// The oracle's options as the library takes them.
pub fn options_of(o: &network::Options) -> Options {
    Options {
        fill: o.fill,
        tier_radius: o.radius,
        tier_count_1: o.counts[0],
        tier_count_2: o.counts[1],
        tier_scale_1: o.scales[0],
        tier_scale_2: o.scales[1],
        search: o.search as i32,
        route_iterations: o.iterations as u32,
        bar_gap: o.gaps.gap,
        pad: o.gaps.padding,
        min_bar: o.gaps.shortest,
        buffer: o.gaps.buffer,
    }
}
