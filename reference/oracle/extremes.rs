//! Calls of extreme scale, from a seed: coordinates from the least subnormal to 10^12, options at the ends of their ranges, drawings times a power of two.
use crate::audit::Drawing;
use crate::gaps;
use crate::network::{Network, Options};
use crate::random::Random;

/// How the coordinates of one axis lie.
#[derive(Clone, Copy)]
enum Axis {
    /// Subnormals of at most so many bits.
    Subnormal(u32),
    /// Whole multiples of a number, from -6 to 6.
    Lattice(f64),
    /// Evenly within six times a number.
    Even(f64),
    /// A number, and floats next to it on the side of 0, so many apart.
    Next(f64, u64),
    /// Any exponent up to 2^39, subnormals too.
    Any,
}
use Axis::*;

fn power(e: i64) -> f64 {
    2f64.powi(e as i32)
}

/// A scale: where products vanish, where products of turns begin to (2^-275 to 2^-255), or any other.
fn scale(r: &mut Random) -> f64 {
    match r.below(6) {
        0 => 1e-170,
        1 => power(-540),
        2 | 3 => power(r.within(-275, -255)),
        4 => power(r.within(-640, 36)),
        _ => 1.0,
    }
}

/// Neighbouring floats (refusal 8 but for large fills), or some thousands apart.
fn apart(r: &mut Random) -> u64 {
    r.pick(&[1, 3, 200, 3000, 1 << 13, 1 << 16])
}

fn axis(r: &mut Random) -> Axis {
    match r.below(9) {
        0 => Subnormal(r.within(1, 52) as u32),
        1 | 2 => Lattice(scale(r)),
        3 | 4 => Even(scale(r)),
        5 | 6 => Next(r.pick(&[1e12, -1e12, 9e11, 1e9, -power(39), 1e-170]), apart(r)),
        7 => Next(r.exponent(1, 1062), apart(r)),
        _ => Any,
    }
}

fn coordinate(r: &mut Random, axis: Axis) -> f64 {
    match axis {
        Subnormal(bits) => f64::from_bits(r.next() >> (64 - bits)).copysign(r.unit() - 0.5),
        Lattice(scale) => r.within(-6, 6) as f64 * scale,
        Even(scale) => (r.unit() - 0.5) * 12.0 * scale,
        Next(number, apart) => f64::from_bits(number.to_bits() - apart * r.below(40) as u64),
        Any => r.exponent(0, 1062),
    }
}

/// Most stations have one bus; one network in ten mixes the axes of its stations.
pub fn network(r: &mut Random, most: usize) -> Network {
    let n = if r.one_in(10) { r.below(most + 1) } else { 3 + r.below(most - 2) };
    let m = 1 + r.below(2 * n + 3);
    let (x, y) = (axis(r), axis(r));
    let y = if r.one_in(2) { x } else { y };
    let mixed = r.one_in(10);
    let groups = if r.one_in(4) { 1 + r.below(n) } else { n };
    let end = |r: &mut Random| if r.one_in(40) { r.within(-1, n as i64) } else { r.below(n) as i64 };
    let mut net = Network::default();
    for i in 0..n {
        let (x, y) = if mixed { (axis(r), axis(r)) } else { (x, y) };
        net.sub.push(if groups < n { r.below(groups) } else { i } as u32);
        net.kv.push(f64::to_bits(r.pick(&[110.0, 220.0, 380.0, 5e-324, f64::MAX])));
        net.xy.extend([coordinate(r, x), coordinate(r, y)]);
    }
    for _ in 0..m {
        net.from.push(end(r));
        net.to.push(end(r));
        net.live.push(u8::from(!r.one_in(12)));
    }
    net
}

pub fn options(r: &mut Random) -> Options {
    let least = 1.0 / 64.0;
    Options {
        fill: r.pick(&[0.45, 1.0, 4.0, 16.0, 16.0, least, 1e-3, 16.0f64.next_down()]),
        radius: r.pick(&[0.0, 1.0, 3.0, 1000.0]),
        counts: r.pick(&[[0, 0], [0, 1], [1, 2], [2, 4], [12, 30], [u32::MAX, 3]]),
        scales: r.pick(&[[least, least], [least, 1.0], [1.0, least], [2.0 / 3.0, 4.0 / 9.0], [1.0, 1.0]]),
        search: r.pick(&[0, 0, 0, 1, 2, 3, 10, 20]),
        iterations: r.within(1, 100),
        gaps: gaps::OLD,
    }
}

/// Points on both axes held to 0 to 1, so that triangles can be told from each other.
pub fn shrunk(points: &[(f64, f64)]) -> Vec<(f64, f64)> {
    let part = |of: &dyn Fn(&(f64, f64)) -> f64| {
        let low = points.iter().map(of).fold(f64::INFINITY, f64::min);
        let high = points.iter().map(of).fold(f64::NEG_INFINITY, f64::max);
        points.iter().map(|p| if high > low { (of(p) - low) / (high - low) } else { 0.0 }).collect::<Vec<f64>>()
    };
    part(&|p| p.0).into_iter().zip(part(&|p| p.1)).collect()
}

/// All boxes and pieces times one power of two, down to where they vanish and up to past 2^100.
pub fn rescale(r: &mut Random, d: &mut Drawing) {
    let largest = d.boxes.iter().chain(&d.pieces).fold(0.0, |m: f64, x| m.max(x.abs()));
    if largest > 0.0 && largest.is_finite() {
        let e = r.pick(&[99, 100, 40, -30, -300, -1000, -1030, -1060]) - largest.log2() as i32;
        let both = |x: &mut f64| *x = *x * 2f64.powi(e / 2) * 2f64.powi(e - e / 2);
        d.boxes.iter_mut().chain(&mut d.pieces).for_each(both);
    }
}
