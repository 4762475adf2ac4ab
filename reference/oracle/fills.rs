//! Calls of the largest fill, from a seed: crowded networks, ones far from the origin, the twelve stations, and those of
//! oracle/calls.rs; with piece lists of any length, and a fill and iterations that the call has to leave alone.
use crate::calls::{layout_call, Call, Kind};
use crate::fill;
use crate::gaps::{self, Gaps};
use crate::layout::Lent;
use crate::network::{Mesh, Network, Options};
use crate::random::Random;

/// With search 1 and tier radius 0 each of these finds a free place at 1 to 51 and at 61 to 64 sixty-fourths, not between.
const TWELVE: [(f64, f64); 12] = [
    (2.0, 3.0),
    (4.0, 4.0),
    (4.0, 4.0),
    (4.0, 0.0),
    (3.0, 2.0),
    (1.0, 1.0),
    (3.0, 2.0),
    (0.0, 0.0),
    (0.0, 1.0),
    (0.0, 3.0),
    (4.0, 0.0),
    (2.0, 1.0),
];

/// Buses at points, each its own station where `groups` is their number, joined by lines.
fn network(r: &mut Random, points: &[(f64, f64)], groups: usize, lines: usize) -> Network {
    let n = points.len();
    let mut net = Network::default();
    for (i, &(x, y)) in points.iter().enumerate() {
        net.sub.push(if groups < n { r.below(groups) } else { i } as u32);
        net.kv.push(f64::to_bits(r.pick(&[110.0, 110.0, 110.0, 220.0, 380.0])));
        net.xy.extend([x, y]);
    }
    for _ in 0..lines {
        net.from.push(r.below(n) as i64);
        net.to.push(r.below(n) as i64);
        net.live.push(u8::from(!r.one_in(6)));
    }
    net
}

/// Many stations, on few points of a lattice, or scattered.
fn crowded(r: &mut Random, most: usize, scattered: bool) -> Network {
    let n = 2 + r.below(most - 1);
    let side = r.within(0, 2 + (n as f64).sqrt() as i64);
    let shift = if scattered { r.pick(&[0.25, 1.0, 3.0]) } else { r.pick(&[0.0, 0.0, 0.5]) };
    let at = |r: &mut Random| r.within(0, side) as f64 + shift * r.unit();
    let points: Vec<(f64, f64)> = (0..n).map(|_| (at(r), at(r))).collect();
    let groups = if r.one_in(3) { 1 + r.below(n) } else { n };
    let lines = r.below(2 * n);
    network(r, &points, groups, lines)
}

/// Points a few floats apart, far from the origin: small boxes have no size there, or pieces lose their length.
fn far(r: &mut Random, most: usize) -> Network {
    let n = 2 + r.below(most - 1);
    let (x, y) = (r.pick(&[1e12, -1e12, 9e11, 1e9, 3.0]), r.pick(&[1e12, 7e11, -1e10, 0.0]));
    let step = r.pick(&[1.0, 4.0, 16.0, 64.0, 256.0, 1024.0, 4096.0]) * 2f64.powi(-13);
    let side = 1 + r.below(2 * n) as i64;
    let held = |v: f64| v.clamp(-1e12, 1e12);
    let points: Vec<(f64, f64)> =
        (0..n).map(|_| (held(x - r.within(0, side) as f64 * step), held(y - r.within(0, side) as f64 * step))).collect();
    let groups = if r.one_in(4) { 1 + r.below(n) } else { n };
    let lines = 1 + r.below(2 * n);
    network(r, &points, groups, lines)
}

/// One large station and some small ones 1/64 its scale, so far from the origin that pieces inside these are a few floats
/// long: the smaller the fill, the more of them lose their length. (Without the large one refusal 8 would come first.)
fn lost(r: &mut Random, most: usize) -> Network {
    let small = 3 + r.below(most.min(12) - 3);
    let float = 2f64.powi(-13);
    let spacing = r.pick(&[128.0, 256.0, 512.0, 1024.0]) * float;
    let origin = r.pick(&[2f64.powi(39), 2f64.powi(39) * 1.3, -2f64.powi(39)]);
    let mut points = vec![(origin + 100.0 * spacing, origin); 2];
    points.extend((0..small).map(|i| (origin + (i % 3) as f64 * spacing, origin + (i / 3) as f64 * spacing)));
    let mut net = network(r, &points, points.len(), 0);
    net.sub = (0..points.len() as u32).map(|i| i.saturating_sub(1)).collect();
    for _ in 0..60 + r.below(140) {
        net.from.push(0);
        net.to.push(1);
    }
    for _ in 0..2 + r.below(6) {
        net.from.push(2 + r.below(small) as i64);
        net.to.push(2 + r.below(small) as i64);
    }
    net
}

/// The twelve stations, perhaps one more or one fewer, perhaps with lines.
fn twelve(r: &mut Random) -> Network {
    let mut points = TWELVE.to_vec();
    match r.below(6) {
        0 => points.push((r.within(0, 4) as f64, r.within(0, 4) as f64)),
        1 => drop(points.remove(r.below(12))),
        _ => {}
    }
    let (n, lines) = (points.len(), if r.one_in(2) { 0 } else { r.below(20) });
    network(r, &points, n, lines)
}

/// Options in range, a few out of it, and any fill and iterations.
fn options(r: &mut Random, gaps: Gaps) -> Options {
    let mut o = Options { gaps, ..Options::defaults() };
    if !r.one_in(3) {
        o.search = r.pick(&[0, 0, 0, 1, 1, 1, 2, 3, 10, 20]);
        o.radius = r.pick(&[0.0, 0.0, 1.0, 3.0, 1000.0]);
        o.counts = r.pick(&[[12, 30], [0, 0], [0, 1], [1, 2], [2, 4], [u32::MAX, 3]]);
        o.scales = r.pick(&[[2.0 / 3.0, 4.0 / 9.0], [1.0 / 64.0, 1.0], [1.0, 1.0 / 64.0], [1.0, 1.0]]);
    }
    match r.below(80) {
        0 => o.search = r.pick(&[-1, 21]),
        1 => o.radius = r.pick(&[-1.0, 1000.5, f64::NAN]),
        2 => o.scales[r.below(2)] = r.pick(&[0.0, 1.5, f64::NAN]),
        _ => {}
    }
    o
}

/// A call of oracle/calls.rs, or a network of this file; list lengths of its own for pieces.
fn base(r: &mut Random, seed: u64, case: u64, most: usize, kind: Kind) -> Call {
    let gaps = if kind == Kind::Gaps { layout_call(seed, case, 2, kind).options.gaps } else { gaps::OLD };
    let mut call = layout_call(seed, case, most, kind);
    let sort = r.below(10);
    let net = match sort {
        0 | 1 => return call,
        2 | 3 => crowded(r, most, false),
        4 | 5 | 6 => crowded(r, most, true),
        7 => far(r, most),
        8 => lost(r, most),
        _ => twelve(r),
    };
    let tight = net.from.len();
    call.options = options(r, gaps);
    // No search for scattered stations, a short one for the twelve, and mostly little for the rest.
    match sort {
        4 | 5 => (call.options.search, call.options.radius) = (0, r.pick(&[0.0, 0.0, 3.0])),
        8 => {
            call.options.search = r.pick(&[0, 1, 10]);
            (call.options.radius, call.options.counts, call.options.scales) = (3.0, [1, u32::MAX], [1.0 / 64.0, 1.0]);
        }
        9 if !r.one_in(3) => (call.options.search, call.options.radius) = (1, 0.0),
        _ => {}
    }
    call.net = net;
    call.mesh = Mesh::default();
    let (n, m, k) = (call.net.sub.len(), tight, call.net.stations());
    let more = if r.one_in(2) { r.below(4) } else { 0 };
    call.lent = Lent {
        positions: 2 * n + more,
        bars: 4 * n + more,
        boxes: 4 * k + more,
        scales: k + more,
        roles: m + more,
        pieces: 0,
        branches: 0,
        crossings: r.below(3),
        work_short: r.one_in(100),
    };
    if r.one_in(60) {
        call.lent.bars -= 1 + more;
    }
    call
}

/// Piece lists between the fewest and the most pieces of the 64 fills, or of any length.
fn piece_room(r: &mut Random, call: &Call) -> usize {
    let counts = fill::pieces(&call.net, &call.options);
    let (least, most) = (counts.iter().copied().min().unwrap_or(0), counts.iter().copied().max().unwrap_or(0));
    match r.below(6) {
        0 => r.below(most + 3),
        1 => least.saturating_sub(1),
        2 | 3 => least + r.below(most - least + 1),
        _ => most + r.below(3),
    }
}

/// The given fill and iterations: mostly ones that layout refuses.
fn unread(r: &mut Random, o: &mut Options) {
    o.fill = r.pick(&[0.45, 0.0, -1.0, 17.0, f64::NAN, f64::INFINITY, 1.0 / 64.0]);
    o.iterations = r.pick(&[0, 10, 100, 101, i64::from(u32::MAX)]);
}

pub fn fill_call(seed: u64, case: u64, most: usize, kind: Kind) -> Call {
    let mut r = Random::new(seed, !case);
    let mut call = base(&mut r, seed, case, most, kind);
    let room = piece_room(&mut r, &call);
    (call.lent.pieces, call.lent.branches) = (4 * room + r.below(4), room + r.below(2));
    if r.one_in(3) {
        (call.lent.pieces, call.lent.branches) = (4 * (room + 1), room);
    }
    unread(&mut r, &mut call.options);
    call
}
