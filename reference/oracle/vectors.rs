//! Single calls of the original's private functions, one a line: a name, then arguments and result as 16 hexadecimal digits.
//!
//!   hit px py qx qy left top right bottom r           segment_hits_box
//!   crs px py qx qy ax ay bx by r                     segments_cross
//!   par px py qx qy ux uy wx wy kind t                line_param; kind 1 at t, 0 parallel
//!   chn ux uy wx wy bu0..bu3 bw0..bw3 su sw gap lo hi g   channel
//!   spa lo hi gap n w0.. t0..                         space; the place of each wish
//!   ovl b0..b3 o0..o3 r                               strict overlap of two boxes
//!   nea n x0 y0 .. d0 ..                              nearest neighbours
//!   wit n radius x0 y0 .. c0 ..                       near neighbours
//!   med n v0.. kind m                                 median; kind 0 none
//!
//! Left out: arguments on which the original's clamp panics, and NaNs that its maximum and minimum drop where those of docs/RULES.md
//! keep them.
use crate::audit::overlap;
use crate::random::{Random, EDGES};
use crate::tx_schematic::inside::{self, P};
use crate::words::{float, hex, line};

/// How the numbers of one call are drawn: plain ones, on few values so that they meet, of any size, or at the format's edges.
#[derive(Clone, Copy)]
enum Kind {
    Half,
    Real,
    Huge,
    Small,
    Mixed,
    Edge,
}
use Kind::*;

const FINITE: [Kind; 6] = [Half, Half, Real, Huge, Small, Mixed];
const ALL: [Kind; 7] = [Half, Half, Real, Huge, Small, Mixed, Edge];

fn number(r: &mut Random, kind: Kind) -> f64 {
    match kind {
        Half => r.within(-4, 4) as f64 * r.pick(&[0.5, 1.0, -0.0]),
        Real => (r.unit() - 0.5) * 10.0,
        Huge => r.exponent(0x7D0, 0x7FE),
        Small => r.exponent(0, 3),
        Mixed => match r.below(4) {
            0 => r.exponent(0, 0x7FE),
            1 => r.pick(&[0.0, -0.0, 1.0, -1.0]),
            2 => r.exponent(0x3E0, 0x41F),
            _ => (r.unit() - 0.5) * 4.0,
        },
        Edge if r.one_in(2) => f64::from_bits(r.pick(&EDGES)),
        Edge => r.within(-2, 2) as f64,
    }
}

fn numbers(r: &mut Random, kinds: &[Kind], count: usize) -> Vec<f64> {
    let kind = r.pick(kinds);
    (0..count).map(|_| number(r, kind)).collect()
}

fn points(list: &[f64]) -> Vec<P> {
    list.chunks(2).map(|p| (p[0], p[1])).collect()
}

/// A box with its sides in order, as far as they have one.
fn ordered(b: &mut [f64]) {
    for i in 0..2 {
        if b[i] > b[i + 2] {
            b.swap(i, i + 2);
        }
    }
}

fn words(list: &[f64]) -> Vec<String> {
    list.iter().map(|&x| float(x, false)).collect()
}

fn whole(n: usize) -> String {
    hex(n as u64)
}

fn answer(name: &str, arguments: &[f64], result: Vec<String>) -> String {
    line(name, words(arguments).into_iter().chain(result))
}

fn hit(a: &[f64]) -> String {
    answer("hit", a, vec![whole(inside::hits(&a[..4], &a[4..]).into())])
}

fn crs(a: &[f64]) -> String {
    let p = points(a);
    answer("crs", a, vec![whole(inside::cross(p[0], p[1], p[2], p[3]).into())])
}

fn par(a: &[f64]) -> String {
    let p = points(a);
    let t = inside::param(p[0], p[1], p[2], p[3]);
    answer("par", a, vec![whole(t.is_some().into()), float(t.unwrap_or(0.0), false)])
}

fn chn(a: &[f64]) -> String {
    let (lo, hi, gap) = inside::ends((a[0], a[1]), (a[2], a[3]), &a[4..12], &a[12..14], a[14]);
    answer("chn", a, words(&[lo, hi, gap]))
}

fn spa(lo: f64, hi: f64, gap: f64, wishes: &[f64]) -> String {
    let crowded = wishes.len().saturating_sub(1) as f64 * gap > hi - lo;
    if !crowded && !(lo <= hi) {
        return String::new();
    }
    let placed = inside::places(wishes, lo, hi, gap);
    let mut result = vec![whole(wishes.len())];
    result.extend(words(wishes));
    result.extend(words(&placed));
    answer("spa", &[lo, hi, gap], result)
}

fn ovl(a: &[f64]) -> String {
    answer("ovl", a, vec![whole(overlap(&a[..4], &a[4..]).into())])
}

fn nea(a: &[f64]) -> String {
    let mut result = vec![whole(a.len() / 2)];
    result.extend(words(a));
    result.extend(words(&inside::nearest(&points(a))));
    line("nea", result)
}

fn wit(radius: f64, a: &[f64]) -> String {
    let mut result = vec![whole(a.len() / 2), float(radius, false)];
    result.extend(words(a));
    result.extend(inside::within(&points(a), radius).into_iter().map(whole));
    line("wit", result)
}

fn med(a: &[f64]) -> String {
    let m = inside::middle(a);
    let mut result = vec![whole(a.len())];
    result.extend(words(a));
    result.extend([whole(m.is_some().into()), float(m.unwrap_or(0.0), false)]);
    line("med", result)
}

/// Calls chosen by hand: touching, parallel, without length, at corners, at the ends of a channel.
fn by_hand() -> String {
    let unit = [0.0, 0.0, 1.0, 1.0];
    let segments: [[f64; 4]; 10] = [
        [-1.0, 0.0, 0.0, 0.0],
        [-1.0, 1.0, 1.0, -1.0],
        [-1.0, 2.0, 3.0, -2.0],
        [2.0, 0.0, 2.0, 1.0],
        [0.5, 0.5, 0.5, 0.5],
        [1.0, 1.0, 1.0, 1.0],
        [1.5, 1.5, 1.5, 1.5],
        [-1.0, -0.0, 2.0, -0.0],
        [1.0, -3.0, 1.0, 3.0],
        [-1.0, 1.0f64.next_up(), 2.0, 1.0f64.next_up()],
    ];
    let mut out = hit(&[0.0, 0.0, 1.0, 0.0, 1.0, 0.0, 2.0, 1.0]);
    out += &hit(&[0.0, 0.0, 1.0, 0.0, 1.5, 0.0, 2.0, 1.0]);
    for s in segments {
        out += &hit(&[&s[..], &unit].concat());
        for t in segments {
            out += &crs(&[s, t].concat());
            out += &par(&[s, t].concat());
        }
    }
    for gap in [0.25, 0.5, 0.75] {
        out += &spa(0.0, 1.0, gap, &[0.5; 3]);
    }
    out += &spa(0.25, 0.4, 0.03, &[1.0; 6]);
    out += &spa(0.25, 0.75, 0.5, &[]);
    out += &spa(0.75, 0.25, 0.5, &[0.1]);
    out += &spa(0.75, 0.25, f64::INFINITY, &[0.1, 0.2]);
    out += &spa(0.0, 1.0, 0.0, &[0.0, -0.0, 0.0, -0.0]);
    for right in [-1e-9, 0.0, 5e-324, 1.0, 1.0f64.next_up()] {
        out += &ovl(&[&unit[..], &[right - 1.0, 0.0, right, 1.0]].concat());
    }
    let apart: [&[f64]; 5] = [&[], &[3.0, 4.0], &[27.0, 17.0, 0.0, 0.0], &[1.0; 6], &[0.0, -1e12, -5e-324, 0.0]];
    for a in apart {
        out += &nea(a);
    }
    for radius in [0.0, -0.0, f64::NAN, 5e-324, 1.0, f64::INFINITY] {
        out += &wit(radius, &[-1e-20, 0.0, 1.0, 0.0, 1.0, 0.0]);
    }
    let lists: [&[f64]; 5] = [&[], &[f64::INFINITY, f64::NAN], &[2.0, 1.0], &[0.0, -0.0], &[-0.0, 0.0, -1.0]];
    for a in lists {
        out += &med(a);
    }
    out
}

fn random_hit(r: &mut Random) -> String {
    let mut a = numbers(r, &ALL, 8);
    if !r.one_in(8) {
        ordered(&mut a[4..]);
    }
    // a straight piece, or one that ends on a side or corner of the box
    match r.below(6) {
        0 => a[2] = a[0],
        1 => a[3] = a[1],
        2 => a[2] = a[4],
        3 => (a[2], a[3]) = (a[6], a[7]),
        _ => {}
    }
    hit(&a)
}

fn random_segments(r: &mut Random) -> Vec<f64> {
    let mut a = numbers(r, &ALL, 8);
    // a common end, parallel, without length, an end on the other, the same middle
    match r.below(10) {
        0 => (a[4], a[5]) = (a[0], a[1]),
        1 => (a[6], a[7]) = (a[2], a[3]),
        2 => (a[6], a[7]) = (a[4] + (a[2] - a[0]), a[5] + (a[3] - a[1])),
        3 => (a[6], a[7]) = (a[4], a[5]),
        4 => (a[4], a[5]) = ((a[0] + a[2]) / 2.0, (a[1] + a[3]) / 2.0),
        5..=7 => (a[6], a[7]) = (a[0] + a[2] - a[4], a[1] + a[3] - a[5]),
        _ => {}
    }
    a
}

fn random_chn(r: &mut Random) -> String {
    let mut a = numbers(r, &FINITE, 15);
    for s in [4, 8] {
        ordered(&mut a[s..s + 4]);
    }
    if r.one_in(2) {
        // boxes about the two points, scales and gap as layout has them
        for (u, b) in [(0, 4), (2, 8)] {
            let half = (r.unit(), r.unit());
            (a[b], a[b + 2]) = (a[u] - half.0, a[u] + half.0);
            (a[b + 1], a[b + 3]) = (a[u + 1] - half.1, a[u + 1] + half.1);
        }
        a[12] = r.pick(&[1.0, 2.0 / 3.0, 4.0 / 9.0]);
        a[13] = r.pick(&[1.0, 2.0 / 3.0, 4.0 / 9.0]);
        a[14] = r.unit();
    }
    if r.one_in(6) {
        a[2] = a[0];
    }
    chn(&a)
}

fn random_spa(r: &mut Random) -> String {
    let n = r.below(13);
    let (mut lo, mut hi) = (r.unit(), r.unit());
    if lo > hi && !r.one_in(20) {
        (lo, hi) = (hi, lo);
    }
    match r.below(10) {
        0 => lo = r.pick(&[0.0, -0.0]),
        1 => hi = lo,
        2 => (lo, hi) = (number(r, Mixed), number(r, Mixed)),
        _ => {}
    }
    let gap = match r.below(8) {
        0 => r.pick(&[0.0, -0.0, -0.1, f64::INFINITY, f64::NAN, 5e-324]),
        1 => (hi - lo) / n.max(2) as f64,
        2 => (hi - lo) / (n.max(2) - 1) as f64,
        _ => r.unit() * 0.2,
    };
    let kind = r.below(4);
    let wish = |r: &mut Random| match kind {
        0 => r.pick(&[0.0, -0.0, lo, hi, 1.0, 0.5]),
        1 => lo + (hi - lo) * r.unit(),
        2 => r.within(0, 4) as f64 / 4.0,
        _ => r.unit(),
    };
    let wishes: Vec<f64> = (0..n).map(|_| wish(r)).collect();
    spa(lo, hi, gap, &wishes)
}

fn random_ovl(r: &mut Random) -> String {
    let mut a = numbers(r, &ALL, 8);
    if !r.one_in(6) {
        ordered(&mut a[..4]);
        ordered(&mut a[4..]);
    }
    if r.one_in(4) {
        let i = r.below(2);
        a[4 + i] = a[2 + i];
    }
    ovl(&a)
}

fn random_points(r: &mut Random) -> Vec<f64> {
    let n = r.below(9);
    numbers(r, &ALL, 2 * n)
}

fn random_med(r: &mut Random) -> String {
    let n = r.below(13);
    med(&numbers(r, &ALL, n))
}

fn random_wit(r: &mut Random) -> String {
    let a = random_points(r);
    let radius = match r.below(4) {
        0 if !a.is_empty() => r.pick(&inside::nearest(&points(&a))),
        1 => number(r, Edge),
        2 => r.within(0, 6) as f64 / 2.0,
        _ => number(r, Mixed).abs(),
    };
    wit(radius, &a)
}

pub fn vectors(seed: u64, count: u64) {
    print!("{}", by_hand());
    let makers: [fn(&mut Random) -> String; 9] = [
        random_hit,
        |r| crs(&random_segments(r)),
        |r| par(&random_segments(r)),
        random_chn,
        random_spa,
        random_ovl,
        |r| nea(&random_points(r)),
        random_wit,
        random_med,
    ];
    for (name, make) in makers.into_iter().enumerate() {
        let mut r = Random::new(seed, name as u64);
        let mut made = 0;
        while made < count {
            let text = make(&mut r);
            made += u64::from(!text.is_empty());
            print!("{text}");
        }
    }
}
