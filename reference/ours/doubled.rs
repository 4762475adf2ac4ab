//! Doubling (docs/RULES.md): networks that meet its premises, most of them near an edge of one, drawn and drawn with every coordinate
//! scaled by 2^k. The original's two drawings are compared bit for bit, and ours with the original's in both calls.
#[path = "../../target/reference/tx_schematic.rs"]
mod tx_schematic;

#[path = "../oracle/audit.rs"]
mod audit;
#[path = "../oracle/detours.rs"]
mod detours;
#[path = "../oracle/extremes.rs"]
mod extremes;
#[path = "../oracle/calls.rs"]
mod calls;
#[path = "../oracle/fill.rs"]
mod fill;
#[path = "../oracle/gaps.rs"]
mod gaps;
#[path = "../oracle/hypot.rs"]
mod hypot;
#[path = "../oracle/judge.rs"]
mod judge;
#[path = "../oracle/layout.rs"]
mod layout;
#[path = "../oracle/mesh.rs"]
mod mesh;
#[path = "../oracle/neighbours.rs"]
mod neighbours;
#[path = "../oracle/network.rs"]
mod network;
#[path = "../oracle/random.rs"]
mod random;
#[path = "../oracle/request.rs"]
mod request;
#[path = "../second/mod.rs"]
mod second;
#[path = "../oracle/witness.rs"]
mod witness;
#[path = "../oracle/words.rs"]
mod words;

mod layouts;
mod library;
mod lists;

/// Stress seeding is no part of the rules, so it is left out here.
mod stress {
    pub fn sparse_stress(_: usize, _: &[(usize, usize)]) -> Vec<(f64, f64)> {
        panic!("stress seeding is left out")
    }
}

use calls::{layout_call, Call, Kind};
use layout::Lent;
use network::{Mesh, Network, Options};
use random::Random;
use std::collections::BTreeMap;
use tx_schematic::TxLayout;

const LIMIT: f64 = 1e12;
const SIXTY_FOURTH: f64 = 1.0 / 64.0;

/// 2^-500, the least size of a coordinate that isn't 0.
fn least() -> f64 {
    0.5f64.powi(500)
}

fn power(k: u32) -> f64 {
    2f64.powi(k as i32)
}

fn with_sign(r: &mut Random, x: f64) -> f64 {
    if r.one_in(2) { x } else { -x }
}

/// A number a few steps of the format from x.
fn beside(r: &mut Random, x: f64) -> f64 {
    f64::from_bits(x.to_bits().wrapping_add_signed(r.within(-3, 3)))
}

/// A coordinate near an edge of the premises, or between them.
fn coordinate(r: &mut Random, style: usize, top: f64, base: f64) -> f64 {
    let x = match style {
        0 => r.within(-4, 4) as f64,
        1 => least() * r.pick(&[0.0, 1.0, 1.0, 2.0, 3.0, 1e3, 1e9]),
        2 => top * r.pick(&[1.0, 1.0, 0.5, 0.0]) - r.below(3) as f64 * top * f64::EPSILON,
        3 => r.exponent(523, 1023 + top.log2() as i64 - 1),
        4 => beside(r, base),
        _ => r.pick(&[0.0, -0.0, least(), least().next_up(), top, top.next_down(), 1.0, 0.1]),
    };
    with_sign(r, x)
}

fn point(r: &mut Random, style: usize, top: f64, base: f64) -> [f64; 2] {
    let mut both = [coordinate(r, style, top, base), coordinate(r, style, top, base)];
    if r.one_in(25) {
        // a bus without a map point counts as (0, 0); the other coordinate is free
        both[1] = r.pick(&[1.5e308, 5e-324, f64::NAN, 1e300]);
        both[0] = r.pick(&[f64::NAN, f64::INFINITY, f64::NEG_INFINITY]);
        if r.one_in(2) {
            both.swap(0, 1);
        }
    }
    both
}

fn changed_options(r: &mut Random, o: &mut Options) {
    o.iterations = 0;
    o.fill = r.pick(&[SIXTY_FOURTH, SIXTY_FOURTH.next_up(), 0.45, 0.45, 1.0, 16.0, 16.0]);
    o.radius = r.pick(&[0.0, -0.0, SIXTY_FOURTH, SIXTY_FOURTH.next_up(), 3.0, 3.0, 1000.0]);
    o.scales = [r.pick(&[SIXTY_FOURTH, 2.0 / 3.0, 1.0]), r.pick(&[SIXTY_FOURTH, 4.0 / 9.0, 1.0])];
    o.search = r.pick(&[0, 1, 10, 10, 20]);
    if r.one_in(60) {
        // refused by 5 in both calls
        match r.below(4) {
            0 => o.fill = r.pick(&[16.0f64.next_up(), f64::INFINITY]),
            1 => o.radius = 1000.5,
            2 => o.scales[0] = r.pick(&[0.0, f64::NAN, 1.5]),
            _ => o.search = r.pick(&[-1, 21]),
        }
    }
}

/// Lists that just suffice, or a little longer; now and then one is too short, in both calls.
fn lent(r: &mut Random, net: &Network, pieces: usize) -> Lent {
    let (n, m, k) = (net.sub.len(), net.from.len(), net.stations());
    let more = if r.one_in(2) { 4 } else { 1 };
    let mut lent = Lent {
        positions: 2 * n + r.below(more),
        bars: 4 * n + r.below(more),
        boxes: 4 * k + r.below(more),
        scales: k + r.below(more),
        roles: m + r.below(more),
        pieces: 4 * pieces + r.below(more),
        branches: pieces + r.below(more),
        crossings: 0,
        work_short: r.one_in(80),
    };
    match r.below(80) {
        0 => lent.positions = (2 * n).saturating_sub(1),
        1 => lent.roles = m.saturating_sub(1),
        2 => lent.pieces = (4 * pieces).saturating_sub(1),
        3 => lent.branches = pieces.saturating_sub(1),
        _ => {}
    }
    lent
}

/// The seeds of the occupied stations (docs/RULES.md, 'Seeds').
fn seeds(net: &Network) -> Vec<(f64, f64)> {
    let seed = |&s: &usize| {
        let buses = (0..net.sub.len()).filter(|&i| net.sub[i] as usize == s);
        let points: Vec<(f64, f64)> = buses.map(|i| net.point(i).unwrap_or((0.0, 0.0))).collect();
        let sum = points.iter().fold((0.0, 0.0), |a, p| (a.0 + p.0, a.1 + p.1));
        (sum.0 / points.len() as f64, sum.1 / points.len() as f64)
    };
    net.occupied().iter().map(seed).collect()
}

/// Whether the premises of doubling hold, with 2^k for 2.
fn asked(call: &Call, k: u32) -> bool {
    let allowed = |x: f64| (x == 0.0 || x.abs() >= least()) && (x * power(k)).abs() <= LIMIT;
    let points = (0..call.net.sub.len()).filter_map(|i| call.net.point(i));
    let o = &call.options;
    let all = seeds(&call.net);
    o.iterations == 0
        && o.fill >= SIXTY_FOURTH
        && (o.radius == 0.0 || o.radius >= SIXTY_FOURTH)
        && points.into_iter().all(|(x, y)| allowed(x) && allowed(y))
        && all.iter().any(|p| p != &all[0])
}

/// The first call that meets the premises, and its power of two, among those of a case's stream.
fn case(seed: u64, case: u64, most: usize) -> (Call, u32) {
    let mut r = Random::new(!seed, case);
    for attempt in 0.. {
        let mut call = layout_call(seed, case + (attempt << 40), most, Kind::Straight);
        let k = r.pick(&[1, 1, 1, 2, 3, 7, 40]);
        let (style, top) = (r.below(6), LIMIT / power(k));
        let base = r.pick(&[1.0, 0.3, least() * 1e10, top * 0.75]);
        call.net.xy = (0..call.net.sub.len()).flat_map(|_| point(&mut r, style, top, base)).collect();
        if r.one_in(30) {
            call.net.xy.truncate(r.below(2 * call.net.sub.len()));
        } else if r.one_in(30) {
            // numbers past those of the buses are not looked at
            call.net.xy.extend([5e-324, 1e300]);
        }
        changed_options(&mut r, &mut call.options);
        let drawn = layout::layout(&call.net, &call.options, &call.mesh, &Lent::ample());
        call.lent = lent(&mut r, &call.net, drawn.map_or(0, |d| d.segment_edge.len()));
        if asked(&call, k) {
            return (call, k);
        }
    }
    unreachable!()
}

/// The call with every coordinate times 2, k times.
fn scaled(call: &Call, k: u32) -> Call {
    let mut other = call.clone();
    for _ in 0..k {
        other.net.xy.iter_mut().for_each(|x| *x *= 2.0);
    }
    other
}

fn answer(call: &Call) -> Result<TxLayout, u32> {
    layout::layout(&call.net, &call.options, &call.mesh, &call.lent)
}

fn number(answer: &Result<TxLayout, u32>) -> u32 {
    answer.as_ref().err().copied().unwrap_or(0)
}

/// What isn't scaled by 2^k in the second of two drawings, bit for bit.
fn unlike(a: &TxLayout, b: &TxLayout, k: u32) -> Vec<String> {
    let mut wrong = Vec::new();
    let mut list = |name: &str, x: &[f64], y: &[f64], by: f64| {
        let same = x.len() == y.len() && x.iter().zip(y).all(|(x, y)| (x * by).to_bits() == y.to_bits());
        if !same {
            wrong.push(format!("{name}: {x:?} and {y:?}"));
        }
    };
    let by = power(k);
    list("unit", &[a.unit], &[b.unit], by);
    list("bounds", &a.bounds, &b.bounds, by);
    list("positions", &a.positions, &b.positions, by);
    list("bars", &a.busbars, &b.busbars, by);
    list("boxes", &a.boxes, &b.boxes, by);
    list("pieces", &a.segments, &b.segments, by);
    list("scales", &a.scale, &b.scale, 1.0);
    if a.role != b.role || a.segment_edge != b.segment_edge {
        wrong.push("roles or branches".to_string());
    }
    wrong
}

/// What is wrong with a pair of calls: the original's two answers against each other, and ours against them.
fn wrong(call: &Call, k: u32, salt: u64) -> (u32, Vec<String>) {
    let other = scaled(call, k);
    let (a, b) = (answer(call), answer(&other));
    let mut wrong = match (&a, &b) {
        (Ok(a), Ok(b)) => unlike(a, b, k),
        _ if number(&a) == number(&b) => Vec::new(),
        _ => vec![format!("answers {} and {}", number(&a), number(&b))],
    };
    wrong.extend(layouts::wrong(call, &a, salt));
    wrong.extend(layouts::wrong(&other, &b, !salt));
    (number(&a), wrong)
}

fn lone(sub: &[u32], xy: &[f64]) -> Call {
    let net = Network { sub: sub.to_vec(), kv: vec![110f64.to_bits(); sub.len()], xy: xy.to_vec(), ..Default::default() };
    let options = Options { iterations: 0, ..Options::defaults() };
    let lent = lent(&mut Random::new(0, 0), &net, 0);
    Call { net, options, mesh: Mesh::default(), lent: Lent { work_short: false, ..lent } }
}

/// Without a premise the claim is false: inputs on which the two calls differ (docs/RULES.md, 'Doubling').
fn needed() {
    let cases = [
        ("a coordinate below 2^-500", lone(&[0, 1], &[0.0, 0.0, 2e-323, 0.0])),
        ("one seed only", lone(&[0], &[1.0, 1.0])),
    ];
    for (name, call) in cases {
        let (_, wrong) = wrong(&call, 1, 0);
        assert!(!wrong.is_empty(), "{name}: nothing differs");
        println!("without the premise, {name}: {}", wrong[0]);
    }
}

fn main() {
    let words: Vec<u64> = std::env::args().skip(1).map(|w| w.parse().expect("a number")).collect();
    let [seed, count, most] = words[..] else { panic!("usage: doubled SEED COUNT BUSES") };
    needed();
    let (mut compared, mut panicked, mut differ) = (0, 0, 0);
    let mut answers: BTreeMap<u32, usize> = BTreeMap::new();
    for i in 0..count {
        let pair = std::thread::spawn(move || {
            let (call, k) = case(seed, i, most as usize);
            let (number, wrong) = wrong(&call, k, seed ^ i << 20);
            (call, k, number, wrong)
        });
        let Ok((call, k, number, wrong)) = pair.join() else {
            panicked += 1;
            continue;
        };
        compared += 1;
        *answers.entry(number).or_default() += 1;
        if !wrong.is_empty() {
            differ += 1;
            if differ == 1 {
                println!("case {i}, scaled by 2^{k}:\n{}  {}", call.text(), wrong.join("\n  "));
            }
        }
    }
    println!("compared {compared} pairs of calls, differ {differ}; left out: {panicked} where the original panics");
    for (number, times) in answers {
        println!("  answer {number}: {times}");
    }
    std::process::exit(i32::from(differ > 0));
}
