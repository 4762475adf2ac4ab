//! Networks to measure on: where the stations stand, and which of them lines join. Every second station has two voltages where buses allow it.
use crate::network::Network;
use crate::random::Random;

/// Where stations stand, and whether lines join near ones or any two.
#[derive(Clone, Copy)]
pub enum Kind {
    /// Scattered evenly over a square; a line joins a station and one of the eight nearest.
    Near,
    /// The same places; a line joins any two.
    Far,
    /// On one straight line, evenly; any two.
    Line,
    /// On a square lattice; any two.
    Lattice,
    /// All on one seed; any two.
    One,
    /// By turns on two seeds; any two.
    Two,
}

pub const KINDS: [(&str, Kind); 6] = [
    ("near", Kind::Near),
    ("far", Kind::Far),
    ("line", Kind::Line),
    ("lattice", Kind::Lattice),
    ("one", Kind::One),
    ("two", Kind::Two),
];

/// The same numbers in every run, of at most half this size.
pub fn numbers(count: usize, size: f64) -> Vec<f64> {
    let mut r = Random::new(1, 1);
    (0..count).map(|_| (r.unit() - 0.5) * size).collect()
}

/// One and two seeds stand on and beside the origin: elsewhere the original doesn't end.
fn place(r: &mut Random, kind: Kind, s: usize, stations: usize) -> (f64, f64) {
    let across = (stations as f64).sqrt();
    let (size, side) = (across * 10_000.0, across.ceil() as usize);
    match kind {
        Kind::Near | Kind::Far => (r.unit() * size, r.unit() * size),
        Kind::Line => (s as f64 * 10_000.0, 0.0),
        Kind::Lattice => ((s % side) as f64 * 10_000.0, (s / side) as f64 * 10_000.0),
        Kind::One => (0.0, 0.0),
        Kind::Two => ((s % 2) as f64, 0.0),
    }
}

/// The stations near one, nearest first.
fn near(places: &[(f64, f64)], s: usize) -> Vec<usize> {
    let mut others: Vec<usize> = (0..places.len()).filter(|&t| t != s).collect();
    let distance = |t: usize| (places[t].0 - places[s].0).powi(2) + (places[t].1 - places[s].1).powi(2);
    others.sort_by(|&a, &b| distance(a).total_cmp(&distance(b)));
    others.truncate(8);
    others
}

/// A line's two stations.
fn joined(r: &mut Random, kind: Kind, places: &[(f64, f64)]) -> (usize, usize) {
    let s = r.below(places.len());
    if let Kind::Near = kind {
        let list = near(places, s);
        return (s, list[r.below(list.len())]);
    }
    (s, (s + 1 + r.below(places.len() - 1)) % places.len())
}

pub fn network(kind: Kind, stations: usize, branches: usize) -> Network {
    let mut r = Random::new(2, stations as u64);
    let places: Vec<(f64, f64)> = (0..stations).map(|s| place(&mut r, kind, s, stations)).collect();
    let second = (stations / 2).min(4096 - stations);
    let mut net = Network::default();
    for s in 0..stations + second {
        let (place, kv) = if s < stations { (s, 220.0) } else { (2 * (s - stations), 110.0) };
        net.sub.push(place as u32);
        net.kv.push(f64::to_bits(kv));
        net.xy.extend([places[place].0, places[place].1]);
    }
    for e in 0..branches {
        let (a, b) = if e < second { (2 * e, stations + e) } else { joined(&mut r, kind, &places) };
        net.from.push(a as i64);
        net.to.push(b as i64);
        net.live.push(u8::from(!r.one_in(20)));
    }
    net
}
