//! Calls whose lines have boxes in their way, from a seed: stations of different widths and heights side by side across lines,
//! most of them without a mesh; at extreme scales and far from the origin too; unoccupied stations, boxes that overlap.
use crate::gaps::Gaps;
use crate::network::{Network, Options};
use crate::random::Random;

/// How many buses a station has and how many branches inside it: wide, tall, both, or neither.
fn inside(r: &mut Random, left: usize) -> (usize, usize) {
    let (buses, branches) = match r.below(5) {
        0 => (1, 0),
        1 => (2, 3 + r.below(30)),
        2 => (2 + r.below(8), 0),
        3 => (2 + r.below(4), r.below(12)),
        _ => (2, r.below(6)),
    };
    (buses.min(left), branches)
}

/// What all coordinates are multiplied by: extreme in one network of three.
fn scale(r: &mut Random) -> f64 {
    if !r.one_in(3) {
        return r.pick(&[1.0, 1.0, 0.1, 1e3]);
    }
    match r.below(4) {
        0 => 2f64.powi(r.within(-1040, -900) as i32),
        1 => 2f64.powi(r.within(-560, -250) as i32),
        2 => 2f64.powi(r.within(10, 34) as i32),
        _ => 1e-9,
    }
}

/// A station's buses, all at one point.
fn station(net: &mut Network, buses: usize, number: u32, kv: f64, x: f64, y: f64) {
    for _ in 0..buses {
        net.sub.push(number);
        net.kv.push(f64::to_bits(kv));
        net.xy.extend([x, y]);
    }
}

fn branch(net: &mut Network, from: usize, to: usize) {
    net.from.push(from as i64);
    net.to.push(to as i64);
    net.live.push(1);
}

/// A row of stations at y = 0 round the origin, three lines between the first and the last: the second of them runs at y = 0,
/// so through the zero boxes of unoccupied stations. Other stations stand in its way.
fn through_origin(r: &mut Random) -> Network {
    let scale = scale(r);
    let mut net = Network::default();
    station(&mut net, 1, 1, 110.0, (-4.0 - r.unit()) * scale, 0.0);
    station(&mut net, 1, 3, 110.0, (4.0 + r.unit()) * scale, 0.0);
    station(&mut net, 3 + r.below(5), 4, 110.0, r.pick(&[-2.0, -1.5, 1.5, 2.0]) * scale, 0.0);
    for i in 0..2 + r.below(6) {
        let (x, y) = (r.within(-3, 3) as f64 + 0.5, r.pick(&[1.0, 2.0, -2.0, 0.0]));
        station(&mut net, 1, 5 + i as u32, 110.0, x * scale, y * scale);
    }
    (0..3).for_each(|_| branch(&mut net, 0, 1));
    (0..r.below(12)).for_each(|_| branch(&mut net, 2, 3));
    net
}

/// Stations in rows, near the points of a lattice. Their first buses.
fn lattice(r: &mut Random, net: &mut Network, n: usize, rows: usize, skew: f64) -> Vec<usize> {
    let narrow = r.pick(&[1.0, 1.0, 0.5, 0.1, 0.0]);
    let shaken = r.pick(&[0.0, 0.0, 0.1, 0.4]);
    let mut numbers: Vec<u32> = (0..n as u32).collect();
    if !r.one_in(3) {
        (1..n).rev().for_each(|i| numbers.swap(i, r.below(i + 1)));
    }
    let mut firsts: Vec<usize> = Vec::new();
    while net.sub.len() < n {
        let first = net.sub.len();
        let (buses, branches) = inside(r, n - first);
        let (s, i) = (firsts.len(), firsts.len() / rows);
        let x = i as f64 + shaken * (r.unit() - 0.5);
        let y = (s % rows) as f64 * narrow + skew * i as f64 + shaken * (r.unit() - 0.5);
        station(net, buses, numbers[s], r.pick(&[110.0, 110.0, 220.0, 380.0]), x, y);
        for _ in 0..if buses > 1 { branches } else { 0 } {
            let (a, b) = (r.below(buses), r.below(buses - 1));
            branch(net, first + a, first + (a + 1 + b) % buses);
        }
        firsts.push(first);
    }
    firsts
}

/// All points round the origin or from it on, multiplied, and perhaps moved far away.
fn moved(r: &mut Random, net: &mut Network, columns: usize, skew: f64) {
    let scale = scale(r);
    let middle = if r.one_in(2) { columns as f64 / 2.0 } else { 0.0 };
    let away = if r.one_in(6) { r.pick(&[1e3, -1e7, 3e9]) * scale } else { 0.0f64 };
    let away = if away.abs() < 1e11 { away } else { 0.0 };
    for (i, x) in net.xy.iter_mut().enumerate() {
        *x = (*x - if i % 2 == 0 { middle } else { middle * skew }) * scale + away;
    }
}

/// Stations in rows; lines mostly between the first and the last of a row, some between any two.
pub fn network(r: &mut Random, most: usize) -> Network {
    if most >= 16 && r.one_in(8) {
        return through_origin(r);
    }
    let n = most.min(6 + r.below(most.max(7) - 5));
    let (rows, skew) = (1 + r.below(3), r.pick(&[0.0, 0.0, 0.3, -1.0]));
    let mut net = Network::default();
    let firsts = lattice(r, &mut net, n, rows, skew);
    let count = firsts.len();
    moved(r, &mut net, count / rows, skew);
    for _ in 0..1 + r.below(4 + count) {
        let outer = rows.min(count);
        let any = r.one_in(3);
        let (a, b) = if any { (r.below(count), r.below(count)) } else { (r.below(outer), count - 1 - r.below(outer)) };
        let (a, b) = if r.one_in(2) { (a, b) } else { (b, a) };
        branch(&mut net, firsts[a], firsts[b]);
    }
    net.live.iter_mut().for_each(|live| *live = u8::from(!r.one_in(15)));
    net
}

pub fn options(r: &mut Random, gaps: Gaps) -> Options {
    let least = 1.0 / 64.0;
    Options {
        fill: r.pick(&[0.2, 0.45, 0.45, 0.8, 1.5, 3.0, 8.0]),
        radius: r.pick(&[0.0, 1.0, 3.0]),
        counts: r.pick(&[[12, 30], [12, 30], [1, 2], [2, 4], [0, 3]]),
        scales: r.pick(&[[2.0 / 3.0, 4.0 / 9.0], [2.0 / 3.0, 4.0 / 9.0], [0.5, 1.0], [1.0, 0.25], [least, 1.0]]),
        search: r.pick(&[0, 0, 0, 1, 3, 10]),
        iterations: r.pick(&[1, 1, 2, 10, 100]),
        gaps,
    }
}
