//! Inputs for `drawlist` of many kinds, from a seed: networks as text, and malformed text.
use std::io::{stdout, BufWriter, Write};

use crate::drawlist::{BRANCH_NAMES, BUS_NAMES};
use crate::random::{Random, EDGES};
use crate::request::CLOSE;
use crate::words::hex;

/// How the points of a network lie.
#[derive(Clone, Copy)]
enum Points {
    Grid,
    Real,
    Few,
    Far,
    Tiny,
    Wide,
    Edge,
    /// Means that round to -0.
    Zero,
    /// Boxes of spacing 1 whose corners are about 2^40 sides away.
    Limit,
}
use Points::*;

fn point(r: &mut Random, kind: Points, scale: f64, pool: &[(f64, f64)]) -> (f64, f64) {
    let mut both = |f: &dyn Fn(&mut Random) -> f64| (f(r), f(r));
    match kind {
        Grid => both(&|r| r.within(-3, 3) as f64 * scale),
        Real => both(&|r| (r.unit() - 0.5) * 2000.0),
        Few => r.pick(pool),
        Far => {
            let (x, y) = r.pick(pool);
            let step = 1e10 * scale * 0.5f64.powi(r.within(20, 56) as i32);
            (x * 1e10 + r.within(-4, 4) as f64 * step, y * 1e10 + r.within(-4, 4) as f64 * step)
        }
        Tiny => both(&|r| if r.one_in(2) { f64::from_bits(r.within(0, 40) as u64) } else { r.exponent(0, 60) }),
        Wide => both(&|r| r.exponent(0, 1062)),
        Edge => both(&|r| match r.below(4) {
            0 => f64::from_bits(r.pick(&EDGES)),
            1 => r.pick(&[1e12, -1e12, 1e12f64.next_up(), 1e-20, -5e-324]),
            _ => r.within(-2, 2) as f64,
        }),
        Zero => (r.within(0, 3) as f64, r.pick(&[0.0, -0.0, -5e-324])),
        Limit => {
            let (x, y) = pool[0];
            let far = (1u64 << 39) as f64 + x.abs() * 0.125 - 0.5;
            (far.copysign(x), y)
        }
    }
}

fn voltage(r: &mut Random, odd: bool) -> u64 {
    match r.below(if odd { 60 } else { 1200 }) {
        0 => r.pick(&EDGES),
        1 if odd => 0x7FF0_0000_0000_0001 + r.below(3) as u64 | (r.below(2) as u64) << 63,
        2 => 0,
        _ => f64::to_bits(r.pick(&[110.0, 110.0, 220.0, 380.0, 13.8, 5e-324, f64::MAX])),
    }
}

/// Decimal digits, now and then with zeros before them, and a minus before a zero where the field is signed.
fn digits(r: &mut Random, value: i128, signed: bool) -> String {
    let minus = if value < 0 || signed && value == 0 && r.one_in(30) { "-" } else { "" };
    let zeros = if r.one_in(60) { "0".repeat(1 + r.below(30)) } else { String::new() };
    format!("{minus}{zeros}{}", value.abs())
}

fn stations(r: &mut Random, n: usize) -> Vec<i128> {
    let groups = 1 + r.below(n);
    let scheme = r.below(4);
    let number = |i: usize, r: &mut Random| match scheme {
        0 => i,
        1 => r.below(n),
        2 => r.below(groups),
        _ => n - 1 - r.below(groups),
    };
    let mut all: Vec<i128> = (0..n).map(|i| number(i, r) as i128).collect();
    if n > 0 && r.one_in(80) {
        let i = r.below(n);
        all[i] = r.pick(&[n as i128, n as i128 + 1, u32::MAX.into()]);
    }
    all
}

fn end(r: &mut Random, n: usize) -> i128 {
    if n > 0 && !r.one_in(12) {
        return r.below(n) as i128;
    }
    r.pick(&[-1, n as i128, n as i128 + 1, -2, 4096, i64::MIN.into(), i64::MAX.into(), 1 << 32])
}

fn network(r: &mut Random, n: usize, m: usize, kind: Points, odd: bool) -> Vec<String> {
    let scale = r.pick(&[1.0, 0.25, 0.1, 3.0, 1e-9, 1e6]);
    let pool: Vec<(f64, f64)> =
        (0..1 + r.below(3)).map(|_| (r.within(-9, 9) as f64, r.within(-9, 9) as f64)).collect();
    let mut lines = vec![BUS_NAMES.to_string()];
    for station in stations(r, n) {
        let kind = if odd && r.one_in(12) { Edge } else { kind };
        let (x, y) = point(r, kind, scale, &pool);
        let station = digits(r, station, false);
        let kv = hex(voltage(r, odd));
        lines.push(format!("{station} {kv} {} {}", hex(x.to_bits()), hex(y.to_bits())));
    }
    lines.push(BRANCH_NAMES.to_string());
    for _ in 0..m {
        let from = end(r, n);
        let to = if r.one_in(25) { from } else { end(r, n) };
        let live = match r.below(8) {
            0 | 1 => 0,
            2 => r.below(256) as i128,
            _ => 1,
        };
        lines.push(format!("{} {} {}", digits(r, from, true), digits(r, to, true), digits(r, live, false)));
    }
    lines
}

/// One slip in otherwise good text; now and then the text stays good.
fn malformed(r: &mut Random) -> Vec<u8> {
    let (n, m) = (r.below(5), r.below(5));
    let mut lines = network(r, n, m, Grid, false);
    let at = r.below(lines.len());
    let word = |r: &mut Random, line: &str, new: &dyn Fn(&str) -> String| {
        let mut words: Vec<String> = line.split(' ').map(str::to_string).collect();
        let i = r.below(words.len());
        words[i] = new(&words[i]);
        words.join(" ")
    };
    let outside = r.pick(&[
        "4294967296", "4294967295", "9223372036854775808", "9223372036854775807", "-9223372036854775809",
        "-9223372036854775808", "256", "255", "-1", "-0", "-", "--1", "1e3", "1.0", "0x1", "", "18446744073709551616",
    ]);
    match r.below(24) {
        0 => lines[at] = word(r, &lines[at], &|w| w.to_string() + " "),
        1 => lines[at] = word(r, &lines[at], &|w| " ".to_string() + w),
        2 => lines[at] = word(r, &lines[at], &|w| w.to_lowercase()),
        3 => lines[at] = word(r, &lines[at], &|w| "+".to_string() + w),
        4 => lines[at] = word(r, &lines[at], &|w| "-".to_string() + w),
        5 => lines[at] = word(r, &lines[at], &|w| w.to_string() + " 0"),
        6 => lines[at] = word(r, &lines[at], &|w| w.to_string() + "\t"),
        7 => lines[at] = word(r, &lines[at], &|w| w.to_string() + "0"),
        8 => lines[at] = word(r, &lines[at], &|w| w.chars().skip(1).collect()),
        9 => lines[at] = word(r, &lines[at], &|w| w.replace('0', "a")),
        10 => lines[at] = word(r, &lines[at], &|w| w.to_uppercase()),
        11..=13 => lines[at] = word(r, &lines[at], &|_| outside.to_string()),
        14 => lines[at] = lines[at].rsplit_once(' ').map_or("", |p| p.0).to_string(),
        15 => lines[at] = lines[at].clone() + "\r",
        16 => drop(lines.remove(at)),
        17 => lines.insert(at, lines[at].clone()),
        18 => lines.push(String::new()),
        19 => lines = network(r, 65, 1, Grid, false),
        20 => lines = network(r, 1, 65, Grid, false),
        _ => {}
    }
    let mut text = joined(&lines);
    let at = r.below(text.len());
    match r.below(10) {
        0 => drop(text.pop()),
        1 => drop(text.remove(at)),
        2 => text.insert(at, r.next() as u8),
        3 => text[at] = r.next() as u8,
        4 => text[at] = r.pick(b" \n\r\t0-+AaFf9\0"),
        5 if r.one_in(4) => text.truncate(at),
        6 if r.one_in(4) => text.clear(),
        _ => {}
    }
    text
}

fn joined(lines: &[String]) -> Vec<u8> {
    (lines.join("\n") + "\n").into_bytes()
}

/// Case number `case` of a class.
pub fn case(seed: u64, case: u64, class: &str) -> Vec<u8> {
    let mut r = Random::new(seed, case);
    let class = match class {
        "any" => r.pick(&["small", "small", "small", "grid", "grid", "odd", "far", "malformed", "large"]),
        named => named,
    };
    let (buses, branches) = match class {
        "large" => (r.below(65), r.below(65)),
        _ => (r.below(9), r.below(13)),
    };
    let lines = match class {
        "malformed" => return malformed(&mut r),
        "small" | "large" => {
            let kind = r.pick(&[Grid, Grid, Real, Few]);
            network(&mut r, buses, branches, kind, false)
        }
        "grid" => network(&mut r, buses, branches, Grid, false),
        "far" => {
            let kind = r.pick(&[Far, Far, Tiny, Wide, Limit]);
            network(&mut r, buses, branches, kind, false)
        }
        "odd" => {
            let kind = r.pick(&[Grid, Few, Edge, Tiny, Zero]);
            network(&mut r, buses, branches, kind, true)
        }
        other => panic!("no class {other}"),
    };
    joined(&lines)
}

pub fn generate(seed: u64, count: u64, class: &str) {
    let mut out = BufWriter::new(stdout());
    for i in 0..count {
        out.write_all(&case(seed, i, class)).expect("standard output");
        writeln!(out, "{CLOSE}").expect("standard output");
    }
}
