//! Measures exported functions beside the original's and plain Rust ones: one process, the same inputs, by turns, in processor time.
//! The original has the platform's `hypot`, and one line that notes whether a station found a free place; a mesh is handed in to
//! both. The largest fill is measured beside the original's layout at all 64 fills.
#[path = "../../target/reference/original.rs"]
mod tx_schematic;

#[path = "../ours/library.rs"]
mod library;
#[path = "../oracle/gaps.rs"]
mod gaps;
#[path = "../oracle/mesh.rs"]
mod mesh;
#[path = "../oracle/network.rs"]
mod network;
#[path = "../oracle/random.rs"]
mod random;

mod calls;
mod networks;

/// Stress seeding is no part of the rules, so it is left out here.
mod stress {
    pub fn sparse_stress(_: usize, _: &[(usize, usize)]) -> Vec<(f64, f64)> {
        panic!("stress seeding is left out")
    }
}

use std::cell::Cell;
use std::hint::black_box;
use std::process::Command;
use std::time::Instant;

/// The nearest distances by a plain loop that compares squared distances.
fn plain(points: &[f64], out: &mut [f64]) {
    let n = points.len() / 2;
    for i in 0..n {
        let (x, y) = (points[2 * i], points[2 * i + 1]);
        let mut best = f64::INFINITY;
        for j in 0..n {
            let (a, b) = (points[2 * j] - x, points[2 * j + 1] - y);
            let d = a * a + b * b;
            if d > 0.0 && d < best {
                best = d;
            }
        }
        out[i] = best.sqrt();
    }
}

thread_local! { static FREE: Cell<bool> = const { Cell::new(true) } }

/// What the original's line notes.
pub fn placed(found: bool) {
    FREE.set(FREE.get() && found);
}

/// Whether every station found a free place in a run of the original.
pub fn all_free<T>(run: impl FnOnce() -> T) -> bool {
    FREE.set(true);
    keep(run());
    FREE.get()
}

/// Takes a result, so that it has to be computed.
pub fn keep<T>(result: T) {
    black_box(result);
}

/// This thread's processor time in seconds: what else runs on the machine does not count.
fn processor_time() -> f64 {
    #[repr(C)]
    struct Time {
        seconds: i64,
        nanoseconds: i64,
    }
    extern "C" {
        fn clock_gettime(clock: i32, time: *mut Time) -> i32;
    }
    const THREAD: i32 = 3;
    let mut t = Time { seconds: 0, nanoseconds: 0 };
    // SAFETY: the time is lent as the C library lays it out on 64-bit Linux.
    unsafe { clock_gettime(THREAD, &mut t) };
    t.seconds as f64 + t.nanoseconds as f64 * 1e-9
}

fn seconds(f: &mut dyn FnMut()) -> f64 {
    let start = processor_time();
    f();
    processor_time() - start
}

fn median(mut list: Vec<f64>) -> f64 {
    list.sort_by(f64::total_cmp);
    list[list.len() / 2]
}

/// Medians of both, run by turns for so many seconds and at least five times each, three times where both together take longer than a second.
fn by_turns(time: f64, ours: &mut dyn FnMut(), theirs: &mut dyn FnMut()) -> (f64, f64) {
    let (mut a, mut b) = (Vec::new(), Vec::new());
    let long = seconds(ours) + seconds(theirs) > 1.0;
    let start = Instant::now();
    while a.len() < if long { 3 } else { 5 } || a.len() < 2001 && start.elapsed().as_secs_f64() < time {
        a.push(seconds(ours));
        b.push(seconds(theirs));
    }
    (median(a), median(b))
}

fn shown(what: &str, (ours, theirs): (f64, f64)) {
    println!("| {what} | {:.3} | {:.3} | {:.2} |", ours * 1e3, theirs * 1e3, ours / theirs);
}

fn small() {
    let xs = networks::numbers(200_000, 1e4);
    let sum = |h: &dyn Fn(f64, f64) -> f64| xs.chunks(2).map(|p| h(p[0], p[1])).sum::<f64>();
    let both = by_turns(
        2.0,
        &mut || keep(sum(&|x, y| library::hypot(x, y))),
        &mut || keep(sum(&|x, y| x.hypot(y))),
    );
    shown("`hypot`, 100,000 pairs, beside the platform's", both);
    let points = networks::numbers(2 * 4096, 1e6);
    let (mut out, mut other) = (vec![0.0; 4096], vec![0.0; 4096]);
    let both = by_turns(
        2.0,
        &mut || keep(library::nearest(&mut out, black_box(&points))),
        &mut || plain(black_box(&points), black_box(&mut other)),
    );
    shown("nearest of 4,096 points, beside a plain Rust loop", both);
}

const SIZES: [(usize, usize); 3] = [(40, 60), (400, 600), (4096, 8192)];

/// How many processes measure a size, and how many seconds each: a small size's time depends on where things lie in memory.
fn runs(stations: usize) -> (usize, f64) {
    if stations <= 400 { (5, 0.5) } else { (1, 2.0) }
}

/// The medians over some processes; what the first said that could not measure.
fn measured(kind: &str, stations: usize, iterations: i64) -> Result<[f64; 4], String> {
    let mut all: Vec<[f64; 4]> = Vec::new();
    let program = std::env::current_exe().expect("this program");
    for _ in 0..runs(stations).0 {
        let words = ["run".to_string(), kind.to_string(), stations.to_string(), iterations.to_string()];
        let out = Command::new(&program).args(words).output().expect("a process");
        let text = String::from_utf8(out.stdout).expect("text");
        let numbers: Vec<f64> = text.split_whitespace().map_while(|w| w.parse().ok()).collect();
        all.push(numbers.try_into().map_err(|_| text.trim().to_string())?);
    }
    Ok([0, 1, 2, 3].map(|i| median(all.iter().map(|four| four[i]).collect())))
}

fn rows(kind: &str, stations: usize, branches: usize, iterations: i64) {
    let what = format!("{kind}, {stations} stations, {branches} branches, {iterations} iterations");
    match measured(kind, stations, iterations) {
        Ok([a, b, c, d]) => {
            shown(&format!("layout, {what}"), (a, b));
            shown(&format!("audit, {what}"), (c, d));
        }
        Err(text) => println!("| layout and audit, {what} | not measured: {text} | | |"),
    }
}

/// The kinds on which the largest fill is measured.
const FILLED: [&str; 3] = ["near", "far", "lattice"];

fn fill_row(kind: &str, stations: usize, branches: usize) {
    let what = format!("largest fill, {kind}, {stations} stations, {branches} branches");
    let program = std::env::current_exe().expect("this program");
    let out = Command::new(&program).args(["run-fill", kind, &stations.to_string()]).output().expect("a process");
    let text = String::from_utf8(out.stdout).expect("text");
    let numbers: Vec<f64> = text.split_whitespace().map_while(|w| w.parse().ok()).collect();
    match numbers[..] {
        [a, b] => shown(&what, (a, b)),
        _ => println!("| {what} | not measured: {} | | |", text.trim()),
    }
}

fn load() -> String {
    let text = std::fs::read_to_string("/proc/loadavg").unwrap_or_default();
    text.split(' ').next().unwrap_or("?").to_string()
}

/// The rows that the words ask for: a kind, stations, iterations; all of what they leave open.
fn table(words: &[&str]) {
    println!("Load of the machine at the start: {}\n", load());
    println!("| what | ours, ms | original, ms | ratio |\n|---|---|---|---|");
    let asked = |i: usize, value: &str| words.get(i).is_none_or(|w| *w == value || *w == "all");
    for (stations, branches) in SIZES {
        for (kind, _) in networks::KINDS {
            for iterations in [0, 10] {
                if asked(0, kind) && asked(1, &stations.to_string()) && asked(2, &iterations.to_string()) {
                    rows(kind, stations, branches, iterations);
                }
            }
            if FILLED.contains(&kind) && asked(0, kind) && asked(1, &stations.to_string()) && asked(2, "fill") {
                fill_row(kind, stations, branches);
            }
        }
    }
    if words.is_empty() || words[0] == "small" {
        small();
    }
    println!("\nLoad at the end: {}", load());
}

/// Whether the words name a kind, a size and a number of iterations that are measured.
fn asks(words: &[&str]) -> bool {
    let one_of = |i: usize, known: &[String]| words.get(i).is_none_or(|w| *w == "all" || known.iter().any(|k| k == w));
    let kinds: Vec<String> = networks::KINDS.iter().map(|k| k.0.to_string()).chain(["small".to_string()]).collect();
    let sizes = SIZES.map(|size| size.0.to_string());
    one_of(0, &kinds) && one_of(1, &sizes) && one_of(2, &["0", "10", "fill"].map(str::to_string))
}

const USAGE: &str = "usage: bench [KIND [STATIONS [ITERATIONS]]]                     KIND: near, far, line, lattice, one, two, small, all; ITERATIONS: 0, 10, fill
       bench profile CALL KIND STATIONS ITERATIONS ROUNDS       only our call, so many times; CALL: layout, audit";

fn main() {
    let words: Vec<String> = std::env::args().skip(1).collect();
    let words: Vec<&str> = words.iter().map(String::as_str).collect();
    let number = |w: &str| w.parse::<usize>().unwrap_or_else(|_| panic!("not a number: {w}"));
    let kind = |w: &str| networks::KINDS.iter().find(|k| k.0 == w).unwrap_or_else(|| panic!("no kind {w}")).1;
    let branches = |n: usize| SIZES.iter().find(|size| size.0 == n).map_or(2 * n, |size| size.1);
    match words[..] {
        ["run", k, stations, iterations] => {
            let n = number(stations);
            match calls::measure(kind(k), n, branches(n), number(iterations) as i64, runs(n).1) {
                Ok(four) => println!("{}", four.map(|x| x.to_string()).join(" ")),
                Err(text) => println!("{text}"),
            }
        }
        ["run-fill", k, stations] => {
            let n = number(stations);
            match calls::measure_fill(kind(k), n, branches(n), runs(n).1) {
                Ok([ours, original]) => println!("{ours} {original}"),
                Err(text) => println!("{text}"),
            }
        }
        ["profile", call, k, stations, iterations, rounds] => {
            let n = number(stations);
            calls::repeat(call == "audit", kind(k), n, branches(n), number(iterations) as i64, number(rounds));
        }
        [] | [_] | [_, _] | [_, _, _] if asks(&words) => table(&words),
        _ => {
            eprintln!("{USAGE}");
            std::process::exit(2)
        }
    }
}
