//! The oracle: the original's answers, behind the refusals of docs/RULES.md. Its subcommands are listed below.
#[cfg_attr(not(gaps), path = "../../target/reference/tx_schematic.rs")]
#[cfg_attr(gaps, path = "../../target/reference/gapped.rs")]
mod tx_schematic;

mod audit;
mod calls;
mod compare;
mod detours;
mod drawlist;
mod extremes;
mod fill;
mod fills;
mod gaps;
mod generate;
mod hypot;
mod judge;
mod layout;
mod mesh;
mod neighbours;
mod network;
mod random;
mod request;
mod selfcheck;
mod vectors;
mod witness;
mod words;

#[path = "../second/mod.rs"]
mod second;

/// Stress seeding is no part of the rules, so it is left out here.
mod stress {
    pub fn sparse_stress(_: usize, _: &[(usize, usize)]) -> Vec<(f64, f64)> {
        panic!("stress seeding is left out")
    }
}

use std::io::{stdin, stdout, BufRead, BufWriter, Read, Write};

const USAGE: &str = "usage: oracle SUBCOMMAND
  drawlist                          the program drawlist: standard input to standard output
  generate SEED COUNT CLASS         drawlist inputs, each closed by ====  (CLASS: any, small, large, grid, far, odd, malformed)
  compare PROGRAM SEED COUNT CLASS  runs PROGRAM and drawlist on generated inputs
  vectors SEED COUNT                single calls of the original's functions, COUNT lines of each name
  layout [JUDGE]                    layout calls on standard input, answers on standard output (oracle/request.rs)
  audit [JUDGE]                     audit calls likewise (JUDGE: original, or second or nearest, reference/second)
  fill                              calls of the largest fill likewise, by the original
  calls SEED COUNT BUSES [KIND]     layout calls for networks of up to BUSES buses (KIND: plain, straight, extreme, detours)
  audits SEED COUNT BUSES [KIND]    audit calls likewise
  fills SEED COUNT BUSES [KIND]     calls of the largest fill likewise (oracle/fills.rs)
  hypot [second]                    a line of two patterns in, the exact hypot's pattern out; that of reference/second
  selfcheck                         the worked cases of docs/RULES.md";

fn everything() -> Vec<u8> {
    let mut text = Vec::new();
    stdin().read_to_end(&mut text).expect("standard input");
    text
}

/// Each call in the stream answered, each answer closed.
fn answers(answer: impl Fn(&request::Request) -> String) {
    let mut out = BufWriter::new(stdout());
    let mut text = String::new();
    for line in stdin().lock().lines() {
        let line = line.expect("text");
        if line == request::CLOSE {
            let answer = answer(&request::Request::read(&text));
            writeln!(out, "{answer}{}", request::CLOSE).expect("standard output");
            text.clear();
        } else {
            text += &line;
            text.push('\n');
        }
    }
}

/// Generated calls, each closed.
fn calls(count: u64, text: impl Fn(u64) -> String) {
    let mut out = BufWriter::new(stdout());
    for i in 0..count {
        writeln!(out, "{}{}", text(i), request::CLOSE).expect("standard output");
    }
}

fn hypots(hypot: fn(f64, f64) -> f64) {
    let mut out = BufWriter::new(stdout());
    for line in stdin().lock().lines() {
        let line = line.expect("text");
        let value = |w: &str| f64::from_bits(words::bits(w.as_bytes()).expect("pattern"));
        let (a, b) = line.split_once(' ').expect("two patterns");
        let root = hypot(value(a), value(b));
        writeln!(out, "{}", words::float(root, false)).expect("standard output");
    }
}

/// The kind of calls that a further word names, plain without one.
fn kind_of(words: &[&str]) -> calls::Kind {
    match words {
        [] => calls::Kind::Plain,
        [word, ..] => calls::Kind::named(word).unwrap_or_else(|| panic!("no kind {word}")),
    }
}

fn main() {
    let words: Vec<String> = std::env::args().skip(1).collect();
    let words: Vec<&str> = words.iter().map(String::as_str).collect();
    let number = |w: &str| w.parse::<u64>().unwrap_or_else(|_| panic!("not a number: {w}"));
    match words[..] {
        ["drawlist"] => print!("{}", drawlist::drawlist(&everything())),
        ["generate", seed, count, class] => generate::generate(number(seed), number(count), class),
        ["compare", program, seed, count, class] => {
            compare::compare(program, number(seed), number(count), class)
        }
        ["vectors", seed, count] => vectors::vectors(number(seed), number(count)),
        ["layout", ref judge @ ..] => {
            judge.iter().for_each(|word| judge::choose(word));
            answers(|r| r.layout())
        }
        ["audit", ref judge @ ..] => {
            judge.iter().for_each(|word| judge::choose(word));
            answers(|r| r.audit())
        }
        ["calls", seed, count, buses, ref kind @ ..] => {
            let (seed, buses, kind) = (number(seed), number(buses) as usize, kind_of(kind));
            calls(number(count), |i| calls::layout_call(seed, i, buses, kind).text())
        }
        ["audits", seed, count, buses, ref kind @ ..] => {
            let (seed, buses, kind) = (number(seed), number(buses) as usize, kind_of(kind));
            calls(number(count), |i| calls::audit_call(seed, i, buses, kind).text())
        }
        ["fill"] => answers(|r| r.fill()),
        ["fills", seed, count, buses, ref kind @ ..] => {
            let (seed, buses, kind) = (number(seed), number(buses) as usize, kind_of(kind));
            calls(number(count), |i| fills::fill_call(seed, i, buses, kind).text())
        }
        ["hypot"] => hypots(hypot::hypot),
        ["hypot", "second"] => hypots(second::hypot),
        ["selfcheck"] => selfcheck::selfcheck(),
        _ => {
            eprintln!("{USAGE}");
            std::process::exit(2)
        }
    }
}
