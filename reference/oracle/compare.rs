//! Compares a `drawlist` of ours with the oracle's on generated inputs, and shrinks what differs.
use std::collections::BTreeMap;
use std::io::Write;
use std::process::{Command, Stdio};
use std::sync::mpsc::channel;
use std::thread;
use std::time::Duration;

use crate::drawlist::drawlist;
use crate::generate::case;

/// A case on which the original runs longer is left out and counted.
const PATIENCE: Duration = Duration::from_secs(20);

/// The oracle's answer; none where the original panics or takes too long.
fn expected(input: &[u8]) -> Option<String> {
    let (send, receive) = channel();
    let input = input.to_vec();
    thread::spawn(move || send.send(drawlist(&input)));
    receive.recv_timeout(PATIENCE).ok()
}

fn ours(program: &str, input: &[u8]) -> Vec<u8> {
    let mut child = Command::new(program)
        .stdin(Stdio::piped())
        .stdout(Stdio::piped())
        .spawn()
        .unwrap_or_else(|e| panic!("{program}: {e}"));
    // A program may stop reading at the first slip, so a broken pipe is no fault.
    let _ = child.stdin.take().expect("pipe").write_all(input);
    child.wait_with_output().expect("output").stdout
}

/// What both answer where they differ.
fn differ(program: &str, input: &[u8]) -> Option<(String, Vec<u8>)> {
    let want = expected(input)?;
    let got = ours(program, input);
    (want.as_bytes() != got).then_some((want, got))
}

/// Lines are left out as long as the two still differ.
fn shrunk(program: &str, input: &[u8]) -> Vec<u8> {
    let mut best = input.to_vec();
    let mut i = 0;
    loop {
        let lines: Vec<&[u8]> = best.split_inclusive(|&b| b == b'\n').collect();
        if i >= lines.len() {
            return best;
        }
        let less = [&lines[..i], &lines[i + 1..]].concat().concat();
        if differ(program, &less).is_some() {
            best = less;
        } else {
            i += 1;
        }
    }
}

pub fn compare(program: &str, seed: u64, count: u64, class: &str) {
    let (mut compared, mut left_out) = (0, 0);
    let mut differing: Vec<Vec<u8>> = Vec::new();
    let mut answers: BTreeMap<String, usize> = BTreeMap::new();
    for i in 0..count {
        let input = case(seed, i, class);
        let Some(want) = expected(&input) else {
            left_out += 1;
            continue;
        };
        compared += 1;
        let kind = if want.starts_with("refused") { want.trim_end() } else { "drawn" };
        *answers.entry(kind.to_string()).or_default() += 1;
        if want.as_bytes() != ours(program, &input) {
            differing.push(input);
        }
    }
    println!("compared {compared}, differ {}, left out {left_out}", differing.len());
    for (kind, times) in answers {
        println!("  {kind}: {times}");
    }
    differing.sort_by_key(Vec::len);
    let smallest = differing.iter().take(20).map(|d| shrunk(program, d)).min_by_key(Vec::len);
    if let Some(input) = smallest {
        let (want, got) = differ(program, &input).expect("a difference");
        println!("smallest differing input:\n{}", String::from_utf8_lossy(&input));
        println!("oracle:\n{want}program:\n{}", String::from_utf8_lossy(&got));
        std::process::exit(1);
    }
}
