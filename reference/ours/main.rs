//! Runs our calls and those of a judge on generated inputs and compares answers, lists, and what stands past and in work lists.
//! Compiled with `--cfg alone` it runs the original's calls in the place of ours, and needs no library.
#[cfg_attr(not(gaps), path = "../../target/reference/tx_schematic.rs")]
#[cfg_attr(gaps, path = "../../target/reference/gapped.rs")]
mod tx_schematic;

#[path = "../oracle/audit.rs"]
mod audit;
#[path = "../oracle/calls.rs"]
mod calls;
#[path = "../oracle/detours.rs"]
mod detours;
#[path = "../oracle/extremes.rs"]
mod extremes;
#[path = "../oracle/fill.rs"]
mod fill;
#[path = "../oracle/fills.rs"]
mod fills;
#[path = "../oracle/gaps.rs"]
mod gaps;
#[path = "../oracle/hypot.rs"]
mod hypot;
#[path = "../oracle/judge.rs"]
mod judge;
#[path = "../oracle/layout.rs"]
mod layout;
#[path = "../oracle/mesh.rs"]
mod mesh;
#[path = "../oracle/neighbours.rs"]
mod neighbours;
#[path = "../oracle/network.rs"]
mod network;
#[path = "../oracle/random.rs"]
mod random;
#[path = "../oracle/request.rs"]
mod request;
#[path = "../second/mod.rs"]
mod second;
#[path = "../oracle/witness.rs"]
mod witness;
#[path = "../oracle/words.rs"]
mod words;

#[cfg(not(alone))]
mod audits;
#[cfg(not(alone))]
mod layouts;
#[cfg(not(alone))]
mod library;
#[cfg(not(alone))]
mod lists;
#[cfg(alone)]
#[path = "../second/beside.rs"]
mod beside;

/// Stress seeding is no part of the rules, so it is left out here.
mod stress {
    pub fn sparse_stress(_: usize, _: &[(usize, usize)]) -> Vec<(f64, f64)> {
        panic!("stress seeding is left out")
    }
}

use calls::{audit_call, layout_call, AuditCall, Call, Kind};
use judge::Judge;
use second::Rule;
use std::collections::BTreeMap;
use std::sync::mpsc::{channel, RecvTimeoutError};
use std::thread;
use std::time::Duration;

/// A case on which the original runs longer is left out and counted.
const PATIENCE: Duration = Duration::from_secs(60);

const USAGE: &str = "usage: compare layout SEED COUNT BUSES [KIND [JUDGE]]
       compare audit SEED COUNT BUSES [KIND [JUDGE]]
       compare fill SEED COUNT BUSES [KIND]         the largest fill, by the original
  KIND   plain; straight: every call with 0 iterations; extreme: coordinates, options, meshes and drawings of extreme scale;
         gaps: other gaps than the original's four numbers, a third of the calls extreme ones; detours: lines with boxes in their way;
         wide-detours: the same with other gaps (gaps and wide-detours judged by the original: compiled with --cfg gaps)
  JUDGE  original; second: the second implementation; nearest: the same by the box entered first; undetoured: the original where
         neither it nor `nearest` finds a detour";

/// One kind of call: how a case arises, what the oracle answers, and what is wrong with ours.
trait Compared: Clone + Send + 'static {
    type Want: Send + 'static;
    /// Whether a detour makes the original no judge of the call, by the rule of the box entered first.
    const LEAVES_DETOURS: bool;
    /// What `routed` counts.
    const MARK: &str = "lines led through a mesh or round boxes";
    fn case(seed: u64, case: u64, most: usize, kind: Kind) -> Self;
    fn want(&self, salt: u64) -> Self::Want;
    fn number(want: &Self::Want) -> u32;
    /// Whether some bus has no map point.
    fn unsurveyed(&self) -> bool;
    /// What the rule of the box entered first changes: whether a detour is found by either rule, and whether an answer differs.
    fn moved(&self, salt: u64) -> (bool, bool);
    /// Whether a line is led through a mesh or round a box.
    fn routed(&self, want: &Self::Want) -> bool;
    fn wrong(&self, want: &Self::Want, salt: u64) -> Vec<String>;
    fn size(&self) -> usize;
    fn shown(&self) -> String;
    /// The call with its branch e left out, or with its last bus.
    fn without_branch(&self, e: usize) -> Option<Self>;
    fn without_bus(&self) -> Option<Self>;
}

/// Whether a branch has more pieces than a straight line: its two ends, and the piece between its exits.
fn bent(branches: &[u32]) -> bool {
    branches.windows(4).any(|w| w[0] == w[3])
}

fn network_without_branch(net: &network::Network, e: usize) -> Option<network::Network> {
    let mut less = net.clone();
    (e < net.from.len() && net.to.len() == net.from.len()).then(|| {
        less.from.remove(e);
        less.to.remove(e);
        if e < less.live.len() {
            less.live.remove(e);
        }
        less
    })
}

fn network_without_bus(net: &network::Network) -> Option<network::Network> {
    let n = net.sub.len();
    (n > 0).then(|| {
        let mut less = net.clone();
        less.sub.truncate(n - 1);
        less.kv.truncate(n - 1);
        less.xy.truncate(2 * (n - 1));
        less
    })
}

impl Compared for Call {
    type Want = Result<tx_schematic::TxLayout, u32>;
    const LEAVES_DETOURS: bool = true;
    fn case(seed: u64, case: u64, most: usize, kind: Kind) -> Self {
        layout_call(seed, case, most, kind)
    }
    fn want(&self, _: u64) -> Self::Want {
        judge::layout(&self.net, &self.options, &self.mesh, &self.lent)
    }
    fn number(want: &Self::Want) -> u32 {
        want.as_ref().err().copied().unwrap_or(0)
    }
    fn unsurveyed(&self) -> bool {
        self.net.unsurveyed()
    }
    fn moved(&self, _: u64) -> (bool, bool) {
        let drawn = |rule: Rule| {
            let drawing = judge::second_layout(&self.net, &self.options, &self.mesh, &layout::Lent::ample(), rule);
            (drawing.map(|d| (d.segments, d.segment_edge)), witness::seen().detours > 0)
        };
        let (before, after) = (drawn(Rule::Cells), drawn(Rule::Nearest));
        (before.1 || after.1, before.0 != after.0)
    }
    fn routed(&self, want: &Self::Want) -> bool {
        self.options.iterations > 0 && want.as_ref().is_ok_and(|d| bent(&d.segment_edge))
    }
    fn wrong(&self, want: &Self::Want, salt: u64) -> Vec<String> {
        #[cfg(not(alone))]
        return layouts::wrong(self, want, salt);
        #[cfg(alone)]
        return beside::layout_wrong(self, want, salt);
    }
    fn size(&self) -> usize {
        self.net.sub.len() + self.net.from.len() + self.mesh.corners.len()
    }
    fn shown(&self) -> String {
        self.text()
    }
    fn without_branch(&self, e: usize) -> Option<Self> {
        Some(Self { net: network_without_branch(&self.net, e)?, ..self.clone() })
    }
    fn without_bus(&self) -> Option<Self> {
        Some(Self { net: network_without_bus(&self.net)?, ..self.clone() })
    }
}

impl Compared for AuditCall {
    type Want = Result<audit::Figures, u32>;
    const LEAVES_DETOURS: bool = false;
    fn case(seed: u64, case: u64, most: usize, kind: Kind) -> Self {
        audit_call(seed, case, most, kind)
    }
    #[cfg_attr(alone, allow(unused_variables))]
    fn want(&self, salt: u64) -> Self::Want {
        #[cfg(not(alone))]
        return audits::expected(self, salt);
        #[cfg(alone)]
        return judge::audit(&self.net, &self.drawing, &self.room);
    }
    fn number(want: &Self::Want) -> u32 {
        want.as_ref().err().copied().unwrap_or(0)
    }
    fn unsurveyed(&self) -> bool {
        self.net.unsurveyed()
    }
    fn moved(&self, _: u64) -> (bool, bool) {
        let through = |rule: Rule| judge::second_audit(&self.net, &self.drawing, &self.room, rule).map(|f| f.through);
        let (before, after) = (through(Rule::Cells), through(Rule::Nearest));
        (before.is_ok_and(|t| t > 0) || after.is_ok_and(|t| t > 0), before != after)
    }
    fn routed(&self, want: &Self::Want) -> bool {
        want.is_ok() && bent(&self.drawing.branches)
    }
    fn wrong(&self, want: &Self::Want, salt: u64) -> Vec<String> {
        #[cfg(not(alone))]
        return audits::wrong(self, want, salt);
        #[cfg(alone)]
        return beside::audit_wrong(self, want, salt);
    }
    fn size(&self) -> usize {
        self.net.sub.len() + self.net.from.len() + self.drawing.branches.len()
    }
    fn shown(&self) -> String {
        self.text()
    }
    fn without_branch(&self, _: usize) -> Option<Self> {
        None
    }
    fn without_bus(&self) -> Option<Self> {
        None
    }
}

/// A call of the largest fill.
#[derive(Clone)]
struct FillCall(Call);

impl Compared for FillCall {
    type Want = Result<(u32, tx_schematic::TxLayout), u32>;
    const LEAVES_DETOURS: bool = false;
    const MARK: &str = "a fill below 64/64";
    fn case(seed: u64, case: u64, most: usize, kind: Kind) -> Self {
        Self(fills::fill_call(seed, case, most, kind))
    }
    fn want(&self, _: u64) -> Self::Want {
        fill::largest(&self.0.net, &self.0.options, &self.0.mesh, &self.0.lent)
    }
    fn number(want: &Self::Want) -> u32 {
        want.as_ref().err().copied().unwrap_or(0)
    }
    fn unsurveyed(&self) -> bool {
        self.0.net.unsurveyed()
    }
    fn moved(&self, _: u64) -> (bool, bool) {
        (false, false)
    }
    /// Lines are straight: what is counted is a fill below 64/64.
    fn routed(&self, want: &Self::Want) -> bool {
        want.as_ref().is_ok_and(|l| l.0 < 64)
    }
    #[cfg_attr(alone, allow(unused_variables))]
    fn wrong(&self, want: &Self::Want, salt: u64) -> Vec<String> {
        #[cfg(not(alone))]
        {
            let (fill, drawing) = match want {
                Ok((k, drawing)) => (*k, Ok(drawing.clone())),
                Err(number) => (0, Err(*number)),
            };
            return layouts::wrong_fill(&self.0, &drawing, fill, salt);
        }
        #[cfg(alone)]
        return Vec::new();
    }
    fn size(&self) -> usize {
        self.0.net.sub.len() + self.0.net.from.len()
    }
    fn shown(&self) -> String {
        self.0.text()
    }
    fn without_branch(&self, e: usize) -> Option<Self> {
        Some(Self(self.0.without_branch(e)?))
    }
    fn without_bus(&self) -> Option<Self> {
        Some(Self(self.0.without_bus()?))
    }
}

/// How often the 64 fills are of each sort: one ruled out above one that serves, by no free place, by 8 or by 11; one that serves
/// between two that don't; how often none is.
fn sorts(seed: u64, count: u64, most: usize, kind: Kind) {
    let mut told = [0; 5];
    for i in 0..count {
        let call = fills::fill_call(seed, i, most, kind);
        let each = fill::each(&call.net, &call.options, &call.mesh, &call.lent);
        let Some(best) = each.iter().rposition(|e| *e == Ok(true)) else { continue };
        let above = &each[best + 1..];
        told[0] += 1;
        told[1] += usize::from(above.contains(&Ok(false)));
        told[2] += usize::from(above.contains(&Err(8)));
        told[3] += usize::from(above.contains(&Err(11)));
        told[4] += usize::from(each[..best].iter().skip_while(|e| **e != Ok(true)).any(|e| *e != Ok(true)));
    }
    let [drawn, unfree, sized, pieces, gaps] = told;
    println!("  drawn {drawn}; above the largest fill one without a free place: {unfree}, one with 8: {sized}, with 11: {pieces}");
    println!("  a fill that doesn't serve between two that do: {gaps}");
}

enum Outcome<T> {
    Done(T),
    Panicked,
    TooLong,
}

/// Work of the original's on a thread of its own, which is left behind where it takes too long.
fn patiently<T: Send + 'static>(work: impl FnOnce() -> T + Send + 'static) -> Outcome<T> {
    let (send, receive) = channel();
    thread::spawn(move || send.send(work()));
    match receive.recv_timeout(PATIENCE) {
        Ok(value) => Outcome::Done(value),
        Err(RecvTimeoutError::Disconnected) => Outcome::Panicked,
        Err(RecvTimeoutError::Timeout) => Outcome::TooLong,
    }
}

/// What a call is judged by: the answer wanted, whether a detour is found, and whether the rule of the box entered first makes another
/// answer.
fn judged<C: Compared>(call: &C, salt: u64) -> (C::Want, bool, bool) {
    let want = call.want(salt);
    let led = witness::seen().detours > 0;
    let (found, other) = if judge::chosen() == Judge::Original { (false, false) } else { call.moved(salt) };
    (want, led || found, other)
}

/// Whether a call is left out for its detour.
fn apart<C: Compared>(found: bool) -> bool {
    found && C::LEAVES_DETOURS && judge::chosen() == Judge::Undetoured
}

/// What is wrong with a call; nothing where the original does not answer, or is no judge.
fn differ<C: Compared>(call: &C, salt: u64) -> Vec<String> {
    let asked = call.clone();
    match patiently(move || judged(&asked, salt)) {
        Outcome::Done((want, found, _)) if !apart::<C>(found) => call.wrong(&want, salt),
        _ => Vec::new(),
    }
}

/// Branches and last buses are left out as long as the two still differ.
fn shrunk<C: Compared>(call: &C, salt: u64) -> C {
    let mut best = call.clone();
    let mut e = 0;
    while let Some(less) = best.without_branch(e) {
        if differ(&less, salt).is_empty() {
            e += 1;
        } else {
            best = less;
        }
    }
    while let Some(less) = best.without_bus().filter(|less| !differ(less, salt).is_empty()) {
        best = less;
    }
    best
}

fn compare<C: Compared>(seed: u64, count: u64, most: usize, kind: Kind) -> bool {
    let (mut compared, mut routed, mut unsurveyed, mut panicked, mut too_long) = (0, 0, 0, 0, 0);
    let (mut detoured, mut moved, mut left_out) = (0, 0, 0);
    let mut answers: BTreeMap<u32, usize> = BTreeMap::new();
    let mut differing: Vec<(u64, C)> = Vec::new();
    for i in 0..count {
        let salt = seed ^ i << 20;
        let both = patiently(move || {
            let call = C::case(seed, i, most, kind);
            let (want, found, other) = judged(&call, salt);
            (call, want, found, other)
        });
        let (call, want, found, other) = match both {
            Outcome::Done(both) => both,
            Outcome::Panicked => {
                panicked += 1;
                continue;
            }
            Outcome::TooLong => {
                too_long += 1;
                continue;
            }
        };
        detoured += usize::from(found);
        moved += usize::from(other);
        if apart::<C>(found) {
            left_out += 1;
            continue;
        }
        compared += 1;
        routed += usize::from(call.routed(&want));
        unsurveyed += usize::from(call.unsurveyed());
        *answers.entry(C::number(&want)).or_default() += 1;
        if !call.wrong(&want, salt).is_empty() {
            differing.push((i, call));
        }
    }
    println!("compared {compared}, differ {}; left out: {panicked} where the original panics, {too_long} where it takes more than {} s", differing.len(), PATIENCE.as_secs());
    for (number, times) in answers {
        println!("  answer {number}: {times}");
    }
    println!("  answer 0 with {}: {routed}", C::MARK);
    println!("  with buses that have no map point: {unsurveyed}");
    if judge::chosen() != Judge::Original {
        println!("  with a line led round a box, or through one in the audit: {detoured}; by the box entered first another answer: {moved}; left out for it: {left_out}");
    }
    differing.sort_by_key(|(_, call)| call.size());
    if let Some((i, call)) = differing.first() {
        let salt = seed ^ i << 20;
        let small = shrunk(call, salt);
        println!("smallest differing case: {i}, made smaller:\n{}", small.shown());
        for line in differ(&small, salt) {
            println!("  {line}");
        }
    }
    differing.is_empty()
}

fn main() {
    let words: Vec<String> = std::env::args().skip(1).collect();
    let words: Vec<&str> = words.iter().map(String::as_str).collect();
    let number = |w: &str| w.parse::<u64>().unwrap_or_else(|_| panic!("not a number: {w}"));
    let kind = words.get(4).map_or(Some(Kind::Plain), |word| Kind::named(word));
    judge::choose(words.get(5).unwrap_or(&if cfg!(alone) { "second" } else { "original" }));
    let same = match (&words[..], kind) {
        (["layout", seed, count, buses, ..], Some(kind)) => {
            compare::<Call>(number(seed), number(count), number(buses) as usize, kind)
        }
        (["audit", seed, count, buses, ..], Some(kind)) => {
            compare::<AuditCall>(number(seed), number(count), number(buses) as usize, kind)
        }
        (["fill", seed, count, buses, ..], Some(kind)) => {
            let same = compare::<FillCall>(number(seed), number(count), number(buses) as usize, kind);
            sorts(number(seed), number(count), number(buses) as usize, kind);
            same
        }
        _ => {
            eprintln!("{USAGE}");
            std::process::exit(2)
        }
    };
    std::process::exit(i32::from(!same));
}
