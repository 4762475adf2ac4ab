//! Layout and audit calls of every kind, from a seed, for networks of up to a given number of buses.
use crate::audit::{Drawing, Room};
use crate::detours;
use crate::extremes;
use crate::gaps::{self, Gaps};
use crate::judge::layout;
use crate::layout::Lent;
use crate::mesh;
use crate::network::{Mesh, Network, Options};
use crate::random::{Random, EDGES};
use crate::witness;

/// What calls are generated: ordinary ones with slips, the same without iterations, ones of extreme scale (oracle/extremes.rs),
/// or ones of either sort with other gaps than the original's four numbers; lines with boxes in their way (oracle/detours.rs), with
/// the original's four numbers or other gaps.
#[derive(Clone, Copy, PartialEq)]
pub enum Kind {
    Plain,
    Straight,
    Extreme,
    Gaps,
    Detours,
    WideDetours,
}

impl Kind {
    /// The kind that a word names.
    pub fn named(word: &str) -> Option<Self> {
        match word {
            "plain" => Some(Self::Plain),
            "straight" => Some(Self::Straight),
            "extreme" => Some(Self::Extreme),
            "gaps" => Some(Self::Gaps),
            "detours" => Some(Self::Detours),
            "wide-detours" => Some(Self::WideDetours),
            _ => None,
        }
    }

    /// Whether calls have other gaps than the original's four numbers.
    fn has_gaps(self) -> bool {
        matches!(self, Self::Gaps | Self::WideDetours)
    }
}

#[derive(Clone)]
pub struct Call {
    pub net: Network,
    pub options: Options,
    pub mesh: Mesh,
    pub lent: Lent,
}

#[derive(Clone)]
pub struct AuditCall {
    pub net: Network,
    pub drawing: Drawing,
    pub room: Room,
}

/// One in how many: for networks of more than 40 buses slips are five times rarer, so that most of them are drawn.
fn rare(often: usize, most: usize) -> usize {
    if most > 40 { 5 * often } else { often }
}

fn network(r: &mut Random, most: usize) -> Network {
    let n = if most > 40 && !r.one_in(4) { most - r.below(most / 4) } else { r.below(most + 1) };
    let m = r.below(2 * n + 3);
    let scheme = r.below(4);
    let groups = 1 + r.below(n);
    let size = (n as f64).sqrt().ceil();
    let place = r.below(6);
    let scale = r.pick(&[1.0, 0.1, 1e3, 1e-7]);
    let coordinate = |r: &mut Random| match place {
        0 => r.within(-2, 2) as f64,
        1 | 2 => r.within(0, 3 * size as i64) as f64 * scale,
        3 if r.one_in(if most > 40 { 30 * most } else { 30 }) => f64::from_bits(r.pick(&EDGES)),
        _ => r.unit() * size * 10.0 * scale,
    };
    let station = |r: &mut Random, i: usize| match scheme {
        0 | 1 => i,
        2 => r.below(n),
        _ => r.below(groups),
    };
    let end = |r: &mut Random| if r.one_in(25) { r.within(-2, n as i64 + 1) } else { r.below(n) as i64 };
    let kv = |r: &mut Random| f64::to_bits(r.pick(&[110.0, 110.0, 220.0, 220.0, 380.0, 5e-324, f64::MAX]));
    let mut net = Network {
        sub: (0..n).map(|i| station(r, i) as u32).collect(),
        kv: (0..n).map(|_| kv(r)).collect(),
        from: (0..m).map(|_| end(r)).collect(),
        to: (0..m).map(|_| end(r)).collect(),
        live: (0..m).map(|_| if r.one_in(6) { r.pick(&[0, 0, 2, 255]) } else { 1 }).collect(),
        xy: (0..2 * n).map(|_| coordinate(r)).collect(),
    };
    // lists that do not fit each other, a voltage that is none
    match r.below(rare(80, most)) {
        0 => drop(net.kv.pop()),
        1 => net.to.push(0),
        2 if n > 0 => net.sub[0] = r.pick(&[n as u32, u32::MAX]),
        3 => net.xy.truncate(n),
        4 => net.live.truncate(m / 2),
        5 if n > 0 => net.xy[0] = 1e12f64.next_up(),
        6 => net.xy.push(1.0),
        7 | 8 if n > 0 => {
            let i = r.below(n);
            net.kv[i] = r.pick(&EDGES);
        }
        _ => {}
    }
    net
}

fn options(r: &mut Random, most: usize) -> Options {
    let mut o = Options::defaults();
    o.iterations = r.pick(&[0, 1, 2, 10]);
    o.fill = r.pick(&[0.45, 0.5, 0.45, 1.0, 3.0, 16.0]);
    match r.below(8) {
        0 => o.search = r.below(21) as i64,
        1 => o.radius = r.pick(&[0.0, 1.0, 1000.0]),
        2 => o.counts = [r.below(4) as u32, r.below(6) as u32],
        3 => o.scales = [r.pick(&[1.0, 1.0 / 64.0, 0.9]), r.pick(&[0.3, 1.0])],
        4 if r.one_in(rare(6, most)) => o.search = r.pick(&[-1, 21]),
        5 if r.one_in(rare(6, most)) => o.fill = r.pick(&[0.0, -0.0, 16.0f64.next_up(), f64::NAN, f64::INFINITY, 5e-324]),
        6 if r.one_in(rare(6, most)) => o.radius = r.pick(&[-1.0, 1000.5, f64::NAN]),
        7 if r.one_in(rare(6, most)) => o.scales[r.below(2)] = r.pick(&[0.0, 1.5, f64::NAN, (1.0f64 / 64.0).next_down()]),
        _ => {}
    }
    if r.one_in(rare(60, most)) {
        o.iterations = r.pick(&[100, 101, -1]);
    }
    o
}

/// The middles of the occupied stations' boxes, where the network is drawn.
fn middles(net: &Network, options: &Options) -> Option<Vec<(f64, f64)>> {
    let straight = Options { iterations: 0, ..options.clone() };
    let drawing = layout(net, &straight, &Mesh::default(), &Lent::ample()).ok()?;
    let middle = |s: usize| {
        let b = &drawing.boxes[4 * s..4 * s + 4];
        ((b[0] + b[2]) / 2.0, (b[1] + b[3]) / 2.0)
    };
    Some(net.occupied().into_iter().map(middle).collect())
}

/// A mesh of the places that layout gives; now and then an odd, an empty or an ill-formed one.
fn meshed(r: &mut Random, net: &Network, options: &Options, most: usize) -> Mesh {
    let Some(points) = middles(net, options) else {
        return Mesh::default();
    };
    let occupied = net.occupied();
    let mut mesh = match r.below(10) {
        0 => Mesh::default(),
        1 | 2 => mesh::odd(r, occupied.len().min(40)),
        _ => mesh::delaunay(&points),
    };
    if r.one_in(rare(20, most)) && !mesh.corners.is_empty() {
        let h = r.below(mesh.corners.len());
        match r.below(5) {
            0 => mesh.corners[h] = r.below(occupied.len() + 1) as u32,
            1 => mesh.twins[h] = r.below(mesh.twins.len() + 1) as u32,
            2 => drop(mesh.twins.pop()),
            3 => drop((mesh.twins.pop(), mesh.corners.pop())),
            _ => mesh.twins[h] = u32::MAX,
        }
    }
    mesh
}

/// Lengths that just suffice, are ample, or of which one is one too short.
fn lent(r: &mut Random, call: &Call, most: usize) -> Lent {
    let (n, m, k) = (call.net.sub.len(), call.net.from.len(), call.net.stations());
    let pieces = layout(&call.net, &call.options, &call.mesh, &Lent::ample()).map_or(0, |d| d.segment_edge.len());
    let mut lent = Lent {
        positions: 2 * n,
        bars: 4 * n,
        boxes: 4 * k,
        scales: k,
        roles: m,
        pieces: 4 * pieces,
        branches: pieces,
        crossings: witness::seen().crossings,
        work_short: r.one_in(rare(100, most)),
    };
    let lists = [
        &mut lent.positions,
        &mut lent.bars,
        &mut lent.boxes,
        &mut lent.scales,
        &mut lent.roles,
        &mut lent.pieces,
        &mut lent.branches,
        &mut lent.crossings,
    ];
    let (less, ample) = (r.below(rare(120, most)), r.one_in(2));
    for (i, length) in lists.into_iter().enumerate() {
        if i == less || i == 7 && (8..12).contains(&less) || i == 5 && (12..16).contains(&less) {
            *length = length.saturating_sub(1);
        } else if ample {
            *length += r.below(5);
        }
    }
    lent
}

/// Gaps of any size in their range, at its ends, beside them, or now and then outside it.
fn gaps(r: &mut Random, most: usize) -> Gaps {
    let outside = r.one_in(rare(40, most));
    let mut at = |i: usize| match r.below(8) {
        0 => 0.5,
        1 => 8.0,
        2 => r.pick(&[0.5f64.next_up(), 8.0f64.next_down(), 1.0f64.next_up(), 2.0f64.next_down()]),
        3 => gaps::OLD.all()[i],
        4 => r.within(1, 16) as f64 / 2.0,
        _ => 0.5 + 7.5 * (r.within(0, 1 << 52) as f64 / (1u64 << 52) as f64),
    };
    let mut four = [at(0), at(1), at(2), at(3)];
    if outside {
        four[r.below(4)] = r.pick(&[0.5f64.next_down(), 8.0f64.next_up(), 0.0, -1.0, f64::NAN, f64::INFINITY, 1e300]);
    }
    let [gap, padding, shortest, buffer] = four;
    Gaps { gap, padding, shortest, buffer }
}

/// A network, its options and its mesh of one kind; where straight, iterations in range become 0.
fn ordered(r: &mut Random, most: usize, kind: Kind) -> (Network, Options, Mesh) {
    let gaps = if kind.has_gaps() { gaps(r, most) } else { gaps::OLD };
    if matches!(kind, Kind::Detours | Kind::WideDetours) {
        let (net, options) = (detours::network(r, most), detours::options(r, gaps));
        let points = if r.one_in(6) { middles(&net, &options).unwrap_or_default() } else { Vec::new() };
        let mesh = if points.len() < 3 { Mesh::default() } else { mesh::delaunay(&extremes::shrunk(&points)) };
        return (net, options, mesh);
    }
    if kind == Kind::Extreme || kind == Kind::Gaps && r.one_in(3) {
        let (net, options) = (extremes::network(r, most), Options { gaps, ..extremes::options(r) });
        let points = middles(&net, &options).unwrap_or_default();
        let mesh = mesh::twisted(r, &extremes::shrunk(&points));
        return (net, options, mesh);
    }
    let net = network(r, most);
    let mut options = Options { gaps, ..options(r, most) };
    if kind == Kind::Straight && (0..=100).contains(&options.iterations) {
        options.iterations = 0;
    }
    let mesh = meshed(r, &net, &options, most);
    (net, options, mesh)
}

pub fn layout_call(seed: u64, case: u64, most: usize, kind: Kind) -> Call {
    let mut r = Random::new(seed, case);
    let (net, options, mesh) = ordered(&mut r, most, kind);
    let mut call = Call { net, options, mesh, lent: Lent::ample() };
    call.lent = lent(&mut r, &call, most);
    call
}

/// Some buses lose their map point: the list is empty, short or odd, or holds numbers that aren't finite.
fn unsurvey(r: &mut Random, net: &mut Network) {
    let length = net.xy.len();
    match r.below(6) {
        0 => net.xy.clear(),
        1 => net.xy.truncate(r.below(length)),
        2 => net.xy.truncate(length.saturating_sub(1)),
        often => {
            for x in &mut net.xy {
                if r.one_in(1 << (often - 2)) {
                    *x = r.pick(&[f64::NAN, f64::INFINITY, f64::NEG_INFINITY]);
                }
            }
        }
    }
}

/// A drawing as layout left it, or with a few of its numbers changed; of the extreme ones every third times a power of two.
/// In one of three some buses have no map point.
pub fn audit_call(seed: u64, case: u64, most: usize, kind: Kind) -> AuditCall {
    let Call { mut net, options, mesh, .. } = layout_call(seed, case, most, kind);
    let mut r = Random::new(!seed, case);
    if r.one_in(3) {
        unsurvey(&mut r, &mut net);
    }
    let drawn = layout(&net, &options, &mesh, &Lent::ample());
    let mut drawing = drawn.map_or(Drawing::default(), |d| Drawing::of(&d));
    if kind == Kind::Extreme && r.one_in(3) {
        extremes::rescale(&mut r, &mut drawing);
    }
    for _ in 0..r.pick(&[0, 0, 1, 3, 10]) {
        change(&mut r, &mut drawing, most);
    }
    let spare = |r: &mut Random, length: usize| (length + r.below(3)).saturating_sub(usize::from(r.one_in(rare(60, most))));
    let k = net.stations();
    let room = Room {
        displacement: spare(&mut r, k),
        spacing: spare(&mut r, k),
        lengths: spare(&mut r, drawing.branches.len()),
    };
    AuditCall { net, drawing, room }
}

fn change(r: &mut Random, d: &mut Drawing, most: usize) {
    let (boxes, pieces) = (d.boxes.len() / 4, d.branches.len());
    let (s, j) = (r.below(boxes), r.below(pieces));
    match r.below(12) {
        // a box moved onto another, shifted by a little, or widened
        0 | 1 if boxes > 1 => d.boxes.copy_within(0..4, 4 * s),
        2 if boxes > 0 => (0..4).for_each(|i| d.boxes[4 * s + i] += r.pick(&[1e-9, 0.25, 1.0])),
        3 if boxes > 0 => d.boxes[4 * s + 2] += r.pick(&[1.0, 10.0, 1e-9]),
        4 | 5 if pieces > 0 => d.pieces[4 * j + r.below(4)] += r.pick(&[1.0, -10.0, 1e3]),
        6 if pieces > 1 => d.branches.swap(j, 0),
        7 if pieces > 0 => d.pieces.copy_within(0..4, 4 * j),
        8 if !d.roles.is_empty() => {
            let e = r.below(d.roles.len());
            d.roles[e] = r.pick(&[0, 1, 2, 3, 255]);
        }
        9 if r.one_in(rare(6, most)) && pieces > 0 => d.pieces[4 * j] = r.pick(&[1e40, f64::NAN, 1e300, 1e20]),
        10 if r.one_in(rare(6, most)) && boxes > 0 => d.boxes[4 * s] = r.pick(&[1e40, f64::NAN, -1e300]),
        11 if r.one_in(rare(6, most)) => drop((d.boxes.pop(), d.roles.pop())),
        _ => {}
    }
}
