//! A layout call of ours beside the oracle's.
use crate::calls::Call;
use crate::library;
use crate::lists::Lent;
use crate::random::Random;
use crate::tx_schematic::TxLayout;

const LONGEST: usize = 24_576;

/// More than any list for each station needs; a network that asks for more is refused before the list is looked at.
pub const MANY: usize = 20_000;

/// Lengths of the ten work lists as docs/WORK.md has them; one is one too short where the call says so.
fn work_lengths(call: &Call, r: &mut Random) -> [usize; 10] {
    let (n, m) = (call.net.sub.len(), call.net.from.len());
    let mesh = call.mesh.corners.len().min(LONGEST);
    let sorting = n + 2 * m + mesh;
    let sorted = sorting.max(library::index_length(n));
    let mut lengths =
        [2 * n, 3 * n, 4 * m + 4 * mesh + 4, sorted, sorting, sorting, 2 * n + 4 * m, 3 * n, 4 * n, 2 * n + 3 * mesh + 16];
    let short = loop {
        let i = r.below(10);
        if lengths[i] > 0 {
            break i;
        }
    };
    let ample = r.one_in(2);
    for (i, length) in lengths.iter_mut().enumerate() {
        if call.lent.work_short && i == short {
            *length -= 1;
        } else if ample {
            *length += r.below(4);
        }
    }
    lengths
}

/// Lengths of the three crossing lists: one has room for just as many crossings as the call lends, the others perhaps for more.
fn crossing_lengths(crossings: usize, r: &mut Random) -> [usize; 3] {
    let tight = r.below(3);
    [3, 1, 2].map(|each| (each, r.below(3), r.below(each))).iter().enumerate().map(|(i, &(each, more, part))| {
        each * (crossings + if i == tight { 0 } else { more }) + part
    }).collect::<Vec<_>>().try_into().expect("three lengths")
}

/// What is wrong with our answer and lists, against the oracle's answer.
pub fn wrong(call: &Call, want: &Result<TxLayout, u32>, salt: u64) -> Vec<String> {
    wrong_of(call, want, salt, None)
}

/// The same of the largest fill, with the fill wanted, 0 where the call is refused.
pub fn wrong_fill(call: &Call, want: &Result<TxLayout, u32>, fill: u32, salt: u64) -> Vec<String> {
    wrong_of(call, want, salt, Some(fill))
}

/// What either call answers: its number, the fill, the pieces, the unit and the bounds.
type Got = (u32, u32, usize, f64, [f64; 4]);

/// The lent lists, the options and the network, in the order of the calls' parameters.
macro_rules! lent {
    ($function:path, $net:ident, $mesh:ident, $options:ident; $($list:ident),*) => {
        $function(
            $(&mut $list.0,)*
            library::options_of($options),
            &$net.sub,
            &$net.kv,
            &$net.from,
            &$net.to,
            &$net.live,
            &$net.xy,
            &$mesh.corners,
            &$mesh.twins,
        )
    };
}

fn wrong_of(call: &Call, want: &Result<TxLayout, u32>, salt: u64, fill: Option<u32>) -> Vec<String> {
    let mut r = Random::new(salt, 0x0DD);
    let (net, mesh, lent, o) = (&call.net, &call.mesh, &call.lent, &call.options);
    let w = work_lengths(call, &mut r);
    let c = crossing_lengths(lent.crossings, &mut r);
    let more = |length: usize| if lent.work_short { length } else { length.max(lent.crossings) };
    let mut positions = Lent::<f64>::of(lent.positions);
    let mut bars = Lent::<f64>::of(lent.bars);
    let mut boxes = Lent::<f64>::of(lent.boxes.min(MANY));
    let mut scales = Lent::<f64>::of(lent.scales.min(MANY));
    let mut roles = Lent::<u8>::of(lent.roles);
    let mut pieces = Lent::<f64>::of(lent.pieces);
    let mut branches = Lent::<u32>::of(lent.branches);
    let (mut stations, mut buses, mut ends) = (Lent::<u32>::of(w[0]), Lent::<u32>::of(w[1]), Lent::<u32>::of(w[2]));
    let (mut sorted, mut spare) = (Lent::<u32>::of(more(w[3])), Lent::<u32>::of(more(w[4])));
    let mut keys = Lent::<u64>::of(more(w[5]));
    let (mut places, mut blocks) = (Lent::<f64>::of(w[6]), Lent::<f64>::of(w[7]));
    let (mut frames, mut path) = (Lent::<f64>::of(w[8]), Lent::<f64>::of(w[9]));
    let mut numbers = Lent::<u32>::of(c[0]);
    let (mut crossing_places, mut ways) = (Lent::<f64>::of(c[1]), Lent::<f64>::of(c[2]));
    macro_rules! called {
        ($function:path) => {
            lent!($function, net, mesh, o; positions, bars, boxes, scales, roles, pieces, branches, stations, buses, ends, sorted,
                spare, keys, places, blocks, frames, path, numbers, crossing_places, ways)
        };
    }
    let got: Got = if fill.is_some() {
        let f = called!(library::largest_fill);
        (f.number, f.sixty_fourths, f.pieces, f.unit, f.bounds)
    } else {
        let p = called!(library::layout);
        (p.number, 0, p.pieces, p.unit, p.bounds)
    };
    let (got_number, got_fill, got_pieces, got_unit, got_bounds) = got;
    let mut wrong = Vec::new();
    let number = want.as_ref().err().copied().unwrap_or(0);
    if got_number != number {
        return vec![format!("answer {got_number}, oracle {number}")];
    }
    if got_fill != fill.unwrap_or(0) {
        wrong.push(format!("fill {got_fill}, oracle {fill:?}"));
    }
    let none = TxLayout {
        version: 0,
        positions: Vec::new(),
        busbars: Vec::new(),
        boxes: Vec::new(),
        segments: Vec::new(),
        segment_edge: Vec::new(),
        role: Vec::new(),
        unit: 0.0,
        scale: Vec::new(),
        bounds: [0.0; 4],
    };
    let d = want.as_ref().unwrap_or(&none);
    let same = |a: f64, b: f64| a == b || a.is_nan() && b.is_nan();
    if !same(got_unit, d.unit) {
        wrong.push(format!("unit {:?}, oracle {:?}", got_unit, d.unit));
    }
    if !(0..4).all(|i| same(got_bounds[i], d.bounds[i])) {
        wrong.push(format!("bounds {:?}, oracle {:?}", got_bounds, d.bounds));
    }
    if got_pieces != d.segment_edge.len() {
        wrong.push(format!("pieces {}, oracle {}", got_pieces, d.segment_edge.len()));
    }
    positions.holds("positions", &d.positions, &mut wrong);
    bars.holds("bars", &d.busbars, &mut wrong);
    boxes.holds("boxes", &d.boxes, &mut wrong);
    scales.holds("scales", &d.scale, &mut wrong);
    roles.holds("roles", &d.role, &mut wrong);
    pieces.holds("pieces", &d.segments, &mut wrong);
    branches.holds("branches", &d.segment_edge, &mut wrong);
    let cleared = !matches!(number, 1..=7 | 15);
    for (name, list) in [
        ("stations", &stations),
        ("buses", &buses),
        ("ends", &ends),
        ("sorted", &sorted),
        ("spare", &spare),
        ("crossing_numbers", &numbers),
    ] {
        list.work(name, cleared, &mut wrong);
    }
    keys.work("keys", cleared, &mut wrong);
    for (name, list) in [
        ("places", &places),
        ("blocks", &blocks),
        ("frames", &frames),
        ("path", &path),
        ("crossing_places", &crossing_places),
        ("crossing_ways", &ways),
    ] {
        list.work(name, cleared, &mut wrong);
    }
    wrong
}
