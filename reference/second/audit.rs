//! An audit call: refusals in their order, and the figures.
use super::around::Obstacles;
use super::network::{ill_sized, Network};
use super::plane::{middle, overlap, shrunk};
use super::{hypot, maximum, minimum, nearest, Frame, Point, Rule};

/// The audited drawing.
pub struct Audited<'a> {
    pub boxes: &'a [f64],
    pub roles: &'a [u8],
    pub pieces: &'a [f64],
    pub branches: &'a [u32],
}

pub struct Figures {
    pub overlaps: usize,
    pub through: usize,
    pub displacement: Vec<f64>,
    pub spacing: Vec<f64>,
    pub lengths: Vec<f64>,
}

/// Refusal 13.
fn unfit(net: &Network, d: &Audited) -> bool {
    let m = net.branches();
    if d.boxes.len() != 4 * net.stations() || d.roles.len() != m || d.pieces.len() != 4 * d.branches.len() {
        return true;
    }
    let modest = |x: &f64| x.abs() <= 2f64.powi(100);
    d.branches.iter().any(|&e| e as usize >= m)
        || (0..m).any(|e| d.roles[e] == 0 && net.ends(e).is_none())
        || !d.boxes.iter().all(modest)
        || !d.pieces.iter().all(modest)
        || d.boxes.chunks_exact(4).any(|b| b[0] > b[2] || b[1] > b[3])
}

/// Pairs of occupied stations whose boxes strictly overlap, that of the higher number shrunk.
fn overlaps(boxes: &[Frame], occupied: &[usize]) -> usize {
    let mut pairs = 0;
    for &high in occupied {
        for &low in occupied.iter().filter(|&&low| low < high) {
            if overlap(&shrunk(&boxes[high]), &boxes[low]) {
                pairs += 1;
            }
        }
    }
    pairs
}

/// For each unbroken stretch of a line's pieces its length over the straight one, 1 where that is 0.
fn lengths(d: &Audited) -> Vec<f64> {
    let piece = |j: usize| [d.pieces[4 * j], d.pieces[4 * j + 1], d.pieces[4 * j + 2], d.pieces[4 * j + 3]];
    let mut list = Vec::new();
    let mut start = 0;
    while start < d.branches.len() {
        let branch = d.branches[start];
        let mut end = start + 1;
        while end < d.branches.len() && d.branches[end] == branch {
            end += 1;
        }
        if d.roles[branch as usize] == 0 {
            let mut drawn = 0.0;
            for j in start..end {
                let [x0, y0, x1, y1] = piece(j);
                drawn += hypot(x1 - x0, y1 - y0);
            }
            let (first, last) = (piece(start), piece(end - 1));
            let straight = hypot(last[2] - first[0], last[3] - first[1]);
            list.push(if straight > 0.0 { drawn / straight } else { 1.0 });
        }
        start = end;
    }
    list
}

/// Refusals 1 to 8, 13 and 15, in the audit's order.
fn refusal(net: &Network, d: &Audited, room: [usize; 3]) -> Option<u32> {
    if let Some(number) = net.shape() {
        return Some(number);
    }
    if net.far() {
        return Some(6);
    }
    let k = net.stations();
    if room[0] < k || room[1] < k || room[2] < d.branches.len() {
        return Some(7);
    }
    if unfit(net, d) {
        return Some(13);
    }
    ill_sized(&frames(d), &net.occupied(), d.pieces).then_some(8)
}

fn frames(d: &Audited) -> Vec<Frame> {
    d.boxes.chunks_exact(4).map(|b| [b[0], b[1], b[2], b[3]]).collect()
}

/// Pieces of lines that meet a box of another station than their two.
fn through(net: &Network, d: &Audited, boxes: &Obstacles) -> usize {
    let meets = |j: usize| {
        let e = d.branches[j] as usize;
        let (a, b) = net.ends(e)?;
        let piece = &d.pieces[4 * j..4 * j + 4];
        let own = [net.station(a), net.station(b)];
        if d.roles[e] == 0 { boxes.first((piece[0], piece[1]), (piece[2], piece[3]), own) } else { None }
    };
    (0..d.branches.len()).filter(|&j| meets(j).is_some()).count()
}

pub fn audit(net: &Network, d: &Audited, room: [usize; 3], rule: Rule) -> Result<Figures, u32> {
    if let Some(number) = refusal(net, d, room) {
        return Err(number);
    }
    let occupied = net.occupied();
    let (seeds, boxes) = (net.seeds(), frames(d));
    let middles: Vec<Point> = occupied.iter().map(|&s| middle(&boxes[s])).collect();
    let near = nearest(&middles);
    let (mut displacement, mut spacing) = (Vec::new(), Vec::new());
    for (i, &s) in occupied.iter().enumerate() {
        displacement.push(hypot(middles[i].0 - seeds[s].0, middles[i].1 - seeds[s].1));
        let shorter = minimum(boxes[s][2] - boxes[s][0], boxes[s][3] - boxes[s][1]);
        spacing.push(near[i] / maximum(shorter, f64::MIN_POSITIVE));
    }
    let through = through(net, d, &Obstacles::new(&boxes, &occupied, rule));
    Ok(Figures { overlaps: overlaps(&boxes, &occupied), through, displacement, spacing, lengths: lengths(d) })
}
