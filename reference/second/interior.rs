//! The inside of stations, in blocks: columns, rows, sizes; and bars and row ends on paper.
use super::network::{Kind, Network, Options};
use super::{maximum, Frame, Point};

pub struct Interior {
    /// For each bus its column; the rows of the first and the last end on it.
    pub column: Vec<usize>,
    pub rows: Vec<Option<(usize, usize)>>,
    /// For each branch the row of its from end and of its to end.
    pub row_of: Vec<[usize; 2]>,
    /// For each station width and height.
    pub size: Vec<(f64, f64)>,
}

/// Where each of a station's branch ends stands in the order of rows: inside before outside, seed y of the other station, branch.
#[derive(PartialEq)]
struct End {
    outside: bool,
    other_y: f64,
    branch: usize,
}

fn before(a: &End, b: &End) -> bool {
    if a.outside != b.outside {
        return b.outside;
    }
    let by_y = if a.outside { a.other_y.total_cmp(&b.other_y) } else { std::cmp::Ordering::Equal };
    by_y.is_lt() || by_y.is_eq() && a.branch < b.branch
}

pub fn interior(net: &Network, options: &Options, seeds: &[Point]) -> Interior {
    let members = net.members();
    let mut column = vec![0; net.buses()];
    for buses in &members {
        for &i in buses {
            // kv falling, then bus number; voltages are positive, so their patterns rise with them
            let first = |j: usize| net.kv[j] > net.kv[i] || net.kv[j] == net.kv[i] && j < i;
            column[i] = buses.iter().filter(|&&j| first(j)).count();
        }
    }
    let mut ends: Vec<Vec<End>> = members.iter().map(|_| Vec::new()).collect();
    for branch in 0..net.branches() {
        match net.kind(branch) {
            Kind::Internal(a, _) => ends[net.station(a)].push(End { outside: false, other_y: 0.0, branch }),
            Kind::Line(a, b) => {
                let (s, t) = (net.station(a), net.station(b));
                ends[s].push(End { outside: true, other_y: seeds[t].1, branch });
                ends[t].push(End { outside: true, other_y: seeds[s].1, branch });
            }
            _ => {}
        }
    }
    let row = |s: usize, branch: usize| {
        let this = ends[s].iter().find(|e| e.branch == branch).expect("an end");
        ends[s].iter().filter(|e| before(e, this)).count()
    };
    let mut row_of = vec![[usize::MAX; 2]; net.branches()];
    let mut rows: Vec<Option<(usize, usize)>> = vec![None; net.buses()];
    for branch in 0..net.branches() {
        if let Kind::Internal(a, b) | Kind::Line(a, b) = net.kind(branch) {
            for (end, bus) in [a, b].into_iter().enumerate() {
                let r = row(net.station(bus), branch);
                row_of[branch][end] = r;
                let (first, last) = rows[bus].unwrap_or((r, r));
                rows[bus] = Some((first.min(r), last.max(r)));
            }
        }
    }
    let sides = 2.0 * options.padding;
    let size = (0..members.len())
        .map(|s| {
            let others = members[s].len().max(1) - 1;
            (options.gap * others as f64 + sides, maximum(ends[s].len() as f64, options.shortest) + sides)
        })
        .collect();
    Interior { column, rows, row_of, size }
}

/// left + (padding + gap × column) × f
pub fn bar_x(o: &Options, b: &Frame, column: usize, f: f64) -> f64 {
    b[0] + (o.padding + o.gap * column as f64) * f
}

/// top + (padding + row + 0.5) × f
pub fn row_y(o: &Options, b: &Frame, row: usize, f: f64) -> f64 {
    b[1] + (o.padding + row as f64 + 0.5) * f
}

/// The ends of a bar.
pub fn bar(o: &Options, b: &Frame, rows: Option<(usize, usize)>, f: f64) -> (f64, f64) {
    let (y0, y1) = match rows {
        Some((first, last)) => (row_y(o, b, first, f) - 0.5 * f, row_y(o, b, last, f) + 0.5 * f),
        None => (b[1] + o.padding * f, b[1] + (o.padding + o.shortest) * f),
    };
    let least = o.shortest * f;
    if y1 - y0 < least {
        let middle = (y0 + y1) / 2.0;
        (middle - least / 2.0, middle + least / 2.0)
    } else {
        (y0, y1)
    }
}
