//! Remarks, by name, on what a reader of the sheet might take for a fault: buses without a branch, lines through boxes, bars
//! that leave their boxes.
use crate::drawing::Drawing;
use crate::network::Network;
use crate::number::thousands;
use crate::sheet::shape::Rect;
use tansygate::TX_ROLE_LINE;

/// How many names a remark has.
const SHOWN: usize = 20;

pub fn all(network: &Network, drawing: &Drawing) -> Vec<String> {
    let through = if drawing.quality.lines_through_boxes > 0 { through(network, drawing) } else { Vec::new() };
    [
        remark("buses without a branch", &isolated(network, drawing)),
        remark("lines through boxes", &through),
        remark(
            "bars that leave their boxes, the shortest bar being long beside the padding",
            &outside(network, drawing),
        ),
    ]
    .into_iter()
    .flatten()
    .collect()
}

fn remark(what: &str, names: &[String]) -> Option<String> {
    let rest = names.len().saturating_sub(SHOWN);
    let more = if rest > 0 { format!(" and {} more", thousands(rest)) } else { String::new() };
    let shown = names[..names.len() - rest].join(", ");
    (!names.is_empty()).then(|| format!("note: {what}: {}: {shown}{more}", thousands(names.len())))
}

/// The buses that no drawn branch ends at.
fn isolated(network: &Network, drawing: &Drawing) -> Vec<String> {
    let mut joined = vec![false; network.buses.len()];
    let drawn = drawing.drawn();
    for (branch, _) in network.branches.iter().zip(drawn).filter(|(_, drawn)| *drawn) {
        [branch.from, branch.to].into_iter().filter_map(|bus| network.known(bus)).for_each(|bus| joined[bus] = true);
    }
    let buses = network.buses.iter().zip(joined).filter(|(_, joined)| !joined);
    buses.map(|(bus, _)| format!("'{}'", bus.name)).collect()
}

/// The buses whose bars reach above or below their boxes.
fn outside(network: &Network, drawing: &Drawing) -> Vec<String> {
    let layout = &drawing.layout;
    let bars = layout.busbars.chunks_exact(4).zip(&network.buses);
    let leaves = bars.filter(|(bar, bus)| {
        let s = 4 * bus.station as usize;
        bar[1] < layout.boxes[s + 1] || layout.boxes[s + 3] < bar[3]
    });
    leaves.map(|(_, bus)| format!("'{}'", bus.name)).collect()
}

/// Boxes by their left edges.
struct Boxes<'a> {
    all: &'a [f64],
    stations: Vec<usize>,
    widest: f64,
}

impl<'a> Boxes<'a> {
    fn new(network: &Network, all: &'a [f64]) -> Self {
        let mut stations: Vec<usize> = network.buses.iter().map(|bus| bus.station as usize).collect();
        stations.sort_by(|&a, &b| all[4 * a].total_cmp(&all[4 * b]).then(a.cmp(&b)));
        stations.dedup();
        let widest = stations.iter().map(|&s| all[4 * s + 2] - all[4 * s]).fold(0.0, f64::max);
        Boxes { all, stations, widest }
    }

    /// The stations whose boxes a piece goes through.
    fn hit(&self, piece: &'a [f64]) -> impl Iterator<Item = usize> + '_ {
        let (low, high) = (piece[0].min(piece[2]) - self.widest, piece[0].max(piece[2]));
        let start = self.stations.partition_point(|&s| self.all[4 * s] < low);
        let near = self.stations[start..].iter().copied().take_while(move |&s| self.all[4 * s] <= high);
        near.filter(move |&s| meets(piece, &self.all[4 * s..4 * s + 4]))
    }
}

/// Whether a straight piece meets a box.
fn meets(piece: &[f64], b: &[f64]) -> bool {
    Rect::new(b[0], b[1], b[2], b[3]).meets([piece[0], piece[1]], [piece[2], piece[3]])
}

/// Each line with each box that it runs through, other than those of its own two stations.
fn through(network: &Network, drawing: &Drawing) -> Vec<String> {
    let layout = &drawing.layout;
    let boxes = Boxes::new(network, &layout.boxes);
    let mut names = Vec::new();
    for (piece, &branch) in layout.segments.chunks_exact(4).zip(&layout.segment_edge) {
        if layout.role[branch as usize] != TX_ROLE_LINE {
            continue;
        }
        let row = &network.branches[branch as usize];
        let own = [row.from, row.to].map(|bus| network.known(bus).map(|bus| network.buses[bus].station as usize));
        for station in boxes.hit(piece).filter(|&s| !own.contains(&Some(s))) {
            let name = format!("'{}' through '{}'", row.name, network.station_name(station));
            if names.last() != Some(&name) {
                names.push(name);
            }
        }
    }
    names.dedup();
    names
}

#[cfg(test)]
mod tests {
    use super::*;

    #[test]
    fn pieces_and_boxes() {
        let b = [0.0, 0.0, 2.0, 1.0];
        assert!(meets(&[-1.0, 0.5, 3.0, 0.5], &b) && meets(&[2.0, 1.0, 3.0, 3.0], &b));
        assert!(!meets(&[-1.0, 2.0, 3.0, 2.0], &b) && !meets(&[1.5, 3.0, 4.0, 0.0], &b));
        let boxes = Boxes { all: &[0.0, 0.0, 2.0, 1.0, 5.0, 0.0, 6.0, 1.0], stations: vec![0, 1], widest: 2.0 };
        assert_eq!(boxes.hit(&[1.5, 0.5, 5.5, 0.5]).collect::<Vec<_>>(), [0, 1]);
        assert_eq!(boxes.hit(&[3.0, 0.5, 5.5, 0.5]).collect::<Vec<_>>(), [1]);
    }

    #[test]
    fn long_remarks_end() {
        let names: Vec<String> = (0..23).map(|i| format!("'{i}'")).collect();
        let text = remark("x", &names).unwrap();
        assert!(text.starts_with("note: x: 23: '0', '1',") && text.ends_with("'19' and 3 more"), "{text}");
        assert_eq!(remark("x", &[]), None);
    }
}
