//! Layout and audit, ours beside the original's, on one network.
use std::hint::black_box;

use crate::keep;
use crate::library::{self, options_of};
use crate::mesh;
use crate::network::{Mesh, Network, Options};
use crate::networks::{network, Kind};
use crate::tx_schematic::{tx_layout_quality, tx_schematic_layout, TxLayout, TxLayoutInput};

/// The lists that both calls of ours are lent.
struct Lists {
    floats: Vec<Vec<f64>>,
    wholes: Vec<Vec<u32>>,
    keys: Vec<u64>,
    roles: Vec<u8>,
}

/// A call of ours with these lists.
macro_rules! called {
    ($lists:ident, $function:path, $options:ident, $net:ident, $mesh:ident) => {{
        let [positions, bars, boxes, scales, pieces, places, blocks, frames, path, crossing_places, ways] = &mut $lists.floats[..]
        else {
            unreachable!()
        };
        let [branches, stations, buses, ends, sorted, spare, numbers] = &mut $lists.wholes[..] else { unreachable!() };
        $function(
            positions, bars, boxes, scales, &mut $lists.roles, pieces, branches, stations, buses, ends, sorted, spare,
            &mut $lists.keys, places, blocks, frames, path, numbers, crossing_places, ways, $options, &$net.sub, &$net.kv,
            &$net.from, &$net.to, &$net.live, &$net.xy, &$mesh.corners, &$mesh.twins,
        )
    }};
}

impl Lists {
    fn new(net: &Network, mesh: &Mesh, pieces: usize, crossings: usize) -> Self {
        let (n, m, k, l) = (net.sub.len(), net.from.len(), net.stations(), mesh.corners.len());
        let sorting = (n + 2 * m + l).max(crossings);
        let sorted = sorting.max(library::index_length(n));
        let floats = [2 * n, 4 * n, 4 * k, k, 4 * pieces, 2 * n + 4 * m, 3 * n, 4 * n, 2 * n + 3 * l + 16, crossings, 2 * crossings];
        let wholes = [pieces, 2 * n, 3 * n, 4 * m + 4 * l + 4, sorted, sorting, 3 * crossings];
        Self {
            floats: floats.iter().map(|&length| vec![0.0; length]).collect(),
            wholes: wholes.iter().map(|&length| vec![0; length]).collect(),
            keys: vec![0; sorting],
            roles: vec![0; m],
        }
    }

    fn layout(&mut self, options: library::Options, net: &Network, mesh: &Mesh) -> library::Plotted {
        called!(self, library::layout, options, net, mesh)
    }

    fn largest_fill(&mut self, options: library::Options, net: &Network, mesh: &Mesh) -> library::Filled {
        called!(self, library::largest_fill, options, net, mesh)
    }
}

/// The mesh of the boxes' middles, handed in to the original too.
fn meshed(net: &Network, drawing: &TxLayout) -> Mesh {
    let middle = |s: usize| {
        let b = &drawing.boxes[4 * s..4 * s + 4];
        ((b[0] + b[2]) / 2.0, (b[1] + b[3]) / 2.0)
    };
    let points: Vec<(f64, f64)> = net.occupied().into_iter().map(middle).collect();
    let mesh = mesh::delaunay(&points);
    let halfedge = |&t: &u32| if t == u32::MAX { delaunator::EMPTY } else { t as usize };
    delaunator::hand_in(delaunator::Triangulation {
        triangles: mesh.corners.iter().map(|&c| c as usize).collect(),
        halfedges: mesh.twins.iter().map(halfedge).collect(),
    });
    mesh
}

fn audit<'a>(net: &'a Network, d: &'a TxLayout, k: usize) -> impl FnMut() -> library::Audited + 'a {
    let (n, p) = (net.sub.len(), d.segment_edge.len());
    let (mut displacement, mut spacing, mut relative) = (vec![0.0; k], vec![0.0; k], vec![0.0; p]);
    let (mut stations, mut index) = (vec![0; 2 * n], vec![0; library::index_length(n)]);
    let (mut spare, mut keys) = (vec![0; n], vec![0; n]);
    let (mut points, mut path) = (vec![0.0; 2 * n], vec![0.0; 2 * n]);
    move || {
        library::audit(
            &mut displacement, &mut spacing, &mut relative, &mut stations, &mut index, &mut spare, &mut keys, &mut points, &mut path,
            &net.sub, &net.kv, &net.from, &net.to, &net.xy, &d.boxes, &d.role, &d.segments, &d.segment_edge,
        )
    }
}

/// A network with its drawing by the original, and our lists.
struct Case {
    net: Network,
    options: Options,
    mesh: Mesh,
    drawing: TxLayout,
    lists: Lists,
}

/// A case of some kind, its lists lengthened until they hold the crossings; what our layout answered.
fn prepared(kind: Kind, stations: usize, branches: usize, iterations: i64) -> (Case, library::Plotted) {
    let net = network(kind, stations, branches);
    let options = Options { iterations, ..Options::defaults() };
    let input = net.original();
    let straight = Options { iterations: 0, ..Options::defaults() };
    let mesh = meshed(&net, &tx_schematic_layout(&input, &straight.original()));
    let drawing = tx_schematic_layout(&input, &options.original());
    let pieces = drawing.segment_edge.len();
    let mut crossings = if iterations == 0 { 0 } else { pieces };
    let mut lists = Lists::new(&net, &mesh, pieces, crossings);
    let mut first = lists.layout(options_of(&options), &net, &mesh);
    while first.number == 10 {
        crossings *= 2;
        lists = Lists::new(&net, &mesh, pieces, crossings);
        first = lists.layout(options_of(&options), &net, &mesh);
    }
    (Case { net, options, mesh, drawing, lists }, first)
}

/// Both calls by turns for so many seconds each: our seconds and the original's, of layout and of the audit;
/// what our layout answered where the two don't draw as many pieces.
pub fn measure(kind: Kind, stations: usize, branches: usize, iterations: i64, time: f64) -> Result<[f64; 4], String> {
    let (Case { net, options, mesh, drawing, mut lists }, first) = prepared(kind, stations, branches, iterations);
    let pieces = drawing.segment_edge.len();
    if first.number != 0 || first.pieces != pieces {
        return Err(format!("answer {}, {} pieces, the original's {pieces}", first.number, first.pieces));
    }
    let (input, original) = (net.original(), options.original());
    let layout = crate::by_turns(
        time,
        &mut || keep(lists.layout(options_of(&options), black_box(&net), &mesh)),
        &mut || keep(tx_schematic_layout(black_box(&input), &original)),
    );
    let mut judge = audit(&net, &drawing, net.stations());
    let audit = crate::by_turns(time, &mut || keep(judge()), &mut || keep(tx_layout_quality(black_box(&input), &drawing)));
    Ok([layout.0, layout.1, audit.0, audit.1])
}

/// The greatest k of 1 to 64 for which each station finds a free place in the original's layout at fill k/64; 0 if there is none.
fn original_fill(input: &TxLayoutInput, options: &Options) -> u32 {
    let at = |k: u32| Options { fill: f64::from(k) / 64.0, ..options.clone() }.original();
    let free = |k: &u32| crate::all_free(|| tx_schematic_layout(input, &at(*k)));
    (1..=64).filter(free).max().unwrap_or(0)
}

/// Our largest fill and the original's 64 layouts by turns: the seconds of both; what they answer where that differs.
pub fn measure_fill(kind: Kind, stations: usize, branches: usize, time: f64) -> Result<[f64; 2], String> {
    let (Case { net, options, drawing, .. }, _) = prepared(kind, stations, branches, 0);
    let (input, mesh) = (net.original(), Mesh::default());
    // Room for the pieces of all lines: none is ruled out for its pieces.
    let mut lists = Lists::new(&net, &mesh, drawing.segment_edge.len() + 3 * branches, 0);
    let (ours, original) = (lists.largest_fill(options_of(&options), &net, &mesh), original_fill(&input, &options));
    if ours.sixty_fourths != original {
        return Err(format!("answer {}, fill {}, the original's {original}", ours.number, ours.sixty_fourths));
    }
    let times = crate::by_turns(
        time,
        &mut || keep(lists.largest_fill(options_of(&options), black_box(&net), &mesh)),
        &mut || keep(original_fill(black_box(&input), &options)),
    );
    Ok([times.0, times.1])
}

/// Our layout, or our audit of the original's drawing, so many times.
pub fn repeat(judging: bool, kind: Kind, stations: usize, branches: usize, iterations: i64, rounds: usize) {
    let (Case { net, options, mesh, drawing, mut lists }, _) = prepared(kind, stations, branches, iterations);
    let mut judge = audit(&net, &drawing, net.stations());
    for _ in 0..rounds {
        if judging {
            keep(judge());
        } else {
            keep(lists.layout(options_of(&options), &net, &mesh));
        }
    }
}
