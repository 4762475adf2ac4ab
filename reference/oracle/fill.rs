//! The largest fill: the original's layout at each of the 64 fills, without iterations.
use crate::layout::{layout, Lent};
use crate::network::{Mesh, Network, Options};
use crate::tx_schematic::TxLayout;
use crate::witness;

/// The greatest k of 1 to 64 for which layout draws at fill k/64 and each station finds a free place, and that drawing.
pub type Largest = (u32, TxLayout);

/// The options with fill k/64 and straight lines.
pub fn at_fill(options: &Options, k: u32) -> Options {
    Options { fill: f64::from(k) / 64.0, iterations: 0, ..options.clone() }
}

/// How many pieces the drawings have at the 64 fills, where nothing but the number of pieces can be refused.
pub fn pieces(net: &Network, options: &Options) -> Vec<usize> {
    let at = |k| layout(net, &at_fill(options, k), &Mesh::default(), &Lent::ample());
    (1..=64).filter_map(|k| at(k).ok()).map(|d| d.segment_edge.len()).collect()
}

/// Refusals 8 and 11 only rule a fill out; 18 where none is left.
pub fn largest(net: &Network, options: &Options, mesh: &Mesh, lent: &Lent) -> Result<Largest, u32> {
    let mut best = Err(18);
    for k in 1..=64 {
        match layout(net, &at_fill(options, k), mesh, lent) {
            Ok(drawing) if witness::seen().all_free => best = Ok((k, drawing)),
            Ok(_) | Err(8 | 11) => {}
            Err(number) => return Err(number),
        }
    }
    best
}

/// For each fill from 1/64 on: whether each station finds a free place, or the refusal.
pub fn each(net: &Network, options: &Options, mesh: &Mesh, lent: &Lent) -> Vec<Result<bool, u32>> {
    (1..=64).map(|k| layout(net, &at_fill(options, k), mesh, lent).map(|_| witness::seen().all_free)).collect()
}
