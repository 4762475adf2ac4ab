//! Lays out wall drawings of substation networks, and audits them.
//!
//! The two calls, [`tx_schematic_layout`] and [`tx_layout_quality`], are those of the Rust module `tx_schematic` with
//! its names, run by Tansygate's library, whose functions are proved to meet their contracts. They differ
//! from the original in this:
//!
//! - Each returns a `Result`: what can't be drawn or audited is refused ([`Refusal`]), and nothing panics.
//! - The mesh for routing is handed in ([`Mesh`]): a triangulation of [`TxLayout::mesh_points`], such as `delaunator`'s.
//! - [`TxLayoutOptions`] has no `seeding`, [`TxLayoutQuality`] no `bends` and `sharp_bends`.
//! - A caller in Rattle uses the crate `tansygate` instead.
//! - [`tx_schematic_largest_fill`], the drawing with the largest boxes that all find free places, is no call of the original.
//! - docs/DIFFERENCES.md of the repository lists where numbers differ, each with the smallest input that shows it.
//!
//! A routed drawing: draw straight, triangulate the middles, draw again.
//!
//! ```
//! use tansygate::*;
//!
//! // A line from substation 0 to 3 passes between 1 and 2.
//! let input = TxLayoutInput {
//!     bus_substation: vec![0, 1, 2, 3],
//!     kv: vec![220.0, 110.0, 110.0, 220.0],
//!     from: vec![0],
//!     to: vec![3],
//!     in_service: vec![1],
//!     xy: vec![0.0, 0.0, 10.0, -6.0, 10.0, 6.0, 20.0, 1.0],
//! };
//! let straight = TxLayoutOptions { route_iterations: 0, ..TxLayoutOptions::default() };
//! let first = tx_schematic_layout(&input, &straight, Mesh::default())?;
//! let points = first.mesh_points(&input);
//! # let triangulate = |_: &[[f64; 2]]| MeshBuf {
//! #     triangles: vec![0, 1, 2, 2, 1, 3],
//! #     halfedges: vec![EMPTY, 3, EMPTY, 1, EMPTY, EMPTY],
//! # };
//! let mesh = triangulate(&points); // with delaunator: MeshBuf::new(&t.triangles, &t.halfedges)
//! let routed = tx_schematic_layout(&input, &TxLayoutOptions::default(), mesh.lend())?;
//! assert_eq!(routed.boxes, first.boxes);
//! assert_eq!(first.segment_edge.len(), 3);
//! assert_eq!(routed.segment_edge.len(), 4); // one crossing, between 1 and 2
//!
//! let figures = tx_layout_quality(&input, &routed)?;
//! assert_eq!((figures.overlapping_pairs, figures.lines_through_boxes), (0, 0));
//! # Ok::<(), Refusal>(())
//! ```
#![deny(unsafe_code, missing_docs, rust_2018_idioms)]

mod audit;
#[allow(unsafe_code)]
mod ffi;
mod layout;
mod network;
mod refusal;

pub use audit::{tx_layout_quality, TxLayoutQuality};
pub use layout::{
    tx_schematic_largest_fill, tx_schematic_layout, TxLargestFill, TxLayout, TX_LAYOUT_VERSION, TX_ROLE_INTERNAL,
    TX_ROLE_LINE, TX_ROLE_OPEN,
};
pub use network::{Mesh, MeshBuf, TxLayoutInput, TxLayoutOptions, EMPTY};
pub use refusal::Refusal;
