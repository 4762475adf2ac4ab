//! Stands in for `delaunator`: the mesh is the one that the caller handed in.
use std::cell::RefCell;

pub const EMPTY: usize = usize::MAX;

pub struct Point {
    pub x: f64,
    pub y: f64,
}

#[derive(Clone, Default)]
pub struct Triangulation {
    pub triangles: Vec<usize>,
    pub halfedges: Vec<usize>,
}

thread_local! {
    static MESH: RefCell<Triangulation> = RefCell::default();
}

/// The mesh that the next call of `triangulate` on this thread gives.
pub fn hand_in(mesh: Triangulation) {
    MESH.with(|m| *m.borrow_mut() = mesh);
}

pub fn triangulate(_: &[Point]) -> Triangulation {
    MESH.with(|m| m.borrow().clone())
}

pub fn next_halfedge(h: usize) -> usize {
    if h % 3 == 2 {
        h - 2
    } else {
        h + 1
    }
}
