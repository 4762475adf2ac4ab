//! Meshes for generated calls: Delaunay triangles of given points (in floats, so only nearly), and odd ones that pass the mesh's test.
use std::collections::{HashMap, HashSet};

use crate::network::Mesh;
use crate::random::Random;

type P = (f64, f64);

/// Whether p lies inside the circle through the corners of a triangle, given in the turn of `around`.
fn in_circle(a: P, b: P, c: P, p: P) -> bool {
    let row = |q: P| {
        let (x, y) = (q.0 - p.0, q.1 - p.1);
        (x, y, x * x + y * y)
    };
    let (a, b, c) = (row(a), row(b), row(c));
    a.0 * (b.1 * c.2 - b.2 * c.1) - a.1 * (b.0 * c.2 - b.2 * c.0) + a.2 * (b.0 * c.1 - b.1 * c.0) > 0.0
}

/// Three corners far outside all points.
fn around(points: &[P]) -> [P; 3] {
    let size = points.iter().fold(1.0, |s: f64, p| s.max(p.0.abs()).max(p.1.abs())) * 1e3;
    [(-3.0 * size, -size), (3.0 * size, -size), (0.0, 3.0 * size)]
}

/// Points inserted one by one (Bowyer and Watson); one that meets an earlier point is left out.
fn triangles(points: &[P]) -> Vec<[usize; 3]> {
    let n = points.len();
    let all: Vec<P> = points.iter().copied().chain(around(points)).collect();
    let mut list = vec![[n, n + 1, n + 2]];
    for (v, &p) in points.iter().enumerate() {
        if points[..v].contains(&p) {
            continue;
        }
        let (bad, kept): (Vec<[usize; 3]>, Vec<[usize; 3]>) =
            list.into_iter().partition(|t| in_circle(all[t[0]], all[t[1]], all[t[2]], p));
        list = kept;
        let edges: Vec<[usize; 2]> = bad.iter().flat_map(|t| [[t[0], t[1]], [t[1], t[2]], [t[2], t[0]]]).collect();
        let inside: HashSet<[usize; 2]> = edges.iter().copied().collect();
        for e in &edges {
            if !inside.contains(&[e[1], e[0]]) {
                list.push([e[0], e[1], v]);
            }
        }
    }
    list.retain(|t| t.iter().all(|&v| v < n));
    list
}

/// Twins of half-edges whose ends are reversed, each taken once.
fn twinned(list: &[[usize; 3]]) -> Mesh {
    let corners: Vec<u32> = list.iter().flatten().map(|&v| v as u32).collect();
    let mut twins = vec![u32::MAX; corners.len()];
    let mut waiting: HashMap<(u32, u32), usize> = HashMap::new();
    for h in 0..corners.len() {
        let (a, b) = (corners[h], corners[delaunator::next_halfedge(h)]);
        if let Some(g) = waiting.remove(&(b, a)) {
            (twins[h], twins[g]) = (g as u32, h as u32);
        } else {
            waiting.insert((a, b), h);
        }
    }
    Mesh { corners, twins }
}

pub fn delaunay(points: &[P]) -> Mesh {
    twinned(&triangles(points))
}

/// Any triangles over n corners, twinned where their ends allow it.
pub fn odd(r: &mut Random, n: usize) -> Mesh {
    let count = if n < 3 { 0 } else { r.below(3 * n) };
    let list: Vec<[usize; 3]> = (0..count).map(|_| any_triangle(r, n)).collect();
    twinned(&list)
}

/// Twins as `twinned`, but taken in any order, and now and then none where one could be.
fn paired(r: &mut Random, list: &[[usize; 3]]) -> Mesh {
    let corners: Vec<u32> = list.iter().flatten().map(|&v| v as u32).collect();
    let mut twins = vec![u32::MAX; corners.len()];
    let mut waiting: HashMap<(u32, u32), Vec<usize>> = HashMap::new();
    let lone = r.pick(&[1, 3, 20, 1000]);
    for h in order(r, corners.len()) {
        let (a, b) = (corners[h], corners[delaunator::next_halfedge(h)]);
        let others = waiting.entry((b, a)).or_default();
        if others.is_empty() || r.one_in(lone) {
            waiting.entry((a, b)).or_default().push(h);
        } else {
            let g = others.swap_remove(r.below(others.len()));
            (twins[h], twins[g]) = (g as u32, h as u32);
        }
    }
    Mesh { corners, twins }
}

/// The numbers below n in any order.
fn order(r: &mut Random, n: usize) -> Vec<usize> {
    let mut all: Vec<usize> = (0..n).collect();
    (1..n).rev().for_each(|i| all.swap(i, r.below(i + 1)));
    all
}

fn any_triangle(r: &mut Random, n: usize) -> [usize; 3] {
    let (a, b) = (r.below(n), 1 + r.below(n - 1));
    let c = 1 + (b + r.below(n - 2)) % (n - 1);
    [a, (a + b) % n, (a + c) % n]
}

/// A mesh over the points' numbers that passes the mesh's test, mostly none of theirs: corners permuted, triangles of other points, mirrored or repeated ones,
/// a strip, apart from each other, or any triangles over few corners, which lines go round in.
pub fn twisted(r: &mut Random, points: &[P]) -> Mesh {
    let n = points.len();
    if n < 3 {
        return Mesh::default();
    }
    let names = order(r, n);
    let few = 3 + r.below(n.min(6) - 2);
    let mut list = match r.below(9) {
        0 | 1 => triangles(points),
        2 => triangles(points).iter().map(|t| t.map(|v| names[v])).collect(),
        3 => triangles(&names.iter().map(|_| (r.unit(), r.unit())).collect::<Vec<P>>()),
        4 => triangles(points).iter().map(|t| [t[1], t[0], t[2]]).collect(),
        5 => triangles(points).iter().flat_map(|&t| [t, [t[1], t[2], t[0]], [t[1], t[0], t[2]]]).collect(),
        6 => (2..n).map(|i| if i % 2 == 0 { [i - 2, i - 1, i] } else { [i - 1, i - 2, i] }.map(|v| names[v])).collect(),
        7 => (0..n / 3).map(|i| [names[3 * i], names[3 * i + 1], names[3 * i + 2]]).collect(),
        _ => (0..r.below(60 * few)).map(|_| any_triangle(r, few).map(|v| names[v])).collect::<Vec<_>>(),
    };
    let places = order(r, list.len());
    list = places.iter().map(|&i| list[i]).collect();
    list.truncate(8192);
    paired(r, &list)
}
