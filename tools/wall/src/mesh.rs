//! A Delaunay mesh over points, outside the proof: one that passes the library's test, or the empty one.
use crate::grid::{in_circle, snapped, turn, Spot};
use tansygate::{MeshBuf, EMPTY};

/// The longest mesh that the library takes.
const LONGEST: usize = 24_576;

/// A mesh over the points; the empty one where there is none, such as for points on one straight line.
pub fn delaunay(points: &[[f64; 2]]) -> MeshBuf {
    let mesh = snapped(points).map(|spots| built(&spots)).unwrap_or_default();
    if passes(&mesh, points.len()) {
        mesh
    } else {
        MeshBuf::default()
    }
}

/// Which triangles of a mesh lines are led through.
#[derive(Clone, Copy, Debug, PartialEq, Eq)]
pub enum Weave {
    Whole,
    /// Without triangles that are thin: a line that crosses one is led far aside.
    Sound,
    None,
}

/// The least height of a triangle that isn't thin, as a part of its longest side.
const THIN: f64 = 0.25;

impl Weave {
    pub const ALL: [Weave; 3] = [Weave::Whole, Weave::Sound, Weave::None];

    /// What the title block calls it.
    pub fn words(self) -> &'static str {
        match self {
            Weave::Whole => "whole mesh",
            Weave::Sound => "mesh without thin triangles",
            Weave::None => "no mesh",
        }
    }

    /// The mesh without the triangles that aren't wanted.
    pub fn of(self, mesh: &MeshBuf, points: &[[f64; 2]]) -> MeshBuf {
        match self {
            Weave::Whole => mesh.clone(),
            Weave::None => MeshBuf::default(),
            Weave::Sound => without(mesh, &|corners| is_thin(corners.map(|v| points[v as usize]))),
        }
    }
}

fn is_thin([a, b, c]: [[f64; 2]; 3]) -> bool {
    let square = |p: [f64; 2], q: [f64; 2]| (p[0] - q[0]) * (p[0] - q[0]) + (p[1] - q[1]) * (p[1] - q[1]);
    let twice = ((b[0] - a[0]) * (c[1] - a[1]) - (b[1] - a[1]) * (c[0] - a[0])).abs();
    twice < THIN * square(a, b).max(square(b, c)).max(square(c, a))
}

/// The mesh without the triangles of which the function says so, by their corners.
fn without(mesh: &MeshBuf, unwanted: &dyn Fn([u32; 3]) -> bool) -> MeshBuf {
    let triangles = mesh.triangles.chunks_exact(3).map(|t| !unwanted([t[0], t[1], t[2]]));
    let mut places = Vec::new();
    let mut kept = MeshBuf::default();
    for (i, wanted) in triangles.enumerate() {
        places.push(wanted.then_some(kept.triangles.len()));
        if wanted {
            kept.triangles.extend(&mesh.triangles[3 * i..3 * i + 3]);
        }
    }
    for (i, _) in places.iter().enumerate().filter(|(_, place)| place.is_some()) {
        let twin = |h: usize| match mesh.halfedges[h] {
            EMPTY => EMPTY,
            g => places[g as usize / 3].map_or(EMPTY, |first| (first + g as usize % 3) as u32),
        };
        kept.halfedges.extend((3 * i..3 * i + 3).map(twin));
    }
    kept
}

/// The library's test of a mesh over so many points.
pub fn passes(mesh: &MeshBuf, points: usize) -> bool {
    let (corners, twins) = (&mesh.triangles, &mesh.halfedges);
    let length = corners.len();
    if twins.len() != length || length % 3 != 0 || length > LONGEST {
        return false;
    }
    let end = |h: usize| corners[next(h)];
    (0..length).all(|h| {
        let fits = (corners[h] as usize) < points && corners[h] != end(h);
        let paired = |t: usize| t < length && twins[t] as usize == h && corners[t] == end(h) && end(t) == corners[h];
        fits && (twins[h] == EMPTY || paired(twins[h] as usize))
    })
}

/// The half-edge after one in its triangle.
fn next(h: usize) -> usize {
    if h % 3 == 2 {
        h - 2
    } else {
        h + 1
    }
}

/// Triangles under construction; the hull's half-edges in turn, each from its corner to the next one's.
struct Builder<'a> {
    spots: &'a [Spot],
    mesh: MeshBuf,
    hull: Vec<Rim>,
}

/// A corner of the hull, and the half-edge inside that runs from it to the next corner.
#[derive(Clone, Copy)]
struct Rim {
    corner: u32,
    edge: usize,
}

fn built(spots: &[Spot]) -> MeshBuf {
    let mut order: Vec<u32> = (0..spots.len() as u32).collect();
    order.sort_by_key(|&v| (spots[v as usize], v));
    order.dedup_by_key(|v| spots[*v as usize]);
    let at = |i: usize| spots[order[i] as usize];
    let Some(first) = (2..order.len()).find(|&i| turn(at(0), at(1), at(i)) != 0) else {
        return MeshBuf::default();
    };
    let mut builder = Builder { spots, mesh: MeshBuf::default(), hull: Vec::new() };
    builder.fan(&order[..first], order[first]);
    for &v in &order[first + 1..] {
        builder.add(v);
    }
    builder.settle();
    builder.mesh
}

impl Builder<'_> {
    fn turn(&self, a: u32, b: u32, c: u32) -> i128 {
        turn(self.spots[a as usize], self.spots[b as usize], self.spots[c as usize])
    }

    /// A new triangle; its first half-edge.
    fn triangle(&mut self, corners: [u32; 3]) -> usize {
        let h = self.mesh.triangles.len();
        self.mesh.triangles.extend(corners);
        self.mesh.halfedges.extend([EMPTY; 3]);
        h
    }

    fn pair(&mut self, g: usize, h: usize) {
        self.mesh.halfedges[g] = h as u32;
        self.mesh.halfedges[h] = g as u32;
    }

    /// The first triangles: from each piece of a straight chain to the first point beside it.
    fn fan(&mut self, chain: &[u32], apex: u32) {
        let mut chain = chain.to_vec();
        if self.turn(chain[0], chain[1], apex) < 0 {
            chain.reverse();
        }
        for (i, two) in chain.windows(2).enumerate() {
            let h = self.triangle([two[0], two[1], apex]);
            self.hull.push(Rim { corner: two[0], edge: h });
            if i > 0 {
                self.pair(h - 2, h + 2);
            }
        }
        let last = self.mesh.triangles.len() - 3;
        self.hull.push(Rim { corner: chain[chain.len() - 1], edge: last + 1 });
        self.hull.push(Rim { corner: apex, edge: 2 });
    }

    /// A point outside the hull: a triangle to each side of the hull that it sees.
    fn add(&mut self, v: u32) {
        let n = self.hull.len();
        let seen: Vec<bool> =
            (0..n).map(|i| self.turn(self.hull[i].corner, self.hull[(i + 1) % n].corner, v) < 0).collect();
        let Some(start) = (0..n).find(|&i| seen[i] && !seen[(i + n - 1) % n]) else { return };
        self.hull.rotate_left(start);
        let count = (0..n).take_while(|&i| seen[(start + i) % n]).count();
        let mut edges = Vec::with_capacity(count);
        for i in 0..count {
            let (a, b) = (self.hull[i], self.hull[(i + 1) % n]);
            let h = self.triangle([b.corner, a.corner, v]);
            self.pair(h, a.edge);
            if let Some(&before) = edges.last() {
                self.pair(before + 2, h + 1);
            }
            edges.push(h);
        }
        let entering = Rim { corner: self.hull[0].corner, edge: edges[0] + 1 };
        let leaving = Rim { corner: v, edge: edges[count - 1] + 2 };
        self.hull.splice(..count, [entering, leaving]);
    }

    /// Turns edges round until no circle through a triangle holds its neighbour's far corner.
    fn settle(&mut self) {
        let mut waiting: Vec<usize> = (0..self.mesh.triangles.len()).collect();
        while let Some(h) = waiting.pop() {
            let twin = self.mesh.halfedges[h];
            if twin == EMPTY {
                continue;
            }
            let g = twin as usize;
            let at = |e: usize| self.spots[self.mesh.triangles[e] as usize];
            if in_circle(at(h), at(next(h)), at(next(next(h))), at(next(next(g)))) {
                self.flip(h, g);
                waiting.extend([h, next(h), next(next(h)), g, next(g), next(next(g))]);
            }
        }
    }

    /// Two triangles (a, b, c) and (b, a, d) become (d, b, c) and (c, a, d).
    fn flip(&mut self, h: usize, g: usize) {
        let (h1, h2) = (next(h), next(next(h)));
        let (g1, g2) = (next(g), next(next(g)));
        let (c, d) = (self.mesh.triangles[h2], self.mesh.triangles[g2]);
        let (beyond_h2, beyond_g2) = (self.mesh.halfedges[h2], self.mesh.halfedges[g2]);
        self.mesh.triangles[h] = d;
        self.mesh.triangles[g] = c;
        debug_assert!(self.mesh.triangles[h1] != d && self.mesh.triangles[g1] != c);
        self.join(h, beyond_g2);
        self.join(g, beyond_h2);
        self.pair(h2, g2);
    }

    fn join(&mut self, h: usize, twin: u32) {
        self.mesh.halfedges[h] = twin;
        if twin != EMPTY {
            self.mesh.halfedges[twin as usize] = h as u32;
        }
    }
}

#[cfg(test)]
mod tests {
    use super::*;

    /// Numbers that look random, the same ones each time.
    fn numbers(count: usize, below: u64) -> Vec<f64> {
        let mut state = 0x2545_F491_4F6C_DD1D_u64;
        let mut step = || {
            state ^= state << 13;
            state ^= state >> 7;
            state ^= state << 17;
            (state % below) as f64
        };
        (0..count).map(|_| step()).collect()
    }

    fn cloud(count: usize, below: u64) -> Vec<[f64; 2]> {
        numbers(2 * count, below).chunks_exact(2).map(|p| [p[0], p[1]]).collect()
    }

    fn is_delaunay(mesh: &MeshBuf, spots: &[Spot]) -> bool {
        mesh.triangles.chunks_exact(3).all(|t| {
            let [a, b, c] = [spots[t[0] as usize], spots[t[1] as usize], spots[t[2] as usize]];
            turn(a, b, c) > 0 && spots.iter().all(|&p| !in_circle(a, b, c, p))
        })
    }

    /// Twice the area of all triangles and of the points' hull, which the rim's corners give.
    fn covers(mesh: &MeshBuf, spots: &[Spot]) -> bool {
        let corner = |h: usize| spots[mesh.triangles[h] as usize];
        let inside: i128 =
            (0..mesh.triangles.len()).step_by(3).map(|h| turn(corner(h), corner(h + 1), corner(h + 2))).sum();
        let rim: i128 = (0..mesh.triangles.len())
            .filter(|&h| mesh.halfedges[h] == EMPTY)
            .map(|h| turn((0, 0), corner(h), corner(next(h))))
            .sum();
        let outside = |h: usize| spots.iter().any(|&p| turn(corner(h), corner(next(h)), p) < 0);
        inside == rim && (0..mesh.triangles.len()).all(|h| mesh.halfedges[h] != EMPTY || !outside(h))
    }

    fn check(points: &[[f64; 2]]) {
        let mesh = delaunay(points);
        let spots = snapped(points).unwrap();
        assert!(!mesh.triangles.is_empty());
        assert!(passes(&mesh, points.len()));
        assert!(is_delaunay(&mesh, &spots) && covers(&mesh, &spots));
    }

    #[test]
    fn clouds_and_grids() {
        for (count, below) in [(3, 1 << 20), (10, 1 << 30), (60, 1 << 40), (300, 1 << 50), (200, 12), (80, 5)] {
            check(&cloud(count, below));
        }
    }

    /// What is left passes the test, and has no thin triangle.
    #[test]
    fn without_thin_triangles() {
        for (count, below) in [(60, 1 << 40), (300, 1 << 50), (200, 12)] {
            let points = cloud(count, below);
            let mesh = delaunay(&points);
            let sound = Weave::Sound.of(&mesh, &points);
            assert!(
                passes(&sound, count) && sound.triangles.len() < mesh.triangles.len() && !sound.triangles.is_empty()
            );
            let thin = |t: &[u32]| is_thin([t[0], t[1], t[2]].map(|v| points[v as usize]));
            assert!(!sound.triangles.chunks_exact(3).any(thin));
        }
    }

    #[test]
    fn a_square_and_a_chain_with_one_point_beside() {
        check(&[[0.0, 0.0], [1.0, 0.0], [0.0, 1.0], [1.0, 1.0]]);
        check(&[[0.0, 0.0], [1.0, 0.0], [2.0, 0.0], [3.0, 0.0], [9.0, 5.0]]);
        check(&[[0.0, 0.0], [0.0, 1.0], [0.0, 2.0], [-1.0, 7.0], [0.0, 3.0]]);
    }

    #[test]
    fn no_mesh_on_one_straight_line() {
        assert_eq!(delaunay(&[[0.0, 0.0], [1.0, 1.0], [2.0, 2.0], [5.0, 5.0]]), MeshBuf::default());
        assert_eq!(delaunay(&[[0.0, 0.0], [1.0, 1.0]]), MeshBuf::default());
        assert_eq!(delaunay(&[[3.0, 3.0]; 5]), MeshBuf::default());
    }

    #[test]
    fn as_many_points_as_stations_can_be() {
        let mesh = delaunay(&cloud(4096, 1 << 45));
        assert!(passes(&mesh, 4096) && mesh.triangles.len() > 3 * 8000);
    }

    #[test]
    fn the_test_rejects_ill_formed_meshes() {
        let mesh = |triangles: &[u32], halfedges: &[u32]| MeshBuf {
            triangles: triangles.to_vec(),
            halfedges: halfedges.to_vec(),
        };
        assert!(passes(&mesh(&[], &[]), 0));
        assert!(passes(&mesh(&[0, 1, 2, 2, 1, 3], &[EMPTY, 3, EMPTY, 1, EMPTY, EMPTY]), 4));
        assert!(!passes(&mesh(&[0, 1, 2], &[EMPTY, EMPTY]), 3));
        assert!(!passes(&mesh(&[0, 1], &[EMPTY, EMPTY]), 3));
        assert!(!passes(&mesh(&[0, 1, 3], &[EMPTY; 3]), 3));
        assert!(!passes(&mesh(&[0, 1, 1], &[EMPTY; 3]), 3));
        assert!(!passes(&mesh(&[0, 1, 2, 2, 1, 3], &[EMPTY, 3, EMPTY, EMPTY, EMPTY, EMPTY]), 4));
        assert!(!passes(&mesh(&[0, 1, 2, 1, 2, 3], &[EMPTY, 3, EMPTY, 1, EMPTY, EMPTY]), 4));
        assert!(!passes(&mesh(&[0, 1, 2], &[9, EMPTY, EMPTY]), 3));
    }
}
