//! Layout: the original's `tx_schematic_layout` behind refusals 1 to 11 of docs/RULES.md.
use crate::gaps;
use crate::network::{refuse, Mesh, Network, Options};
use crate::tx_schematic::{tx_schematic_layout, TxLayout};
use crate::witness;

/// Lengths of the lent lists; of the work lists only whether one of fixed length is too short.
#[derive(Clone, Default)]
pub struct Lent {
    pub positions: usize,
    pub bars: usize,
    pub boxes: usize,
    pub scales: usize,
    pub roles: usize,
    pub pieces: usize,
    pub branches: usize,
    pub crossings: usize,
    pub work_short: bool,
}

impl Lent {
    /// More than any call needs.
    pub fn ample() -> Self {
        const MANY: usize = 1 << 40;
        Self {
            positions: MANY,
            bars: MANY,
            boxes: MANY,
            scales: MANY,
            roles: MANY,
            pieces: MANY,
            branches: MANY,
            crossings: MANY,
            work_short: false,
        }
    }

    fn short(&self, net: &Network) -> bool {
        let (n, m, k) = (net.sub.len(), net.from.len(), net.stations());
        self.positions < 2 * n
            || self.bars < 4 * n
            || self.boxes < 4 * k
            || self.scales < k
            || self.roles < m
            || self.work_short
    }
}

const NO_TWIN: u32 = u32::MAX;
const LONGEST: usize = 24_576;

/// Whether a mesh passes its test (docs/RULES.md, 'Mesh').
pub fn well_formed(mesh: &Mesh, occupied: usize) -> bool {
    let (c, t) = (&mesh.corners, &mesh.twins);
    let length = c.len();
    if length != t.len() || length % 3 != 0 || length > LONGEST {
        return false;
    }
    let next = delaunator::next_halfedge;
    (0..length).all(|h| {
        let twin = t[h] as usize;
        let matched = || twin < length && t[twin] as usize == h && c[twin] == c[next(h)] && c[next(twin)] == c[h];
        (c[h] as usize) < occupied && c[h] != c[next(h)] && (t[h] == NO_TWIN || matched())
    })
}

fn hand_in(mesh: &Mesh) {
    let halfedge = |&t: &u32| if t == NO_TWIN { delaunator::EMPTY } else { t as usize };
    delaunator::hand_in(delaunator::Triangulation {
        triangles: mesh.corners.iter().map(|&c| c as usize).collect(),
        halfedges: mesh.twins.iter().map(halfedge).collect(),
    });
}

/// Seeds are finite by refusal 6: a sum of at most 4,096 numbers of at most 10^12.
fn finite(drawing: &TxLayout) -> bool {
    let lists = [&drawing.boxes, &drawing.busbars, &drawing.segments];
    drawing.unit.is_finite() && lists.into_iter().flatten().all(|x| x.is_finite())
}

pub fn layout(net: &Network, options: &Options, mesh: &Mesh, lent: &Lent) -> Result<TxLayout, u32> {
    witness::start();
    net.shape()?;
    refuse(5, !options.in_range())?;
    net.near()?;
    refuse(7, lent.short(net))?;
    let input = net.original();
    assert!(cfg!(gaps) || options.gaps == gaps::OLD, "the original has the original's four numbers; compile with --cfg gaps");
    gaps::set(options.gaps);
    // Boxes do not depend on routing.
    let mut drawing = tx_schematic_layout(&input, &Options { iterations: 0, ..options.clone() }.original());
    net.sized(&drawing.boxes, &[])?;
    if options.iterations > 0 {
        let occupied = net.occupied().len();
        refuse(9, occupied >= 3 && !well_formed(mesh, occupied))?;
        hand_in(mesh);
        witness::start();
        drawing = tx_schematic_layout(&input, &options.original());
    }
    let seen = witness::seen();
    refuse(10, seen.crossings > lent.crossings)?;
    refuse(11, drawing.segment_edge.len() > lent.branches.min(lent.pieces / 4))?;
    assert!(seen.finite && finite(&drawing), "a number of the drawing isn't finite");
    Ok(drawing)
}
