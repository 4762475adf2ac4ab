//! Audit: the original's `tx_layout_quality`, with layout's rule for a bus's point, behind the refusals of docs/RULES.md, with its
//! count of overlapping pairs ('Overlaps').
use crate::network::{refuse, Network};
use crate::tx_schematic::{tx_layout_quality, TxLayout, TX_LAYOUT_VERSION, TX_ROLE_LINE};

/// The audited drawing.
#[derive(Clone, Default)]
pub struct Drawing {
    pub boxes: Vec<f64>,
    pub roles: Vec<u8>,
    pub pieces: Vec<f64>,
    pub branches: Vec<u32>,
}

/// Lengths of the lent lists.
#[derive(Clone)]
pub struct Room {
    pub displacement: usize,
    pub spacing: usize,
    pub lengths: usize,
}

pub struct Figures {
    pub overlaps: usize,
    pub through: usize,
    pub displacement: Vec<f64>,
    pub spacing: Vec<f64>,
    pub lengths: Vec<f64>,
}

impl Drawing {
    pub fn of(drawing: &TxLayout) -> Self {
        Self {
            boxes: drawing.boxes.clone(),
            roles: drawing.role.clone(),
            pieces: drawing.segments.clone(),
            branches: drawing.segment_edge.clone(),
        }
    }

    fn original(&self) -> TxLayout {
        TxLayout {
            version: TX_LAYOUT_VERSION,
            positions: Vec::new(),
            busbars: Vec::new(),
            boxes: self.boxes.clone(),
            segments: self.pieces.clone(),
            segment_edge: self.branches.clone(),
            role: self.roles.clone(),
            unit: 0.0,
            scale: Vec::new(),
            bounds: [0.0; 4],
        }
    }

    /// Refusal 13.
    fn fits(&self, net: &Network) -> bool {
        let (n, m) = (net.sub.len(), net.from.len());
        let modest = |x: &f64| x.abs() <= (1u128 << 100) as f64;
        let known = |bus: i64| 0 <= bus && bus < n as i64;
        let line = |e: usize| self.roles[e] == TX_ROLE_LINE;
        self.boxes.len() == 4 * net.stations()
            && self.roles.len() == m
            && self.pieces.len() == 4 * self.branches.len()
            && self.branches.iter().all(|&e| (e as usize) < m)
            && (0..m).all(|e| !line(e) || known(net.from[e]) && known(net.to[e]))
            && self.boxes.iter().chain(&self.pieces).all(modest)
            && self.boxes.chunks(4).all(|b| b[0] <= b[2] && b[1] <= b[3])
    }

    /// Pairs of occupied stations whose boxes strictly overlap, that of the higher number shrunk by 1e-9 a side.
    fn overlaps(&self, net: &Network) -> usize {
        let occupied = net.occupied();
        let mut pairs = 0;
        for (j, &high) in occupied.iter().enumerate() {
            let b = &self.boxes[4 * high..4 * high + 4];
            let s = [b[0] + 1e-9, b[1] + 1e-9, b[2] - 1e-9, b[3] - 1e-9];
            for &low in &occupied[..j] {
                pairs += usize::from(overlap(&s, &self.boxes[4 * low..4 * low + 4]));
            }
        }
        pairs
    }
}

/// Strict overlap of two boxes.
pub fn overlap(b: &[f64], o: &[f64]) -> bool {
    b[0] < o[2] && o[0] < b[2] && b[1] < o[3] && o[1] < b[3]
}

pub fn audit(net: &Network, drawing: &Drawing, room: &Room) -> Result<Figures, u32> {
    net.shape()?;
    net.near()?;
    let k = net.stations();
    let short = room.displacement < k || room.spacing < k || room.lengths < drawing.branches.len();
    refuse(7, short)?;
    refuse(13, !drawing.fits(net))?;
    net.sized(&drawing.boxes, &drawing.pieces)?;
    let q = tx_layout_quality(&net.original(), &drawing.original());
    Ok(Figures {
        overlaps: drawing.overlaps(net),
        through: q.lines_through_boxes,
        displacement: q.displacement,
        spacing: q.spacing,
        lengths: q.relative_length,
    })
}
