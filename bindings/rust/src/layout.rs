//! The drawing calls.
use crate::ffi;
use crate::network::{Mesh, TxLayoutInput, TxLayoutOptions};
use crate::refusal::Refusal;

/// The version of the geometry: the original's, whose drawings these are but for the differences that
/// docs/DIFFERENCES.md names.
pub const TX_LAYOUT_VERSION: u32 = 1;

/// A branch between two substations, in [`TxLayout::role`].
pub const TX_ROLE_LINE: u8 = 0;
/// A live branch inside a substation.
pub const TX_ROLE_INTERNAL: u8 = 1;
/// A branch that is open, or isn't drawn.
pub const TX_ROLE_OPEN: u8 = 2;

/// A drawing as columns.
#[derive(Clone, Debug, PartialEq)]
pub struct TxLayout {
    /// [`TX_LAYOUT_VERSION`].
    pub version: u32,
    /// `x, y` of each bus: the middle of its bar.
    pub positions: Vec<f64>,
    /// `x0, y0, x1, y1` of each bus: its bar, top to bottom.
    pub busbars: Vec<f64>,
    /// `x0, y0, x1, y1` of each substation: its box, zeros where it isn't occupied.
    pub boxes: Vec<f64>,
    /// `x0, y0, x1, y1` of each segment; a routed branch has several, in order.
    pub segments: Vec<f64>,
    /// Branch of each segment.
    pub segment_edge: Vec<u32>,
    /// Role of each branch: [`TX_ROLE_LINE`], [`TX_ROLE_INTERNAL`] or [`TX_ROLE_OPEN`].
    pub role: Vec<u8>,
    /// Drawing units a block, before a substation's scale.
    pub unit: f64,
    /// Scale of each substation.
    pub scale: Vec<f64>,
    /// Left, top, right and bottom of the drawing.
    pub bounds: [f64; 4],
}

impl TxLayout {
    /// The middles of the occupied substations' boxes, by their numbers: the points of a mesh. Boxes don't depend on routing,
    /// so a first drawing with 0 rounds and no mesh gives them.
    ///
    /// ```
    /// use tansygate::{tx_schematic_layout, Mesh, TxLayoutInput, TxLayoutOptions};
    ///
    /// let input = TxLayoutInput {
    ///     bus_substation: vec![0, 2, 2],
    ///     kv: vec![110.0; 3],
    ///     xy: vec![0.0, 0.0, 8.0, 0.0, 8.0, 0.0],
    ///     ..TxLayoutInput::default()
    /// };
    /// let straight = TxLayoutOptions { route_iterations: 0, ..TxLayoutOptions::default() };
    /// let drawing = tx_schematic_layout(&input, &straight, Mesh::default())?;
    /// assert_eq!(drawing.mesh_points(&input), [[0.0, 0.0], [8.0, 0.0]]);
    /// # Ok::<(), tansygate::Refusal>(())
    /// ```
    ///
    /// # Panics
    /// Where the drawing has no box for a substation of `input`: it is another network's.
    pub fn mesh_points(&self, input: &TxLayoutInput) -> Vec<[f64; 2]> {
        let middle = |s: u32| {
            let b = &self.boxes[4 * s as usize..][..4];
            [(b[0] + b[2]) / 2.0, (b[1] + b[3]) / 2.0]
        };
        input.occupied().into_iter().map(middle).collect()
    }
}

/// The longest mesh that counts.
const LONGEST: usize = 24_576;

/// How many crossings and segments the lent lists hold.
#[derive(Clone, Copy)]
struct Room {
    crossings: usize,
    pieces: usize,
}

impl Room {
    /// More than any call can need: a line has at most as many crossings as the mesh is long, and beside them its
    /// two ends, two exits and four points that lead round boxes.
    fn most(branches: usize, mesh: usize) -> Self {
        Self { crossings: branches * mesh, pieces: branches * (mesh + 7) }
    }

    /// Enough for most: about as many crossings for each branch as half a row of triangles has edges.
    fn first(branches: usize, mesh: usize) -> Self {
        let each = mesh.isqrt() / 2 + 4;
        Self { crossings: branches * each, pieces: branches * (each + 3) }.within(Self::most(branches, mesh))
    }

    fn within(self, most: Self) -> Self {
        Self { crossings: self.crossings.min(most.crossings), pieces: self.pieces.min(most.pieces) }
    }
}

/// A call of the library with the result lists of a drawing, and work lists in the lengths that docs/WORK.md asks for.
macro_rules! lent {
    ($call:path, $drawing:ident, $input:ident, $options:ident, $mesh:ident, $room:ident) => {{
        let (n, m) = ($input.bus_substation.len(), $input.from.len());
        let l = $mesh.triangles.len().min(LONGEST);
        let sorting = (n + 2 * m + l).max($room.crossings);
        $call(
            &mut $drawing.positions,
            &mut $drawing.busbars,
            &mut $drawing.boxes,
            &mut $drawing.scale,
            &mut $drawing.role,
            &mut $drawing.segments,
            &mut $drawing.segment_edge,
            &mut vec![0; 2 * n],
            &mut vec![0; 3 * n],
            &mut vec![0; 4 * m + 4 * l + 4],
            &mut vec![0; sorting.max(ffi::index_length(n))],
            &mut vec![0; sorting],
            &mut vec![0; sorting],
            &mut vec![0.0; 2 * n + 4 * m],
            &mut vec![0.0; 3 * n],
            &mut vec![0.0; 4 * n],
            &mut vec![0.0; 2 * n + 3 * l + 16],
            &mut vec![0; 3 * $room.crossings],
            &mut vec![0.0; $room.crossings],
            &mut vec![0.0; 2 * $room.crossings],
            $options.plain(),
            &$input.bus_substation,
            &$input.kv_bits(),
            &$input.from,
            &$input.to,
            &$input.in_service,
            &$input.xy,
            $mesh.triangles,
            $mesh.halfedges,
        )
    }};
}

/// Draws a network.
///
/// All lists are made here, in the lengths that docs/WORK.md asks for. How many crossings and segments a drawing has
/// is known only when it is made. So their lists start with room for `isqrt(L) / 2 + 4` crossings a branch and three
/// segments more, where L is the mesh length; if a call refuses with 10 or 11, the list concerned is made four
/// times as long and the call made again, until it has room for L crossings (10) or L + 7 segments (11) a branch. No line
/// has more, so neither refusal comes back; and each turn makes a list longer that has a greatest length, so the
/// turns end: there are at most 16.
///
/// A line goes straight from box to box where `route_iterations` is 0. Where it isn't, the line is led through the mesh and round
/// boxes.
///
/// ```
/// use tansygate::{tx_schematic_layout, Mesh, TxLayoutInput, TxLayoutOptions, TX_ROLE_LINE};
///
/// let input = TxLayoutInput {
///     bus_substation: vec![0, 1],
///     kv: vec![220.0, 220.0],
///     from: vec![0],
///     to: vec![1],
///     in_service: vec![1],
///     xy: vec![0.0, 0.0, 16.0, 0.0],
/// };
/// let drawing = tx_schematic_layout(&input, &TxLayoutOptions::default(), Mesh::default())?;
/// assert_eq!(drawing.role, [TX_ROLE_LINE]);
/// // From the first bar to the right side of its box, to the left side of the other, to its bar.
/// assert_eq!(drawing.segment_edge, [0, 0, 0]);
/// # Ok::<(), tansygate::Refusal>(())
/// ```
///
/// # Errors
/// Refusals 1 to 4, 15, 5, 6, 8 and 9, the first that applies, in this order.
pub fn tx_schematic_layout(
    input: &TxLayoutInput,
    options: &TxLayoutOptions,
    mesh: Mesh<'_>,
) -> Result<TxLayout, Refusal> {
    input.validate()?;
    let routed = if options.route_iterations > 0 { mesh.triangles.len().min(LONGEST) } else { 0 };
    let most = Room::most(input.from.len(), routed);
    let mut room = Room::first(input.from.len(), routed);
    loop {
        let more = match draw(input, options, mesh, room) {
            Err(Refusal::Crossings) if room.crossings < most.crossings => {
                Room { crossings: 4 * room.crossings + 1, ..room }
            }
            Err(Refusal::Pieces) if room.pieces < most.pieces => Room { pieces: 4 * room.pieces + 1, ..room },
            answer => return answer,
        };
        room = more.within(most);
    }
}

/// A network's largest fill, and the drawing at it.
#[derive(Clone, Debug, PartialEq)]
pub struct TxLargestFill {
    /// The fill in sixty-fourths: 1 to 64.
    pub sixty_fourths: u32,
    /// The drawing at this fill, with straight lines.
    pub layout: TxLayout,
}

impl TxLargestFill {
    /// The fill as [`TxLayoutOptions::fill`] takes it.
    pub fn fill(&self) -> f64 {
        f64::from(self.sixty_fourths) / 64.0
    }
}

/// Draws a network with straight lines at the largest fill of 1/64 to 64/64 at which the drawing isn't refused and
/// every box finds a free place.
///
/// `fill` and `route_iterations` of the options aren't looked at. Lines are routed by a call of [`tx_schematic_layout`]
/// afterwards, with [`fill`](TxLargestFill::fill): boxes don't depend on routing, so they stay where they are.
///
/// ```
/// use tansygate::{tx_schematic_largest_fill, TxLayoutInput, TxLayoutOptions};
///
/// // Two substations, one above the other, and no search for a free place: at fill 51/64 a box of four blocks and the
/// // block kept free beside it fit between their middles, at 52/64 they don't.
/// let input = TxLayoutInput {
///     bus_substation: vec![0, 1],
///     kv: vec![110.0, 110.0],
///     xy: vec![0.0, 0.0, 0.0, 4.0],
///     ..TxLayoutInput::default()
/// };
/// let options = TxLayoutOptions { search: 0, ..TxLayoutOptions::default() };
/// let largest = tx_schematic_largest_fill(&input, &options)?;
/// assert_eq!(largest.sixty_fourths, 51);
/// # Ok::<(), tansygate::Refusal>(())
/// ```
///
/// # Errors
/// Refusals 1 to 4, 15, 5 and 6, the first that applies, in this order; 18 where no fill serves.
pub fn tx_schematic_largest_fill(input: &TxLayoutInput, options: &TxLayoutOptions) -> Result<TxLargestFill, Refusal> {
    input.validate()?;
    // More pieces than any of the drawings has, so that none is ruled out for its pieces.
    let room = Room::most(input.from.len(), 0);
    let mesh = Mesh::default();
    let mut drawing = blank(input, room);
    let f = lent!(ffi::largest_fill, drawing, input, options, mesh, room);
    Refusal::check(f.number)?;
    let layout = finished(drawing, f.pieces, f.unit, f.bounds);
    Ok(TxLargestFill { sixty_fourths: f.sixty_fourths, layout })
}

/// One call with lists that hold so many crossings and segments. The network is within the limits.
fn draw(input: &TxLayoutInput, options: &TxLayoutOptions, mesh: Mesh<'_>, room: Room) -> Result<TxLayout, Refusal> {
    let mut drawing = blank(input, room);
    let p = lent!(ffi::layout, drawing, input, options, mesh, room);
    Refusal::check(p.number)?;
    Ok(finished(drawing, p.pieces, p.unit, p.bounds))
}

/// The result lists of a network, with room for so many segments.
fn blank(input: &TxLayoutInput, room: Room) -> TxLayout {
    let (n, m, k) = (input.bus_substation.len(), input.from.len(), input.substations());
    TxLayout {
        version: TX_LAYOUT_VERSION,
        positions: vec![0.0; 2 * n],
        busbars: vec![0.0; 4 * n],
        boxes: vec![0.0; 4 * k],
        segments: vec![0.0; 4 * room.pieces],
        segment_edge: vec![0; room.pieces],
        role: vec![0; m],
        unit: 0.0,
        scale: vec![0.0; k],
        bounds: [0.0; 4],
    }
}

/// The drawing with as many segments as it has, and its other numbers.
fn finished(mut drawing: TxLayout, pieces: usize, unit: f64, bounds: [f64; 4]) -> TxLayout {
    drawing.segments.truncate(4 * pieces);
    drawing.segment_edge.truncate(pieces);
    drawing.segments.shrink_to_fit();
    drawing.segment_edge.shrink_to_fit();
    TxLayout { unit, bounds, ..drawing }
}

#[cfg(test)]
mod tests {
    use super::*;

    /// Six substations round a long line: it crosses the edges between them.
    fn ladder() -> (TxLayoutInput, Vec<u32>, Vec<u32>) {
        let input = TxLayoutInput {
            bus_substation: (0..8).collect(),
            kv: vec![110.0; 8],
            from: vec![0; 4],
            to: vec![7; 4],
            in_service: Vec::new(),
            xy: vec![0.0, 0.0, 10.0, -8.0, 10.0, 8.0, 20.0, -8.0, 20.0, 8.0, 30.0, -8.0, 30.0, 8.0, 40.0, 0.0],
        };
        // Triangles v, v + 1, v + 2; each shares an edge with the next.
        let triangles = (0..6).flat_map(|v| [v, v + 1, v + 2]).collect::<Vec<u32>>();
        let ends = |h: usize| (triangles[h], triangles[if h % 3 == 2 { h - 2 } else { h + 1 }]);
        let twin = |h| (0..18).find(|&g| ends(g) == (ends(h).1, ends(h).0));
        let halfedges = (0..18).map(|h| twin(h).map_or(crate::EMPTY, |g| g as u32)).collect();
        (input, triangles, halfedges)
    }

    #[test]
    fn lists_without_room_are_refused_and_grow() {
        let (input, triangles, halfedges) = ladder();
        let mesh = Mesh { triangles: &triangles, halfedges: &halfedges };
        let options = TxLayoutOptions::default();
        let whole = tx_schematic_layout(&input, &options, mesh).expect("drawn");
        let exact = |crossings, pieces| draw(&input, &options, mesh, Room { crossings, pieces });
        let pieces = whole.segment_edge.len();
        assert_eq!(exact(0, pieces), Err(Refusal::Crossings));
        assert_eq!(exact(100, pieces - 1), Err(Refusal::Pieces));
        assert_eq!(exact(100, pieces), Ok(whole));
    }

    #[test]
    fn the_first_room_is_within_the_greatest() {
        for (branches, mesh) in [(0, 0), (1, 0), (1, 3), (8192, 24_576), (5, 24_576), (8192, 3)] {
            let (first, most) = (Room::first(branches, mesh), Room::most(branches, mesh));
            assert!(first.crossings <= most.crossings && first.pieces <= most.pieces);
        }
    }

    /// As many turns as the doc comment says, even if both lists grow in turn.
    #[test]
    fn growth_ends() {
        let most = Room::most(8192, LONGEST);
        let mut room = Room::first(8192, LONGEST);
        let mut turns = 1;
        while room.crossings < most.crossings {
            room = Room { crossings: 4 * room.crossings + 1, ..room }.within(most);
            turns += 1;
        }
        while room.pieces < most.pieces {
            room = Room { pieces: 4 * room.pieces + 1, ..room }.within(most);
            turns += 1;
        }
        assert!(turns <= 16, "{turns}");
    }
}
