//! What a drawing is made from: the network, the options, the mesh.
use crate::ffi;
use crate::refusal::Refusal;

/// The network as columns: n buses and m branches.
///
/// ```
/// use tansygate::TxLayoutInput;
///
/// // Two substations, one bus each, and a line between them.
/// let input = TxLayoutInput {
///     bus_substation: vec![0, 1],
///     kv: vec![220.0, 110.0],
///     from: vec![0],
///     to: vec![1],
///     in_service: vec![1],
///     xy: vec![0.0, 0.0, 8.0, 3.0],
/// };
/// assert!(input.validate().is_ok());
/// ```
#[derive(Clone, Debug, Default, PartialEq)]
pub struct TxLayoutInput {
    /// Substation of each bus, below n. A substation is occupied if a bus carries its number.
    pub bus_substation: Vec<u32>,
    /// Nominal kV of each bus: n numbers, finite and above zero. The original takes 0 for an unknown one; here that is
    /// refused with 15.
    pub kv: Vec<f64>,
    /// First bus of each branch: m numbers. One below 0 or from n up is unknown, and such a branch isn't drawn.
    pub from: Vec<i64>,
    /// Second bus of each branch: m numbers.
    pub to: Vec<i64>,
    /// Service flag of each branch: 0 is open, any other and an absent one live.
    pub in_service: Vec<u8>,
    /// `x, y` of each bus, y down: where substations start. A bus of which one is absent, infinite or NaN stands
    /// at (0, 0).
    pub xy: Vec<f64>,
}

impl TxLayoutInput {
    /// Whether the columns agree, aren't too long and hold voltages: refusals 1 to 4 and 15. The two calls ask this first by themselves.
    ///
    /// ```
    /// use tansygate::{Refusal, TxLayoutInput};
    ///
    /// let input = TxLayoutInput { bus_substation: vec![0], ..TxLayoutInput::default() };
    /// assert_eq!(input.validate(), Err(Refusal::KvLength));
    /// ```
    pub fn validate(&self) -> Result<(), Refusal> {
        // An audit that is lent nothing looks at these five first; what it says past them is about its lists.
        let a = ffi::audit(
            &mut [],
            &mut [],
            &mut [],
            &mut [],
            &mut [],
            &mut [],
            &mut [],
            &mut [],
            &mut [],
            &self.bus_substation,
            &self.kv_bits(),
            &self.from,
            &self.to,
            &self.xy,
            &[],
            &[],
            &[],
            &[],
        );
        match a.number {
            1..=4 | 15 => Refusal::check(a.number),
            _ => Ok(()),
        }
    }

    /// The occupied substations, rising. A mesh's vertices are their numbers in this list.
    pub fn occupied(&self) -> Vec<u32> {
        let mut list = self.bus_substation.clone();
        list.sort_unstable();
        list.dedup();
        list
    }

    pub(crate) fn kv_bits(&self) -> Vec<u64> {
        self.kv.iter().map(|v| v.to_bits()).collect()
    }

    /// The highest substation number and one, 0 without buses.
    pub(crate) fn substations(&self) -> usize {
        self.bus_substation.iter().max().map_or(0, |&s| s as usize + 1)
    }
}

/// How a network is drawn. A number outside its range is refused
/// ([`Refusal::Option`](crate::Refusal::Option)).
///
/// The original's `seeding` isn't here: substations start at the mean of their buses' points.
///
/// ```
/// use tansygate::TxLayoutOptions;
///
/// let straight = TxLayoutOptions { route_iterations: 0, ..TxLayoutOptions::default() };
/// assert_eq!(straight.fill, 0.45);
/// ```
#[derive(Clone, Debug, PartialEq)]
pub struct TxLayoutOptions {
    /// Typical size of a box, as a fraction of the median distance between neighbouring substations: above 0, at
    /// most 16.
    pub fill: f64,
    /// A substation with at least `tier_counts[0]` (`[1]`) other substations within `tier_radius` median distances
    /// is drawn at `tier_scales[0]` (`[1]`): 0 to 1,000.
    pub tier_radius: f64,
    /// Neighbours from which the first and the second tier apply: any. (One above 2^32 - 1 is taken as that: no
    /// substation has so many.)
    pub tier_counts: [usize; 2],
    /// Scales of the first and the second tier: 1/64 to 1.
    pub tier_scales: [f64; 2],
    /// Offsets tried either side of a substation's start, on each axis: 0 to 20.
    pub search: i32,
    /// Rounds of channel spacing in routing: 0 to 100; 0 draws lines straight between their boxes.
    pub route_iterations: usize,
    /// From one bar to the next, in blocks: 0.5 to 8. (A block is the drawing's unit times the substation's scale.)
    pub bar_gap: f64,
    /// From each side of a box to its bars and rows, in blocks: 0.5 to 8.
    pub pad: f64,
    /// The shortest bar, in blocks: 0.5 to 8. Where half of it is above `pad` + 0.5, a bar may leave its box.
    pub min_bar: f64,
    /// Kept free around each box, in blocks: 0.5 to 8.
    pub buffer: f64,
}

impl Default for TxLayoutOptions {
    fn default() -> Self {
        Self {
            fill: 0.45,
            tier_radius: 3.0,
            tier_counts: [12, 30],
            tier_scales: [2.0 / 3.0, 4.0 / 9.0],
            search: 10,
            route_iterations: 10,
            bar_gap: 2.0,
            pad: 1.0,
            min_bar: 2.0,
            buffer: 1.0,
        }
    }
}

impl TxLayoutOptions {
    pub(crate) fn plain(&self) -> ffi::Options {
        let most = |count: usize| u32::try_from(count).unwrap_or(u32::MAX);
        ffi::Options {
            fill: self.fill,
            tier_radius: self.tier_radius,
            tier_count_1: most(self.tier_counts[0]),
            tier_count_2: most(self.tier_counts[1]),
            tier_scale_1: self.tier_scales[0],
            tier_scale_2: self.tier_scales[1],
            search: self.search,
            route_iterations: most(self.route_iterations),
            bar_gap: self.bar_gap,
            pad: self.pad,
            min_bar: self.min_bar,
            buffer: self.buffer,
        }
    }
}

/// No half-edge: the twin of one at the mesh's rim. (In `delaunator` it is `usize::MAX`.)
pub const EMPTY: u32 = u32::MAX;

/// A mesh of triangles over the occupied substations, its vertices, with `delaunator`'s names. Lines are
/// routed through it.
///
/// Both lists are equally long: three numbers a triangle, at most 24,576. A triangle's three vertices differ. A half-edge
/// runs from its vertex to the triangle's next; its twin runs between the same two the other way round, and has it
/// as its twin. Any mesh for which this holds is used; another is refused ([`Refusal::Mesh`](crate::Refusal::Mesh)).
/// With fewer than three occupied substations, or 0 rounds, the mesh isn't looked at. The empty mesh is allowed:
/// lines are then led round boxes and no more.
///
/// ```
/// use tansygate::{Mesh, EMPTY};
///
/// // Two triangles that share the edge between 1 and 2.
/// let mesh = Mesh { triangles: &[0, 1, 2, 2, 1, 3], halfedges: &[EMPTY, 3, EMPTY, 1, EMPTY, EMPTY] };
/// assert_eq!(mesh.triangles.len(), mesh.halfedges.len());
/// ```
#[derive(Clone, Copy, Debug, Default, PartialEq, Eq)]
pub struct Mesh<'a> {
    /// Three vertices for each triangle.
    pub triangles: &'a [u32],
    /// The twin of each half-edge, or [`EMPTY`].
    pub halfedges: &'a [u32],
}

/// A mesh that holds its lists.
///
/// ```
/// use tansygate::MeshBuf;
///
/// // What delaunator's `Triangulation` holds for one triangle.
/// let mesh = MeshBuf::new(&[0, 1, 2], &[usize::MAX; 3]);
/// assert_eq!(mesh.lend().halfedges, [tansygate::EMPTY; 3]);
/// ```
#[derive(Clone, Debug, Default, PartialEq, Eq)]
pub struct MeshBuf {
    /// Three vertices for each triangle.
    pub triangles: Vec<u32>,
    /// The twin of each half-edge, or [`EMPTY`].
    pub halfedges: Vec<u32>,
}

impl MeshBuf {
    /// From the two lists of a `delaunator::Triangulation`, whose missing twin is `usize::MAX`. Another number that
    /// no mesh can hold stays one.
    pub fn new(triangles: &[usize], halfedges: &[usize]) -> Self {
        let narrow = |&v: &usize| u32::try_from(v).unwrap_or(u32::MAX - 1);
        let twin = |v: &usize| if *v == usize::MAX { EMPTY } else { narrow(v) };
        Self { triangles: triangles.iter().map(narrow).collect(), halfedges: halfedges.iter().map(twin).collect() }
    }

    /// Its lists, lent.
    pub fn lend(&self) -> Mesh<'_> {
        Mesh { triangles: &self.triangles, halfedges: &self.halfedges }
    }
}
