//! The audit call.
use crate::ffi;
use crate::layout::TxLayout;
use crate::network::TxLayoutInput;
use crate::refusal::Refusal;

/// The figures of a drawing. The original's `bends` and `sharp_bends` aren't here.
#[derive(Clone, Debug, PartialEq)]
pub struct TxLayoutQuality {
    /// Distance from start to drawn middle of each occupied substation, in substation order.
    pub displacement: Vec<f64>,
    /// Distance from its middle to the nearest other, in shorter sides of its box; infinite where there is none.
    pub spacing: Vec<f64>,
    /// Pairs of occupied substations whose boxes overlap.
    pub overlapping_pairs: usize,
    /// Segments of lines that run through a box of a substation that isn't at one of the line's ends.
    pub lines_through_boxes: usize,
    /// Drawn length over straight length of each unbroken stretch of a line's segments, in list order.
    pub relative_length: Vec<f64>,
}

/// Audits a drawing of a network, as [`tx_schematic_layout`](crate::tx_schematic_layout) left it or any other. Of the
/// drawing it reads `boxes`, `role`, `segments` and `segment_edge`.
///
/// ```
/// use tansygate::{tx_layout_quality, tx_schematic_layout, Mesh, TxLayoutInput, TxLayoutOptions};
///
/// // Two substations on one point, and no search for a free place: their boxes overlap.
/// let input = TxLayoutInput {
///     bus_substation: vec![0, 1],
///     kv: vec![110.0, 110.0],
///     xy: vec![0.0; 4],
///     ..TxLayoutInput::default()
/// };
/// let options = TxLayoutOptions { search: 0, ..TxLayoutOptions::default() };
/// let drawing = tx_schematic_layout(&input, &options, Mesh::default())?;
/// assert_eq!(tx_layout_quality(&input, &drawing)?.overlapping_pairs, 1);
/// # Ok::<(), tansygate::Refusal>(())
/// ```
///
/// # Errors
/// Refusals 1 to 4, 15, 6, 13 and 8, in this order: 13 where the drawing doesn't fit its network. A drawing that was just made
/// can be refused with 8, since segment ends are tested too.
pub fn tx_layout_quality(input: &TxLayoutInput, layout: &TxLayout) -> Result<TxLayoutQuality, Refusal> {
    input.validate()?;
    let (n, k) = (input.bus_substation.len(), input.substations());
    let (mut displacement, mut spacing) = (vec![0.0; k], vec![0.0; k]);
    let mut relative_length = vec![0.0; layout.segment_edge.len()];
    let a = ffi::audit(
        &mut displacement,
        &mut spacing,
        &mut relative_length,
        &mut vec![0; 2 * n],
        &mut vec![0; ffi::index_length(n)],
        &mut vec![0; n],
        &mut vec![0; n],
        &mut vec![0.0; 2 * n],
        &mut vec![0.0; 2 * n],
        &input.bus_substation,
        &input.kv_bits(),
        &input.from,
        &input.to,
        &input.xy,
        &layout.boxes,
        &layout.role,
        &layout.segments,
        &layout.segment_edge,
    );
    Refusal::check(a.number)?;
    displacement.truncate(a.stations);
    spacing.truncate(a.stations);
    relative_length.truncate(a.relative);
    Ok(TxLayoutQuality {
        displacement,
        spacing,
        overlapping_pairs: a.overlaps,
        lines_through_boxes: a.through,
        relative_length,
    })
}
