//! How good a drawing is for a reader: the less, the better.
use super::page::Page;
use super::palette::Palette;
use super::placing::{self, Placed};
use super::{scene, seen};
use crate::args::Settings;
use crate::colours::Colours;
use crate::drawing::Drawing;
use crate::misread::{self, Kind};
use crate::network::Network;

/// What may be misread of the lines of a drawing, by gravity: the less, the better.
#[derive(Clone, Debug, PartialEq, PartialOrd)]
pub struct Measure {
    overlaps: usize,
    /// Lines that look joined where they aren't.
    joints: usize,
    hairpins: usize,
    bends: usize,
    /// Numbers that found no place.
    numbers: usize,
    /// Lines along edges of boxes.
    edges: usize,
    /// Times that a line passes under a box.
    under: usize,
    length: f64,
}

/// How much on a drawing lines would have to be led off: hairpins, bends on others, and boxes that they pass under.
pub fn roughly(network: &Network, drawing: &Drawing, settings: &Settings, colours: &Colours) -> usize {
    let palette = Palette::new(network, colours);
    let layout = &drawing.layout;
    let (page, view) =
        Page::fitted(settings.paper, settings.approval.rows(), &scene::extent(layout), layout.unit, &|_| 0.0);
    let scene = placing::cut(network, drawing, &palette, &page, &view);
    let mut shapes = seen::of_scene(network, &scene, &palette, &page.whole);
    // Open branches are led anew, whatever the drawing.
    shapes.runs.retain(|run| !run.open);
    let places = misread::of_lines(&shapes);
    let led = places.iter().filter(|place| matches!(place.kind, Kind::Hairpin | Kind::Bend)).count();
    led + 3 * drawing.quality.lines_through_boxes
}

/// Measures a drawing on the paper that it is for.
pub fn measured(network: &Network, drawing: &Drawing, settings: &Settings, colours: &Colours) -> Measure {
    let palette = Palette::new(network, colours);
    let layout = &drawing.layout;
    let (page, view) =
        Page::fitted(settings.paper, settings.approval.rows(), &scene::extent(layout), layout.unit, &|_| 0.0);
    let placed = Placed::new(network, drawing, &palette, &page, &view);
    let (shapes, numbers) = (seen::of(network, &placed, &palette, &page.whole), placed.numbers.left_out.len());
    let places = misread::of_lines(&shapes);
    let count = |kinds: &[Kind]| places.iter().filter(|place| kinds.contains(&place.kind)).count();
    Measure {
        overlaps: drawing.quality.overlapping_pairs,
        joints: count(&Kind::JOINTS),
        hairpins: count(&[Kind::Hairpin]),
        bends: count(&[Kind::Bend, Kind::Bent, Kind::Beside]),
        numbers,
        edges: count(&[Kind::Edge]),
        under: shapes.runs.iter().map(|run| run.parts.len().saturating_sub(1)).sum(),
        length: shapes.runs.iter().map(|run| run.length()).sum(),
    }
}
