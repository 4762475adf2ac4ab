//! Lines that run under the name of a substation or a bus: the letters hide where they go on.
use super::near::Near;
use super::shapes::{inside, length, part_of, Point, Shapes, Span};
use super::{Kind, Place};
use std::collections::BTreeMap;

/// A shorter way under a name isn't seen as one.
const LEAST: f64 = 0.6;

/// The parts of a line of text above the baseline and at its ends that letters don't fill.
const NARROWER: f64 = 0.96;
const DROP: f64 = 0.22;

/// A name, and what it is of.
struct Text {
    span: Span,
    station: usize,
    bus: Option<usize>,
}

/// One place for each line and name.
pub fn found(shapes: &Shapes) -> Vec<Place> {
    let mut near = Near::new(&shapes.page);
    let mut pieces: Vec<(usize, [Point; 2])> = Vec::new();
    for run in &shapes.runs {
        for piece in run.pieces() {
            near.add_piece(pieces.len(), piece);
            pieces.push((run.branch, piece));
        }
    }
    let names = shapes
        .names
        .iter()
        .flat_map(|name| name.lines.iter().map(|span| Text { span: *span, station: name.station, bus: None }));
    let tags = shapes.tags.iter().map(|tag| Text { span: tag.span, station: tag.station, bus: Some(tag.bus) });
    let mut found: BTreeMap<(usize, Option<usize>, usize), Point> = BTreeMap::new();
    for text in names.chain(tags) {
        let letters = letters(&text.span);
        for i in near.at(&letters) {
            let (branch, piece) = pieces[i];
            let Some([from, to]) = inside(&letters, piece) else { continue };
            if (to - from) * length(piece) >= LEAST {
                found.entry((text.station, text.bus, branch)).or_insert(part_of(piece, (from + to) / 2.0));
            }
        }
    }
    let place = |((station, bus, branch), at)| Place {
        branch: Some(branch),
        station: Some(station),
        bus,
        ..Place::new(Kind::Hidden, at)
    };
    found.into_iter().map(place).collect()
}

/// What letters of a line of text cover.
fn letters(span: &Span) -> Span {
    let [left, top, right, bottom] = span.narrowed(NARROWER).0;
    Span([left, top, right, bottom - DROP * (bottom - top)])
}
