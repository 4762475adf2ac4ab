//! Lines along the edges of boxes, where they look like a part of the box, and bends there.
use super::near::Near;
use super::shapes::{inside, length, on_row, part_of, Point, Run, Shapes, Span};
use super::{Kind, Place};
use std::collections::BTreeMap;

/// A line this near to an edge, in millimetres, lies along it.
const BESIDE: f64 = 0.3;

/// A shorter way along an edge isn't seen as one.
const LEAST: f64 = 1.5;

/// How far inside its edge a box begins.
const INSIDE: f64 = 0.05;

/// One place for each line and box.
pub fn found(shapes: &Shapes) -> Vec<Place> {
    let mut boxes = Near::new(&shapes.page);
    shapes.boxes.iter().enumerate().for_each(|(i, boxed)| boxes.add(i, &boxed.span));
    shapes.runs.iter().flat_map(|run| of_run(shapes, &boxes, run)).collect()
}

fn of_run(shapes: &Shapes, boxes: &Near, run: &Run) -> Vec<Place> {
    let mut found: BTreeMap<usize, (f64, Point)> = BTreeMap::new();
    for part in &run.parts {
        for (i, two) in part.windows(2).enumerate() {
            let piece = [two[0], two[1]];
            let bend = (i + 2 < part.len()).then_some(two[1]);
            boxes.visit(piece, BESIDE, &mut |i| {
                let boxed = &shapes.boxes[i];
                let on_row = on_row(run, boxed.station, piece);
                if run.stations == [boxed.station; 2] || on_row {
                    return;
                }
                let wide = boxed.span.grown(BESIDE);
                let Some((long, at)) = beside(&boxed.span, &wide, piece) else { return };
                let turns = bend.filter(|&bend| wide.holds(&Span::of(bend, bend)));
                let turns = turns.filter(|&bend| !own_exit(run, boxed.station, bend));
                let kept = found.entry(i).or_insert((0.0, at));
                kept.0 += long + turns.map_or(0.0, |_| LEAST);
                kept.1 = turns.unwrap_or(kept.1);
            });
        }
    }
    let places = found.into_iter().filter(|(_, (long, _))| *long >= LEAST);
    let place = |(i, (_, at)): (usize, (f64, Point))| {
        let station = Some(shapes.boxes[i].station);
        Place { branch: Some(run.branch), station, ..Place::new(Kind::Edge, at) }
    };
    places.map(place).collect()
}

/// How much of a piece lies near an edge outside the box, and where; none where it goes on into the box.
fn beside(span: &Span, wide: &Span, piece: [Point; 2]) -> Option<(f64, Point)> {
    let [from, to] = inside(wide, piece)?;
    let within = inside(&span.grown(-INSIDE), piece).map_or(0.0, |[a, b]| b - a);
    let long = (to - from - within) * length(piece);
    Some((long, part_of(piece, (from + to) / 2.0)))
}

/// Whether a bend is where the row of a line leaves its own box.
fn own_exit(run: &Run, station: usize, bend: Point) -> bool {
    let Some(ends) = run.ends() else { return false };
    let own = (0..2).filter(|&end| run.stations[end] == station);
    own.into_iter().any(|end| (ends[end][1] - bend[1]).abs() < super::shapes::LEVEL)
}
