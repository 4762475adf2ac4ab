//! Names, numbers and signs: what stands nearer to another thing than to its own, and what isn't there.
use super::near::Near;
use super::shapes::{apart, gap, Round, Shapes, Span};
use super::{Kind, Place};
use std::collections::HashMap;

/// So much nearer, in millimetres, another thing takes a text.
const NEARER: f64 = 0.05;

/// The farthest that a box is looked for round a name.
const FAR: f64 = 25.0;

pub fn found(shapes: &Shapes) -> Vec<Place> {
    let mut places = names(shapes);
    places.extend(boxes(shapes));
    places.extend(rings(shapes));
    places.extend(crosses(shapes));
    places
}

/// Names that stand nearer to another box than to their own, and to which no line leads.
fn names(shapes: &Shapes) -> Vec<Place> {
    let mut near = Near::new(&shapes.page);
    shapes.boxes.iter().enumerate().for_each(|(i, boxed)| near.add(i, &boxed.span));
    let own: HashMap<usize, usize> = shapes.boxes.iter().enumerate().map(|(i, boxed)| (boxed.station, i)).collect();
    let mut places = Vec::new();
    for name in shapes.names.iter().filter(|name| !name.led) {
        let Some(&box_of) = own.get(&name.station) else { continue };
        let far = gap(&name.span, &shapes.boxes[box_of].span);
        let nearer = |&i: &usize| i != box_of && gap(&name.span, &shapes.boxes[i].span) < far - NEARER;
        if near.at(&name.span.grown(far.min(FAR))).iter().any(nearer) {
            places.push(Place { station: Some(name.station), ..Place::new(Kind::Name, name.span.middle()) });
        }
    }
    places
}

/// Boxes that nothing tells the name of, or the rows.
fn boxes(shapes: &Shapes) -> Vec<Place> {
    let place = |kind: Kind, i: usize| {
        let boxed = &shapes.boxes[i];
        Place { station: Some(boxed.station), ..Place::new(kind, boxed.span.middle()) }
    };
    let all = shapes.boxes.iter().enumerate();
    let kinds = all.flat_map(|(i, boxed)| {
        let unnamed = (!boxed.named && !boxed.signed).then_some((Kind::Unnamed, i));
        let rows = (boxed.counted && !boxed.banded).then_some((Kind::Rows, i));
        unnamed.into_iter().chain(rows)
    });
    kinds.map(|(kind, i)| place(kind, i)).collect()
}

/// Rings of two open branches that are one to the eye, unless both have their numbers there.
fn rings(shapes: &Shapes) -> Vec<Place> {
    let mut near = Near::new(&shapes.page);
    let span = |i: usize| {
        let [x, y] = shapes.rings[i].at;
        Span([x, y, x, y]).grown(shapes.rings[i].radius)
    };
    (0..shapes.rings.len()).for_each(|i| near.add(i, &span(i)));
    let mut places: Vec<Place> = Vec::new();
    for (i, ring) in shapes.rings.iter().enumerate() {
        for j in near.at(&span(i)).into_iter().filter(|&j| j > i) {
            let other = &shapes.rings[j];
            let told = || [ring, other].iter().all(|round| numbered(shapes, round));
            if other.branch != ring.branch && apart(ring.at, other.at) < 0.9 * (ring.radius + other.radius) && !told() {
                let [branch, other] = [ring.branch.min(other.branch), ring.branch.max(other.branch)].map(Some);
                places.push(Place { branch, other, ..Place::new(Kind::Ring, ring.at) });
            }
        }
    }
    places
}

/// Whether a ring's branch has its number for this end: beside it, on its line or with a line that leads there.
fn numbered(shapes: &Shapes, ring: &Round) -> bool {
    let ends = shapes.runs.iter().find(|run| run.branch == ring.branch).and_then(|run| run.ends());
    let here = |end: usize| ends.is_some_and(|ends| apart(ends[end], ring.at) < 0.02);
    let mut own = shapes.numbers.iter().filter(|number| number.branch == ring.branch);
    own.any(|number| number.end.is_some_and(here))
}

/// Crosses that have no number, or one that stands nearer to another cross.
fn crosses(shapes: &Shapes) -> Vec<Place> {
    let at_cross = |number: &&super::shapes::Number| number.end.is_none();
    let numbers: HashMap<usize, [f64; 2]> =
        shapes.numbers.iter().filter(at_cross).map(|number| (number.branch, number.span.middle())).collect();
    let mut places = Vec::new();
    for &(branch, at) in &shapes.crosses {
        let far = |number: [f64; 2], cross: [f64; 2]| (number[0] - cross[0]).hypot(number[1] - cross[1]);
        let taken = |number: [f64; 2]| {
            let mut others = shapes.crosses.iter().filter(|(other, _)| *other != branch);
            others.find(|(_, cross)| far(number, *cross) < far(number, at) - NEARER).map(|(other, _)| *other)
        };
        let other = numbers.get(&branch).map(|&number| taken(number));
        if other.is_none_or(|other| other.is_some()) {
            places.push(Place { branch: Some(branch), other: other.flatten(), ..Place::new(Kind::Cross, at) });
        }
    }
    places
}
