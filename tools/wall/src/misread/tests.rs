//! Each kind of what may be misread of lines, on shapes that have it and on shapes that just don't.
use super::shapes::{Bar, Boxed, Name, Point, Round, Run, Shapes, Span, Tag};
use super::{found, Kind};

/// Three boxes side by side, each with a bar in its middle; a name stands below the second.
fn shapes() -> Shapes {
    let page = Span([0.0, 0.0, 200.0, 200.0]);
    let mut shapes = Shapes { page, ..Shapes::default() };
    for (station, left) in [20.0, 100.0, 60.0].into_iter().enumerate() {
        let span = Span([left, 20.0, left + 20.0, 60.0]);
        let (named, signed, counted, banded) = (true, false, false, false);
        shapes.boxes.push(Boxed { station, span, named, signed, counted, banded });
        let x = left + 10.0;
        shapes.bars.push(Bar { bus: station, station, x, top: 24.0, bottom: 56.0, colour: "#111111".into() });
    }
    let span = Span([60.0, 62.0, 80.0, 65.0]);
    shapes.names.push(Name { station: 2, span, lines: vec![span], led: false });
    shapes.tags.push(Tag { bus: 1, station: 1, span: Span([104.0, 20.5, 116.0, 23.5]) });
    shapes
}

fn run(branch: usize, open: bool, parts: &[&[Point]]) -> Run {
    let parts = parts.iter().map(|part| part.to_vec()).collect();
    Run { branch, buses: [0, 1], stations: [0, 1], open, wide: 0.3, colour: "#111111".into(), parts }
}

/// The kinds of what is found on the shapes with one line or more, live or open.
fn kinds(open: bool, lines: &[&[&[Point]]]) -> Vec<Kind> {
    let mut shapes = shapes();
    for (branch, parts) in lines.iter().enumerate() {
        shapes.runs.push(run(branch, open, parts));
    }
    found(&shapes).into_iter().map(|place| place.kind).filter(|kind| *kind != Kind::Name).collect()
}

/// Live and open lines are measured alike.
fn both(lines: &[&[&[Point]]]) -> Vec<Kind> {
    let (live, open) = (kinds(false, lines), kinds(true, lines));
    assert_eq!(live, open);
    live
}

/// From the right of the first box over the second and the third's free side to the left of the other.
const WELL: [Point; 6] = [[30.0, 40.0], [40.0, 40.0], [50.0, 10.0], [90.0, 10.0], [100.0, 40.0], [110.0, 40.0]];

#[test]
fn a_line_that_is_well() {
    assert_eq!(both(&[&[&WELL]]), []);
}

#[test]
fn along_its_own_bar() {
    let down: [Point; 5] = [[30.0, 30.0], [30.3, 50.0], [40.0, 70.0], [90.0, 70.0], [110.0, 40.0]];
    let all = both(&[&[&down]]);
    assert!(all.contains(&Kind::Along) && all.contains(&Kind::Across), "{all:?}");
}

#[test]
fn over_dots_and_rings() {
    for ring in [false, true] {
        let mut shapes = shapes();
        shapes.runs.push(run(0, true, &[&WELL]));
        let round = |y: f64| Round { branch: 7, at: [36.0, y], radius: 0.5 };
        if ring { &mut shapes.rings } else { &mut shapes.dots }.push(round(40.5));
        assert_eq!(found(&shapes).iter().filter(|place| place.kind == Kind::Dot).count(), 1);
        shapes.dots = Vec::new();
        shapes.rings = vec![round(40.7)];
        assert!(found(&shapes).iter().all(|place| place.kind != Kind::Dot));
    }
}

#[test]
fn under_bars_and_at_tips() {
    let through: [Point; 6] = [[30.0, 40.0], [40.0, 40.0], [50.0, 41.0], [90.0, 42.0], [100.0, 40.0], [110.0, 40.0]];
    let all = both(&[&[&through]]);
    assert!(all.contains(&Kind::Bar) && all.contains(&Kind::Box), "{all:?}");
    let tip: [Point; 6] = [[30.0, 40.0], [40.0, 40.0], [62.0, 18.0], [70.0, 23.8], [100.0, 40.0], [110.0, 40.0]];
    assert!(both(&[&[&tip]]).contains(&Kind::Tip));
}

#[test]
fn along_edges() {
    let at = |x: f64| {
        let (out, back) = ([[30.0, 40.0], [40.0, 40.0], [50.0, 12.0]], [[90.0, 70.0], [100.0, 40.0], [110.0, 40.0]]);
        [&out[..], &[[x, 12.0], [x, 70.0]], &back].concat()
    };
    assert_eq!(both(&[&[&at(59.8)]]), [Kind::Edge]);
    assert_eq!(both(&[&[&at(59.5)]]), []);
    let corner = |off: f64| -> [Point; 5] {
        [[30.0, 40.0], [40.0, 40.0], [60.0 - off, 20.0 - off], [99.0, 10.0], [110.0, 40.0]]
    };
    assert!(both(&[&[&corner(0.2)]]).contains(&Kind::Edge));
    assert!(!both(&[&[&corner(0.5)]]).contains(&Kind::Edge));
}

/// A bend of one line near another's stroke, whichever of the two is open.
#[test]
fn bends_near_lines() {
    let straight: [Point; 4] = [[30.0, 50.0], [40.0, 50.0], [100.0, 80.0], [110.0, 80.0]];
    let bent = |y: f64| -> [Point; 5] { [[30.0, 30.0], [40.0, 30.0], [50.0, y], [90.0, 5.0], [110.0, 30.0]] };
    let count = |y: f64| both(&[&[&straight], &[&bent(y)]]).into_iter().filter(|k| *k == Kind::Bend).count();
    assert_eq!((count(55.5), count(54.0)), (1, 0));
}

#[test]
fn out_from_under_a_box() {
    let (before, behind) = ([[30.0, 40.0], [40.0, 40.0], [58.8, 40.0]], [[81.2, 40.0], [100.0, 40.0], [110.0, 40.0]]);
    assert_eq!(both(&[&[&before, &behind]]), []);
    let off = [[81.2, 45.0], [100.0, 40.0], [110.0, 40.0]];
    assert_eq!(both(&[&[&before, &off]]), [Kind::Bent]);
}

#[test]
fn side_by_side_under_a_box() {
    let (before, behind) = ([[30.0, 30.0], [40.0, 30.0], [58.8, 30.0]], [[81.2, 30.0], [100.0, 30.0], [110.0, 30.0]]);
    let below = |by: f64| [before, behind].map(|part| part.map(|[x, y]| [x, y + by]));
    let count = |by: f64| {
        let [a, b] = below(by);
        both(&[&[&before, &behind], &[&a, &b]])
    };
    assert_eq!(count(11.0), [Kind::Beside]);
    assert_eq!(count(13.0), []);
}

#[test]
fn under_names() {
    let under =
        |y: f64| -> [Point; 6] { [[30.0, 40.0], [40.0, 40.0], [50.0, y], [90.0, y], [100.0, 40.0], [110.0, 40.0]] };
    assert_eq!(both(&[&[&under(63.5)]]), [Kind::Hidden]);
    assert_eq!(both(&[&[&under(66.0)]]), []);
    let tag: [Point; 5] = [[30.0, 40.0], [40.0, 40.0], [90.0, 10.0], [110.0, 22.0], [110.0, 40.0]];
    assert!(both(&[&[&tag]]).contains(&Kind::Hidden));
}
