//! The shapes of the sheet as a reader sees them, from what is placed on it, with the numbers that the file will have.
use super::body::line_width;
use super::lettering::Line;
use super::palette::Palette;
use super::placing::Placed;
use super::scene::{Run, Scene};
use super::shape::{Point, Rect};
use super::signs::What;
use super::svg::hundredths;
use crate::check::Span;
use crate::misread::shapes::{lettering, Band, Bar, Boxed, Name, Number, Round, Run as Seen, Shapes, Tag};
use crate::network::Network;
use std::rc::Rc;

fn point([x, y]: Point) -> Point {
    [hundredths(x), hundredths(y)]
}

/// A rectangle that the file has by its corner and its sides.
pub fn span(rect: &Rect) -> Span {
    let ([x, y], [wide, high]) = (point([rect.left, rect.top]), point([rect.width(), rect.height()]));
    Span([x, y, x + wide, y + high])
}

/// What a line of text covers, about.
pub fn text(line: &Line) -> Span {
    let anchor = line.anchor.name().unwrap_or("start");
    lettering(&line.text, point([line.at(), line.y]), hundredths(line.size), anchor)
}

/// Boxes, bars and runs, with their dots and rings.
pub fn of_scene(network: &Network, scene: &Scene, palette: &Palette, page: &Rect) -> Shapes {
    let mut shapes = Shapes { page: Span([0.0, 0.0, page.right, page.bottom]), ..Shapes::default() };
    shapes.boxes = scene.stations.iter().map(|s| boxed(s.number, span(&s.rect))).collect();
    let bars = scene.bars.iter().enumerate();
    shapes.bars = bars
        .map(|(bus, bar)| Bar {
            bus,
            station: bar.station,
            x: hundredths(bar.x),
            top: hundredths(bar.top),
            bottom: hundredths(bar.bottom),
            colour: palette.colour(bar.level).into(),
        })
        .collect();
    for run in &scene.runs {
        let Some(seen) = seen(network, palette, run) else { continue };
        for (end, bus) in run.ends().into_iter().zip(seen.buses) {
            let radius = hundredths(super::body::dot(scene, &scene.bars[bus]));
            let round = Round { branch: run.branch, at: point(end), radius };
            if run.is_open() { &mut shapes.rings } else { &mut shapes.dots }.push(round);
        }
        shapes.runs.push(seen);
    }
    shapes
}

fn boxed(station: usize, span: Span) -> Boxed {
    Boxed { station, span, named: true, signed: false, counted: false, banded: false }
}

fn seen(network: &Network, palette: &Palette, run: &Run) -> Option<Seen> {
    let row = &network.branches[run.branch];
    let buses = [network.known(row.from)?, network.known(row.to)?];
    let paint = palette.paint(run.level);
    let colour: Rc<str> = paint.hex().into();
    let parts = run.shown.iter().map(|part| part.iter().copied().map(point).collect()).collect();
    let wide = hundredths(line_width(run, paint));
    Some(Seen { branch: run.branch, buses, stations: run.stations, open: run.is_open(), wide, colour, parts })
}

/// All that is placed.
pub fn of(network: &Network, placed: &Placed, palette: &Palette, page: &Rect) -> Shapes {
    let scene = &placed.scene;
    let mut shapes = of_scene(network, scene, palette, page);
    for (i, boxed) in shapes.boxes.iter_mut().enumerate() {
        boxed.named = !placed.station_names[i].lines.is_empty();
        boxed.counted = placed.rows.counted(i);
        boxed.banded = boxed.counted && !placed.rows.bands(scene, i).is_empty();
    }
    for sign in &placed.signs {
        let boxed = &mut shapes.boxes[scene.place(sign.station)];
        match sign.what {
            What::Name => boxed.signed = true,
            What::Rows => boxed.banded = true,
        }
    }
    let bands = placed.stretches.iter();
    shapes.bands = bands
        .map(|stretch| Band {
            branches: stretch.runs.iter().map(|&run| scene.runs[run].branch).collect(),
            points: stretch.points.iter().copied().map(point).collect(),
        })
        .collect();
    let numbers = placed.numbers.list.iter();
    shapes.numbers = numbers.map(|n| Number { branch: n.branch, end: n.end, span: text(&n.line) }).collect();
    shapes.crosses =
        placed.crosses.iter().map(|cross| (scene.runs[cross.run].branch, middle(cross.at, cross.arm))).collect();
    for name in &placed.station_names {
        let lines: Vec<Span> = name.lines.iter().map(text).collect();
        let whole = lines.iter().copied().reduce(|a, b| a.and(&b));
        let (station, led) = (name.station, name.leader.is_some());
        shapes.names.extend(whole.map(|span| Name { station, span, lines, led }));
    }
    for name in &placed.bus_names {
        let (bus, station) = (name.bus, scene.bars[name.bus].station);
        shapes.tags.extend(name.line.as_ref().map(|line| Tag { bus, station, span: text(line) }));
    }
    shapes
}

/// The middle of a cross, as the ends of its arms have it.
fn middle([x, y]: Point, arm: f64) -> Point {
    let (low, high) = (point([x - arm, y - arm]), point([x + arm, y + arm]));
    Span([low[0], low[1], high[0], high[1]]).middle()
}
