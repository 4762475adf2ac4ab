//! Lines led off what they may be misread with. The library's way of a line stays where nothing is wrong with it; where it
//! turns back into its own box, runs back on itself, bends on another line or passes a foreign box, a better one is looked for
//! near it. Boxes, bars and the rows of lines stay where they are. Open branches, which the library has straight, are led anew.
mod cost;
mod ends;
mod inside;
mod near_ways;
mod open;
mod slots;

use crate::misread::near::Near;
use crate::misread::shapes::{Point, Span};
use crate::network::Network;
use slots::Slot;
use tansygate::{TxLayout, TX_ROLE_LINE, TX_ROLE_OPEN};

/// In networks with more branches fewer ways are tried, so that a sheet takes seconds.
const MANY: usize = 1_500;

/// Paper round the drawing, in millimetres, that lines may be led over.
const MARGIN: f64 = 6.0;

/// The way of a line, from its first row to its second, in millimetres.
struct Line {
    branch: usize,
    stations: [usize; 2],
    points: Vec<Point>,
    /// The width of its stroke.
    wide: f64,
    open: bool,
}

/// A straight piece of a line, as it was when the line had been led so many times.
struct Piece {
    line: usize,
    version: usize,
    ends: [Point; 2],
}

/// A box, its bars from left to right, the side of a block, and how far from the edge bars and rows begin.
struct Place {
    span: Span,
    bars: Vec<f64>,
    block: f64,
    pad: f64,
}

struct Bar {
    x: f64,
    top: f64,
    bottom: f64,
}

struct Plan {
    page: Span,
    /// By station number; none where a station has no bus.
    places: Vec<Option<Place>>,
    boxes: Near,
    /// By bus.
    bars: Vec<Bar>,
    /// The rows that open branches take, by station number.
    slots: Vec<Vec<Slot>>,
    /// Whether there are so many branches that fewer ways are tried.
    many: bool,
    lines: Vec<Line>,
    versions: Vec<usize>,
    pieces: Vec<Piece>,
    near: Near,
}

/// From the drawing's numbers to millimetres.
struct Paper {
    scale: f64,
    corner: Point,
}

impl Paper {
    fn point(&self, p: &[f64]) -> Point {
        [(p[0] - self.corner[0]) * self.scale + MARGIN, (p[1] - self.corner[1]) * self.scale + MARGIN]
    }

    fn back(&self, [x, y]: Point) -> Point {
        [(x - MARGIN) / self.scale + self.corner[0], (y - MARGIN) / self.scale + self.corner[1]]
    }
}

/// Leads the lines of a drawing that is printed at this scale, in millimetres a unit.
pub fn improve(network: &Network, layout: &mut TxLayout, scale: f64) {
    let paper = Paper { scale, corner: [layout.bounds[0], layout.bounds[1]] };
    let mut plan = Plan::new(network, layout, &paper);
    let before: Vec<Vec<Point>> = plan.lines.iter().map(|line| line.points.clone()).collect();
    for line in 0..before.len() {
        plan.lead_ends(line);
    }
    for line in 0..before.len() {
        plan.lead_near(line);
    }
    let inside = plan.lead_all_open(network, layout, &paper);
    for line in 0..plan.lines.len() {
        plan.lead_near(line);
    }
    if !plan.many {
        (0..plan.lines.len()).for_each(|line| plan.lead_exits(line));
    }
    let led = |&line: &usize| before.get(line).is_none_or(|way| plan.lines[line].points != *way);
    let led = (0..plan.lines.len()).filter(led).map(|line| {
        let Line { branch, points, open, .. } = &plan.lines[line];
        Led { branch: *branch, points: points.clone(), open: *open }
    });
    let led: Vec<Led> = led.chain(inside).filter(|led| led.points.len() > 1).collect();
    write(layout, &led, &paper);
}

/// The way that a branch is led.
struct Led {
    branch: usize,
    points: Vec<Point>,
    open: bool,
}

/// Puts ways into the lists of pieces; both ends of a live line stay as they were, to the bit.
fn write(layout: &mut TxLayout, led: &[Led], paper: &Paper) {
    let mut ways: Vec<Option<&Led>> = vec![None; layout.role.len()];
    led.iter().for_each(|led| ways[led.branch] = Some(led));
    let (mut segments, mut edges) = (Vec::new(), Vec::new());
    let mut at = 0;
    while at < layout.segment_edge.len() {
        let branch = layout.segment_edge[at];
        let count = layout.segment_edge[at..].iter().take_while(|&&edge| edge == branch).count();
        let old = &layout.segments[4 * at..4 * (at + count)];
        match ways[branch as usize] {
            None => segments.extend_from_slice(old),
            Some(led) => {
                let last = old.len() - 2;
                let mut points: Vec<Point> = led.points.iter().map(|&p| paper.back(p)).collect();
                let end = points.len() - 1;
                if !led.open {
                    (points[0], points[end]) = ([old[0], old[1]], [old[last], old[last + 1]]);
                    (points[1][1], points[end - 1][1]) = (old[1], old[last + 1]);
                }
                let pieces = points.windows(2).filter(|two| two[0] != two[1]);
                pieces.for_each(|two| segments.extend([two[0][0], two[0][1], two[1][0], two[1][1]]));
            }
        }
        edges.resize(segments.len() / 4, branch);
        at += count;
    }
    (layout.segments, layout.segment_edge) = (segments, edges);
}

impl Plan {
    /// Leads all open branches that are drawn; gives the ways of those inside one box.
    fn lead_all_open(&mut self, network: &Network, layout: &TxLayout, paper: &Paper) -> Vec<Led> {
        let mut drawn: Vec<usize> = layout.segment_edge.iter().map(|&branch| branch as usize).collect();
        drawn.dedup();
        let mut inside = Vec::new();
        for branch in drawn.into_iter().filter(|&branch| layout.role[branch] == TX_ROLE_OPEN) {
            let row = &network.branches[branch];
            let Some((from, to)) = network.known(row.from).zip(network.known(row.to)) else { continue };
            let stations = [from, to].map(|bus| network.buses[bus].station as usize);
            if stations[0] == stations[1] {
                let points = self.lead_inside(branch, [from, to], stations[0]);
                inside.push(Led { branch, points, open: true });
            } else {
                self.lead_open(branch, [from, to], stations, stroke(layout, stations, paper));
            }
        }
        inside
    }

    fn new(network: &Network, layout: &TxLayout, paper: &Paper) -> Self {
        let far = paper.point(&layout.bounds[2..]);
        let page = Span([0.0, 0.0, far[0] + MARGIN, far[1] + MARGIN]);
        let mut plan = Plan {
            page,
            places: places(network, layout, paper),
            boxes: Near::new(&page),
            bars: bars(layout, paper),
            slots: vec![Vec::new(); layout.scale.len()],
            many: network.branches.len() > MANY,
            lines: Vec::new(),
            versions: Vec::new(),
            pieces: Vec::new(),
            near: Near::new(&page),
        };
        for (station, place) in plan.places.iter().enumerate() {
            place.iter().for_each(|place| plan.boxes.add(station, &place.span));
        }
        for line in lines(network, layout, paper) {
            plan.lines.push(line);
            plan.versions.push(0);
            plan.enter(plan.lines.len() - 1);
        }
        plan
    }

    /// Enters the pieces of a line where they are.
    fn enter(&mut self, line: usize) {
        for two in self.lines[line].points.windows(2) {
            let ends = [two[0], two[1]];
            self.near.add_piece(self.pieces.len(), ends);
            self.pieces.push(Piece { line, version: self.versions[line], ends });
        }
    }

    fn set(&mut self, line: usize, points: Vec<Point>) {
        self.lines[line].points = points;
        self.versions[line] += 1;
        self.enter(line);
    }

    fn place(&self, station: usize) -> Option<&Place> {
        self.places.get(station)?.as_ref()
    }
}

fn places(network: &Network, layout: &TxLayout, paper: &Paper) -> Vec<Option<Place>> {
    let mut list: Vec<Option<Place>> = (0..layout.scale.len()).map(|_| None).collect();
    for (i, bus) in network.buses.iter().enumerate() {
        let station = bus.station as usize;
        let four = &layout.boxes[4 * station..4 * station + 4];
        let block = layout.unit * layout.scale[station] * paper.scale;
        let span = Span::of(paper.point(&four[..2]), paper.point(&four[2..]));
        let x = paper.point(&layout.busbars[4 * i..4 * i + 2])[0];
        let place = list[station].get_or_insert(Place { span, bars: Vec::new(), block, pad: f64::INFINITY });
        place.bars.push(x);
        place.pad = place.pad.min(x - span.0[0]);
    }
    list
}

fn bars(layout: &TxLayout, paper: &Paper) -> Vec<Bar> {
    let bar = |four: &[f64]| {
        let ([x, top], [_, bottom]) = (paper.point(&four[..2]), paper.point(&four[2..]));
        Bar { x, top: top.min(bottom), bottom: top.max(bottom) }
    };
    layout.busbars.chunks_exact(4).map(bar).collect()
}

/// The width of the stroke of a line between two stations.
fn stroke(layout: &TxLayout, stations: [usize; 2], paper: &Paper) -> f64 {
    let block = stations.map(|s| layout.unit * layout.scale[s] * paper.scale);
    (0.13 * 1.35 * block[0].min(block[1])).clamp(0.18, 0.8)
}

/// The lines that leave their boxes level, at the edges, as the library has them.
fn lines(network: &Network, layout: &TxLayout, paper: &Paper) -> Vec<Line> {
    let mut points: Vec<Vec<Point>> = vec![Vec::new(); network.branches.len()];
    for (four, &branch) in layout.segments.chunks_exact(4).zip(&layout.segment_edge) {
        let way = &mut points[branch as usize];
        if way.is_empty() {
            way.push(paper.point(&four[..2]));
        }
        way.push(paper.point(&four[2..]));
    }
    let ways = points.into_iter().enumerate().filter(|(branch, _)| layout.role[*branch] == TX_ROLE_LINE);
    let line = |(branch, points): (usize, Vec<Point>)| {
        let row = &network.branches[branch];
        let stations =
            [network.known(row.from)?, network.known(row.to)?].map(|bus| network.buses[bus].station as usize);
        let wide = stroke(layout, stations, paper);
        let last = points.len().checked_sub(1).filter(|&last| last >= 3)?;
        let level = (points[0][1] - points[1][1]).abs() + (points[last][1] - points[last - 1][1]).abs() < 1e-6;
        level.then_some(Line { branch, stations, points, wide, open: false })
    };
    ways.filter_map(line).collect()
}

#[cfg(test)]
mod tests {
    use super::cost::Known;
    use super::*;

    /// Two boxes, one below the other and a little to its right, with a bar each, and lines between them.
    fn plan(ways: &[&[Point]]) -> Plan {
        let page = Span([0.0, 0.0, 120.0, 160.0]);
        let place = |span: [f64; 4], bar: f64| Some(Place { span: Span(span), bars: vec![bar], block: 2.0, pad: 2.0 });
        let places = vec![place([20.0, 20.0, 30.0, 60.0], 25.0), place([24.0, 100.0, 34.0, 140.0], 29.0)];
        let (boxes, near) = (Near::new(&page), Near::new(&page));
        let (lines, versions, pieces) = (Vec::new(), Vec::new(), Vec::new());
        let bars = [[25.0, 22.0, 58.0], [29.0, 102.0, 138.0]].map(|[x, top, bottom]| Bar { x, top, bottom });
        let (bars, slots) = (bars.into(), vec![Vec::new(), Vec::new()]);
        let mut plan = Plan { page, places, boxes, bars, slots, many: false, lines, versions, pieces, near };
        for station in [0, 1] {
            let span = plan.places[station].as_ref().unwrap().span;
            plan.boxes.add(station, &span);
        }
        for (branch, points) in ways.iter().enumerate() {
            plan.lines.push(Line { branch, stations: [0, 1], points: points.to_vec(), wide: 0.3, open: false });
            plan.versions.push(0);
            plan.enter(branch);
        }
        plan
    }

    fn grave(plan: &Plan, line: usize) -> bool {
        !plan.grave(line, &mut Known::default()).is_empty()
    }

    /// From the right of the upper box to the left of the lower one, through both of them: it goes round them, its rows stay.
    #[test]
    fn round_its_own_boxes() {
        let way = [[25.0, 40.0], [30.0, 40.0], [24.0, 120.0], [29.0, 120.0]];
        let mut plan = plan(&[&way]);
        let back = |plan: &Plan| [0, 1].map(|end| plan.turns_back(0, end, end).is_some());
        assert!(grave(&plan, 0) && back(&plan) == [true, true]);
        plan.lead_ends(0);
        let led = &plan.lines[0].points;
        assert!(back(&plan) == [false, false], "{led:?}");
        assert_eq!((led[0], led[led.len() - 1]), (way[0], way[3]));
        assert!(led[1][1] == 40.0 && led[led.len() - 2][1] == 120.0, "{led:?}");
    }

    #[test]
    fn without_a_hairpin() {
        let way = [[25.0, 40.0], [30.0, 40.0], [90.0, 70.0], [60.0, 72.0], [34.0, 120.0], [29.0, 120.0]];
        let mut plan = plan(&[&way]);
        assert!(grave(&plan, 0));
        plan.lead_near(0);
        assert!(!grave(&plan, 0), "{:?}", plan.lines[0].points);
    }

    /// Of two lines with one bend the first moves off, and what is well stays.
    #[test]
    fn off_another_line() {
        let one = [[25.0, 40.0], [30.0, 40.0], [70.0, 80.0], [34.0, 110.0], [29.0, 110.0]];
        let two = [[25.0, 50.0], [30.0, 50.0], [70.0, 80.1], [34.0, 120.0], [29.0, 120.0]];
        let far = [[25.0, 30.0], [20.0, 30.0], [4.0, 80.0], [24.0, 130.0], [29.0, 130.0]];
        let mut plan = plan(&[&one, &two, &far]);
        assert!(grave(&plan, 0) && grave(&plan, 1) && !grave(&plan, 2));
        (0..3).for_each(|line| plan.lead_near(line));
        assert!(!grave(&plan, 0) && !grave(&plan, 1));
        assert_eq!(plan.lines[2].points, far);
    }
}
