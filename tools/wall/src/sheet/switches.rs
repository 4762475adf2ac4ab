//! Isolators: in brackets beside the dot or ring of their end, or on their run outside the box, where there is room.
use super::body::{bar_width, Body, PAPER};
use super::kinds::meets_bar;
use super::lettering::{width, Anchor, Line, CAPITALS, SMALLEST};
use super::numbers::{Around, Numbers, TIGHT};
use super::palette;
use super::scene::Run;
use super::shape::{distance, Point, Rect};
use super::svg::{path, Svg};
use super::taken::Taken;

/// Between a dot, or a number, and an isolator; round an isolator; how far it may reach over its box's edge.
const BESIDE: f64 = 0.3;
const ROUND: f64 = 0.05;
const OVER: f64 = 1.0;

/// Paper round one that stands on its run outside the box, and how far from the box that may be, in millimetres.
const CLEAR: f64 = 0.25;
const ALONG: [f64; 7] = [1.5, 3.0, 5.0, 7.5, 10.0, 13.0, 16.0];

pub struct Switch {
    pub branch: usize,
    pub end: usize,
    /// What of its own run is covered behind it, in which colour.
    cut: Option<([Point; 2], &'static str)>,
    pub line: Line,
}

/// The isolators that have room, and how many have none.
pub fn placed(around: &Around<'_>, numbers: &Numbers, taken: &mut Taken) -> (Vec<Switch>, usize) {
    let (mut list, mut left_out) = (Vec::new(), 0);
    for (i, run) in around.scene.runs.iter().enumerate() {
        let names = &around.network.branches[run.branch].more.switches;
        for (end, name) in names.iter().enumerate().filter(|(_, name)| !name.is_empty()) {
            let text = format!("[{name}]");
            let found = beside(around, i, run, end, &text, numbers, taken);
            match found.or_else(|| outside(around, i, run, end, &text, taken)) {
                Some(switch) => {
                    taken.add(switch.line.narrowed(TIGHT).grown(ROUND));
                    list.push(switch);
                }
                None => left_out += 1,
            }
        }
    }
    (list, left_out)
}

/// The points of a run from one of its ends.
fn from_end(run: &Run, end: usize) -> Vec<Point> {
    let mut points = run.points.clone();
    if end == 1 {
        points.reverse();
    }
    points
}

/// Beside the end or the number there: away from where the run leaves, or else on the run.
fn beside(
    around: &Around<'_>,
    i: usize,
    run: &Run,
    end: usize,
    text: &str,
    numbers: &Numbers,
    taken: &Taken,
) -> Option<Switch> {
    let points = from_end(run, end);
    let (at, station) = (points[0], around.scene.station(run.stations[end]));
    let way = if points[1][0] < at[0] { -1.0 } else { 1.0 };
    let dot = 0.98 * bar_width(station.block);
    let number = numbers.list.iter().find(|number| number.branch == run.branch && number.end == Some(end));
    let wide = width(text, SMALLEST, false);
    let tries = [-way, way].into_iter().flat_map(|side| {
        let beyond = number.map(|number| number.line.rect()).filter(|r| (r.middle()[0] - at[0]) * side > 0.0);
        let past = beyond.map(|r| if side < 0.0 { at[0] - r.left } else { r.right - at[0] });
        let first = past.is_none().then_some(dot + BESIDE);
        first.into_iter().chain(past.map(|past| past + BESIDE)).map(move |off| (side, off))
    });
    let line = |side: f64, off: f64| Line {
        text: text.to_string(),
        x: if side < 0.0 { at[0] - off - wide } else { at[0] + off },
        y: at[1] + CAPITALS * SMALLEST / 2.0,
        size: SMALLEST,
        bold: false,
        anchor: if side < 0.0 { Anchor::End } else { Anchor::Start },
    };
    let room = Rect { left: station.rect.left - OVER, right: station.rect.right + OVER, ..station.rect };
    let fits = |line: &Line| {
        let rect = line.narrowed(TIGHT).grown(ROUND);
        let alone = around.scene.through(around.pieces, &rect, Some(i)) == 0;
        room.holds(&rect) && alone && taken.free(&rect) && !meets_bar(around, around.bars, &rect)
    };
    let found = tries.map(|(side, off)| (side, line(side, off))).find(|(_, line)| fits(line));
    found.map(|(side, line)| {
        let cut = (side == way && !run.is_open()).then(|| (behind(&line), PAPER));
        Switch { branch: run.branch, end, cut, line }
    })
}

/// The middle of a text, from its left to its right.
fn behind(line: &Line) -> [Point; 2] {
    let r = line.narrowed(TIGHT);
    [[r.left, r.middle()[1]], [r.right, r.middle()[1]]]
}

/// On the run where it has left its box.
fn outside(around: &Around<'_>, i: usize, run: &Run, end: usize, text: &str, taken: &Taken) -> Option<Switch> {
    if run.stations[0] == run.stations[1] {
        return None;
    }
    let own = around.scene.station(run.stations[end]).rect;
    let points = from_end(run, end);
    let left = points.windows(2).find_map(|two| {
        let [_, leave] = own.part(two[0], two[1])?;
        (leave < 1.0).then(|| [0, 1].map(|axis| two[0][axis] + leave * (two[1][axis] - two[0][axis])))
    })?;
    let after = points.iter().position(|&p| !own.grown(0.01).has(p))?;
    let way: Vec<Point> = std::iter::once(left).chain(points[after..].iter().copied()).collect();
    let wide = width(text, SMALLEST, false);
    ALONG.into_iter().filter_map(|far| along(&way, far + wide / 2.0)).find_map(|at| {
        let (x, y) = (at[0] - wide / 2.0, at[1] + CAPITALS * SMALLEST / 2.0);
        let line = Line { text: text.to_string(), x, y, size: SMALLEST, bold: false, anchor: Anchor::Middle };
        let rect = line.capitals().grown(CLEAR);
        let boxes = around.boxes.near(&rect);
        let clear = boxes.iter().all(|&place| !around.scene.stations[place].rect.overlaps(&rect));
        let alone = around.scene.through(around.pieces, &rect, Some(i)) == 0;
        let cut = Some((behind(&line), "#ffffff"));
        (clear && alone && taken.free(&rect)).then(|| Switch { branch: run.branch, end, cut, line })
    })
}

/// The point so far along a way.
fn along(way: &[Point], mut far: f64) -> Option<Point> {
    for two in way.windows(2) {
        let long = distance(two[0], two[1]);
        if far <= long && long > 0.0 {
            return Some([0, 1].map(|axis| two[0][axis] + far / long * (two[1][axis] - two[0][axis])));
        }
        far -= long;
    }
    None
}

impl Body<'_> {
    pub fn switches(&self, svg: &mut Svg) {
        if self.placed.switches.is_empty() {
            return;
        }
        svg.open("g", &super::writing::texts("switches", "#111111", PAPER, "0.4"));
        for switch in &self.placed.switches {
            if let Some((points, colour)) = switch.cut {
                let tall = switch.line.narrowed(TIGHT).height();
                svg.leaf("path", &palette::stroke(path(&points), colour, if colour == PAPER { 1.0 } else { tall }));
            }
            let key = ("data-switch", switch.branch.to_string());
            svg.line(&switch.line, &[key, ("data-end", switch.end.to_string())]);
        }
        svg.close();
    }
}
