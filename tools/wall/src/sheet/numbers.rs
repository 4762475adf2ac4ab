//! Numbers of branches: on its own row beside each end of a run, and beside the cross of an open one.
use super::body::bar_width;
use super::crosses::Cross;
use super::lettering::{width, Anchor, Line, CAPITALS, SMALLEST};
use super::near::Near;
use super::scene::{Run, Scene, Station};
use super::shape::{Point, Rect};
use super::taken::Taken;
use crate::network::Network;

pub struct Number {
    pub branch: usize,
    /// The end of the run that it stands at; none at a cross.
    pub end: Option<usize>,
    pub station: Option<usize>,
    pub open: bool,
    /// Whether its own run goes through it, and is cut there.
    pub cuts: bool,
    /// Whether it stands on its run outside the box.
    pub outside: bool,
    /// From it to its cross, where it doesn't stand beside it.
    pub leader: Option<[Point; 2]>,
    pub line: Line,
}

impl Number {
    /// What it covers left and right of its box, in the widest font.
    pub fn outer(&self, scene: &Scene) -> Vec<Rect> {
        let Some(station) = self.station else { return Vec::new() };
        let (r, own) = (self.line.capitals(), scene.station(station).rect);
        let (left, right) = (Rect { right: r.right.min(own.left), ..r }, Rect { left: r.left.max(own.right), ..r });
        [left, right].into_iter().filter(|rect| rect.width() > 0.0).collect()
    }
}

#[derive(Default)]
pub struct Numbers {
    pub list: Vec<Number>,
    /// Runs, each with the end or the cross that found no room for one.
    pub left_out: Vec<(usize, Option<usize>)>,
    /// Branches with their numbers once more where they pass under boxes.
    pub at_gaps: Vec<(usize, Line)>,
}

/// Between a dot and its number, and round a number.
const BESIDE: f64 = 0.2;
const ROUND: f64 = 0.05;

/// The part of a number's width that is kept clear of bars: all of it in most fonts, nine tenths in the widest.
pub const TIGHT: f64 = 0.9;

/// Where rows are closer, in millimetres, a number would stand for a crowd of them.
const LOWEST: f64 = 0.45;

/// A number, and a line from it to its cross where it doesn't stand beside it.
type Led = (Line, Option<[Point; 2]>);

/// How far beyond its place beside a cross a number may stand, in millimetres; a line leads to it.
const FARTHER: [f64; 4] = [0.0, 2.5, 5.0, 9.0];

pub struct Around<'a> {
    pub network: &'a Network,
    pub scene: &'a Scene,
    pub pieces: &'a Near,
    pub bars: &'a Near,
    pub boxes: &'a Near,
    /// The largest text.
    pub largest: f64,
}

/// An end of a run, on its bar.
struct End<'a> {
    run: usize,
    at: Point,
    station: &'a Station,
    bus: usize,
    /// The way that the run leaves it: -1 to the left, 1 to the right.
    way: f64,
}

/// The numbers of live runs first, which have rows of their own, then those of open ones. An open run inside one box has
/// one number, beside its cross.
pub fn placed(around: &Around<'_>, crosses: &[Cross], taken: &mut Taken) -> Numbers {
    let mut numbers = Numbers::default();
    for (i, run) in around.scene.runs.iter().enumerate().filter(|(_, run)| !run.is_open()) {
        [0, 1].into_iter().for_each(|end| around.put(&mut numbers, taken, i, run, end));
    }
    for cross in crosses {
        let run = &around.scene.runs[cross.run];
        let nearer = |[x, y]: Point| {
            let far = |p: Point| (p[0] - x).hypot(p[1] - y);
            crosses.iter().any(|other| other.run != cross.run && far(other.at) < far(cross.at) + 0.1)
        };
        match around.beside_cross(cross, &nearer, taken) {
            Some((line, leader)) => {
                taken.add(line.capitals().grown(ROUND));
                let (branch, end, station) = (run.branch, None, None);
                let of = Number { branch, end, station, open: true, cuts: false, outside: false, leader, line };
                numbers.list.push(of);
            }
            None => numbers.left_out.push((cross.run, None)),
        }
        if run.stations[0] != run.stations[1] {
            [0, 1].into_iter().for_each(|end| around.put(&mut numbers, taken, cross.run, run, end));
        }
    }
    numbers
}

impl Around<'_> {
    fn put(&self, numbers: &mut Numbers, taken: &mut Taken, i: usize, run: &Run, end: usize) {
        let Some(of) = self.end(i, run, end) else { return };
        if of.station.block < LOWEST {
            numbers.left_out.push((i, Some(end)));
            return;
        }
        match self.best(&of, run.is_open(), taken) {
            Some(line) => {
                taken.add(line.narrowed(TIGHT).grown(ROUND));
                let (station, open) = (Some(of.station.number), run.is_open());
                let cuts = !open && (line.x < of.at[0]) == (of.way < 0.0);
                let (branch, end) = (run.branch, Some(end));
                numbers.list.push(Number { branch, end, station, open, cuts, outside: false, leader: None, line });
            }
            None => numbers.left_out.push((i, Some(end))),
        }
    }

    fn end(&self, i: usize, run: &Run, end: usize) -> Option<End<'_>> {
        let row = &self.network.branches[run.branch];
        let bus = self.network.known([row.from, row.to][end])?;
        let count = run.points.len();
        let (at, next) =
            if end == 0 { (run.points[0], run.points[1]) } else { (run.points[count - 1], run.points[count - 2]) };
        let station = self.scene.station(self.scene.bars[bus].station);
        let way = if next[0] < at[0] { -1.0 } else { 1.0 };
        Some(End { run: i, at, station, bus, way })
    }

    /// Away from where the run leaves where there is room, else on the run itself.
    fn best(&self, of: &End<'_>, open: bool, taken: &Taken) -> Option<Line> {
        let text = &self.network.branches[self.scene.runs[of.run].branch].number;
        let large = (0.55 * of.station.block).clamp(SMALLEST, self.largest);
        let mut found: Option<(usize, Line)> = None;
        for (size, dislike) in [(large, 0), (SMALLEST, 5)] {
            for side in [-of.way, of.way] {
                let Some((line, out)) = self.beside(of, side, text, size) else { continue };
                let rect = line.narrowed(TIGHT).grown(ROUND);
                let covered = self.scene.through(self.pieces, &rect, Some(of.run));
                let blocked = open && covered > 0 || self.crosses_bar(&rect, of.bus);
                if blocked || !taken.free(&rect) {
                    continue;
                }
                let cost = dislike + 4 * covered + 3 * usize::from(out) + usize::from(side == of.way);
                if found.as_ref().is_none_or(|(least, _)| cost < *least) {
                    found = Some((cost, line));
                }
            }
        }
        found.map(|(_, line)| line)
    }

    /// The number on one side of an end, and whether it reaches over the box's edge.
    fn beside(&self, of: &End<'_>, side: f64, text: &str, size: f64) -> Option<(Line, bool)> {
        let wide = TIGHT * width(text, size, false);
        let dot = 0.98 * bar_width(of.station.block) + BESIDE;
        let near = of.at[0] + side * dot;
        let far = near + side * wide;
        let edge = if side < 0.0 { of.station.rect.left } else { of.station.rect.right };
        let over = side * (far - edge);
        let line = Line {
            text: text.to_string(),
            x: if side < 0.0 { near - width(text, size, false) } else { near },
            y: of.at[1] + CAPITALS * size / 2.0,
            size,
            bold: false,
            anchor: if side < 0.0 { Anchor::End } else { Anchor::Start },
        };
        (over <= size).then_some((line, over > 0.0))
    }

    /// Whether another bar stands in the way.
    fn crosses_bar(&self, rect: &Rect, own: usize) -> bool {
        let hit = |&i: &usize| {
            let bar = &self.scene.bars[i];
            let half = 0.5 * bar_width(self.scene.station(bar.station).block);
            i != own && Rect::new(bar.x - half, bar.top, bar.x + half, bar.bottom).overlaps(rect)
        };
        self.bars.near(rect).iter().any(hit)
    }

    /// A number beside a cross, where it covers little, or farther from it with a line that leads there.
    fn beside_cross(&self, cross: &Cross, nearer: &dyn Fn(Point) -> bool, taken: &Taken) -> Option<Led> {
        FARTHER.into_iter().find_map(|far| self.off_cross(cross, far, nearer, taken))
    }

    fn off_cross(&self, cross: &Cross, far: f64, nearer: &dyn Fn(Point) -> bool, taken: &Taken) -> Option<Led> {
        let run = &self.scene.runs[cross.run];
        let text = &self.network.branches[run.branch].number;
        let size = if far > 0.0 { SMALLEST } else { (0.65 * run.block).clamp(SMALLEST, self.largest) };
        let (wide, tall) = (width(text, size, false), CAPITALS * size);
        let (x, y) = (cross.arm + BESIDE + 0.2 + far + wide / 2.0, cross.arm + BESIDE + far + tall / 2.0);
        let own = |i: &usize| self.scene.stations[*i].rect.has(cross.at);
        let mut found: Option<(usize, Line)> = None;
        for (i, (dx, dy)) in
            [(x, 0.0), (-x, 0.0), (0.0, -y), (0.0, y), (x, -y), (-x, -y), (x, y), (-x, y)].into_iter().enumerate()
        {
            let line = Line {
                text: text.clone(),
                x: cross.at[0] + dx - wide / 2.0,
                y: cross.at[1] + dy + tall / 2.0,
                size,
                bold: true,
                anchor: Anchor::Middle,
            };
            let rect = line.capitals().grown(ROUND);
            if !taken.free(&rect) || self.crosses_bar(&rect, usize::MAX) || nearer(rect.middle()) {
                continue;
            }
            let boxes = self.boxes.near(&rect);
            let foreign = boxes.iter().filter(|i| !own(i) && self.scene.stations[**i].rect.overlaps(&rect)).count();
            let cost = i + 10 * self.scene.through(self.pieces, &rect, None) + 40 * foreign;
            if found.as_ref().is_none_or(|(least, _)| cost < *least) {
                found = Some((cost, line));
            }
        }
        let leader = |line: &Line| {
            let r = line.capitals();
            [[cross.at[0].clamp(r.left, r.right), cross.at[1].clamp(r.top, r.bottom)], cross.at]
        };
        found.map(|(_, line)| (line.clone(), (far > 0.0).then(|| leader(&line))))
    }
}
