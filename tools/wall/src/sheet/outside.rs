//! Numbers outside boxes, each on its own run where paper is white: those that found no room in their boxes, and those of lines
//! that pass under boxes, on both sides of the gap.
use super::body::bar_width;
use super::lettering::{width, Anchor, Line, CAPITALS, SMALLEST};
use super::numbers::{Around, Number, Numbers, TIGHT};
use super::scene::Station;
use super::shape::{between, distance, Point, Rect};
use super::taken::Taken;

/// How far along its run from the box's edge a number may stand, in millimetres.
const ALONG: [f64; 9] = [1.2, 2.2, 3.4, 4.8, 6.5, 8.5, 11.0, 14.0, 17.0];

/// How far beside its box and how far below its end a number may stand to which a line leads, in millimetres.
const LED: [[f64; 2]; 15] = [
    [1.0, 0.0],
    [1.0, 2.4],
    [1.0, -2.4],
    [3.0, 0.0],
    [3.0, 2.4],
    [3.0, -2.4],
    [1.0, 4.8],
    [1.0, -4.8],
    [5.5, 0.0],
    [5.5, 3.0],
    [5.5, -3.0],
    [3.0, 5.5],
    [3.0, -5.5],
    [8.5, 2.0],
    [8.5, -2.0],
];

/// Paper round a number that is kept free of other strokes, and of boxes.
const ROUND: f64 = 0.25;

/// Paper round it that is kept free of other texts.
const RIM: f64 = 0.05;

impl Around<'_> {
    /// Places numbers that are left out, as far as there is room: what is placed is taken from the list.
    pub fn outside(&self, numbers: &mut Numbers, taken: &mut Taken) {
        for (run, end) in std::mem::take(&mut numbers.left_out) {
            match end.and_then(|end| self.on_run(run, end, taken).or_else(|| self.led(run, end, taken))) {
                Some(number) => {
                    taken.add(number.line.capitals().grown(RIM));
                    let leader = number.leader.iter().flat_map(|leader| dots(*leader));
                    leader.for_each(|dot| taken.add(dot));
                    numbers.list.push(number);
                }
                None => numbers.left_out.push((run, end)),
            }
        }
    }

    fn on_run(&self, i: usize, end: usize, taken: &Taken) -> Option<Number> {
        let run = &self.scene.runs[i];
        if run.stations[0] == run.stations[1] {
            return None;
        }
        let station = self.scene.station(run.stations[end]);
        let line = self.on_way(i, &self.way_out(i, end, &station.rect)?, &ALONG, taken)?;
        let (branch, station) = (run.branch, Some(station.number));
        let open = run.is_open();
        Some(Number { branch, end: Some(end), station, open, cuts: true, outside: true, leader: None, line })
    }

    /// A number beside its box with a thin line to its end, which passes no other bar and no other end.
    fn led(&self, i: usize, end: usize, taken: &Taken) -> Option<Number> {
        let run = &self.scene.runs[i];
        let at = run.ends()[end];
        let station = self.scene.station(run.stations[end]);
        let text = &self.network.branches[run.branch].number;
        let wide = width(text, SMALLEST, false);
        let tries = LED.into_iter().flat_map(|off| [(off, false), (off, true)]).map(|([far, down], left)| {
            let x = if left { station.rect.left - far - wide } else { station.rect.right + far };
            let (y, anchor) =
                (at[1] + down + CAPITALS * SMALLEST / 2.0, if left { Anchor::End } else { Anchor::Start });
            let line = Line { text: text.clone(), x, y, size: SMALLEST, bold: false, anchor };
            let r = line.narrowed(TIGHT);
            let leader = [[at[0].clamp(r.left - 0.2, r.right + 0.2), at[1].clamp(r.top, r.bottom)], at];
            (line, leader)
        });
        let free = |(line, leader): &(Line, [Point; 2])| {
            let clear = |dot: &Rect| station.rect.overlaps(&dot.grown(0.2)) || taken.free(dot);
            self.is_white(line, taken, None)
                && dots(*leader).iter().all(clear)
                && self.passes_nothing(i, station, *leader)
        };
        let (line, leader) = tries.into_iter().find(free)?;
        let (branch, end, station) = (run.branch, Some(end), Some(station.number));
        let (open, leader) = (run.is_open(), Some(leader));
        Some(Number { branch, end, station, open, cuts: false, outside: true, leader, line })
    }

    /// Whether a line from a number to an end, which comes last, keeps off other bars and ends of the box, and off other boxes.
    fn passes_nothing(&self, i: usize, station: &Station, leader: [Point; 2]) -> bool {
        let [p, q] = leader;
        let bar = |&bus: &usize| {
            let bar = &self.scene.bars[bus];
            let half = bar_width(station.block);
            let own = (bar.x - q[0]).abs() < 0.01;
            !own && Rect::new(bar.x - half, bar.top, bar.x + half, bar.bottom).meets(p, q)
        };
        let near = |other: usize| {
            let ends = self.scene.runs[other].ends().into_iter();
            ends.into_iter()
                .any(|e| (other != i || e != q) && Rect::around(e, e).grown(bar_width(station.block)).meets(p, q))
        };
        let boxes = self.boxes.along(p, q, 0.0).into_iter().map(|i| &self.scene.stations[i]);
        let mut others = boxes.filter(|other| other.number != station.number);
        let ends = self.pieces.near(&Rect::around(p, q).grown(1.0)).into_iter().any(near);
        !station.buses.iter().any(bar) && !ends && !others.any(|other| other.rect.meets(p, q))
    }

    /// Whether a number has room: no run goes through it but one where that is its own. In the widest font it keeps clear of
    /// other texts too.
    fn is_white(&self, line: &Line, taken: &Taken, own: Option<usize>) -> bool {
        let rect = line.narrowed(TIGHT).grown(ROUND);
        let clear = |i: &usize| !self.scene.stations[*i].rect.overlaps(&rect);
        let free = taken.free(&rect) && taken.free(&line.capitals().grown(RIM));
        free && self.boxes.near(&rect).iter().all(clear) && self.scene.through(self.pieces, &rect, own) == 0
    }

    /// The number of a run on a part of it, the nearest to its start where paper is white.
    fn on_way(&self, i: usize, way: &[Point], along: &[f64], taken: &Taken) -> Option<Line> {
        let text = &self.network.branches[self.scene.runs[i].branch].number;
        let (wide, tall) = (width(text, SMALLEST, false), CAPITALS * SMALLEST);
        let line = |[x, y]: Point| Line {
            text: text.clone(),
            x: x - wide / 2.0,
            y: y + tall / 2.0,
            size: SMALLEST,
            bold: false,
            anchor: Anchor::Middle,
        };
        let half = way.windows(2).map(|two| distance(two[0], two[1])).sum::<f64>() / 2.0;
        let reach = |slope: Point| (wide / 2.0).min(slope[0].abs() * wide / 2.0 + slope[1].abs() * tall / 2.0);
        let tries = along.iter().filter_map(|&along| {
            let middle = along + reach(along_way(way, along)?.1);
            (middle <= half.max(3.0)).then(|| along_way(way, middle).map(|(at, _)| line(at))).flatten()
        });
        let free = |line: &Line| self.is_white(line, taken, Some(i));
        tries.into_iter().find(free)
    }

    /// What is seen of a run outside its box, from the box's edge on, without a gap; none where it goes under the box there.
    fn way_out(&self, i: usize, end: usize, rect: &Rect) -> Option<Vec<Point>> {
        let run = &self.scene.runs[i];
        let mut part = if end == 0 { run.shown.first()?.clone() } else { run.shown.last()?.clone() };
        if end == 1 {
            part.reverse();
        }
        let out = part.windows(2).position(|two| rect.part(two[0], two[1]).is_none_or(|[_, b]| b < 1.0 - 1e-9))?;
        let leave = rect.part(part[out], part[out + 1]).map_or(0.0, |[_, b]| b);
        let first = between(part[out], part[out + 1], leave);
        let way: Vec<Point> = std::iter::once(first).chain(part[out + 1..].iter().copied()).collect();
        Some(way)
    }
}

/// How far from a gap a number may stand on its run, in millimetres.
const AT_GAP: [f64; 5] = [0.8, 2.0, 3.5, 5.5, 8.0];

impl Around<'_> {
    /// The number of each line on both sides of each gap where it passes under a box, as far as there is room.
    pub fn at_gaps(&self, numbers: &mut Numbers, taken: &mut Taken) {
        for (i, run) in self.scene.runs.iter().enumerate() {
            for two in run.shown.windows(2) {
                let before: Vec<Point> = two[0].iter().rev().copied().collect();
                for way in [&before, &two[1]] {
                    if let Some(line) = self.on_way(i, way, &AT_GAP, taken) {
                        taken.add(line.capitals().grown(RIM));
                        numbers.at_gaps.push((run.branch, line));
                    }
                }
            }
        }
    }
}

/// Small rectangles along a thin line, without its ends.
fn dots([p, q]: [Point; 2]) -> Vec<Rect> {
    let count = distance(p, q).ceil().clamp(2.0, 1e3) as usize;
    let dot = |i: usize| {
        let at = between(p, q, i as f64 / count as f64);
        Rect::around(at, at).grown(0.15)
    };
    (1..count).map(dot).collect()
}

/// The point so far along a way, and the direction there.
fn along_way(way: &[Point], mut along: f64) -> Option<(Point, Point)> {
    for two in way.windows(2) {
        let long = distance(two[0], two[1]);
        if along <= long && long > 0.0 {
            let slope = [(two[1][0] - two[0][0]) / long, (two[1][1] - two[0][1]) / long];
            return Some((between(two[0], two[1], along / long), slope));
        }
        along -= long;
    }
    None
}
