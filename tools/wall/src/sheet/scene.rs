//! What the sheet shows, in millimetres: boxes, bars and runs.
use super::near::Near;
use super::page::View;
use super::palette::Palette;
use super::shape::{distance, Point, Rect};
use crate::drawing::Drawing;
use crate::network::Network;
use tansygate::{TxLayout, TX_ROLE_OPEN};

pub struct Station {
    pub number: usize,
    pub rect: Rect,
    /// The side of a block of its grid.
    pub block: f64,
    /// From a side of the box to its bars and rows.
    pub pad: f64,
    /// Its buses, from left to right.
    pub buses: Vec<usize>,
}

pub struct Bar {
    pub x: f64,
    pub top: f64,
    pub bottom: f64,
    pub level: usize,
    pub station: usize,
}

pub struct Run {
    pub branch: usize,
    pub role: u8,
    pub points: Vec<Point>,
    /// What is seen of it: it has gaps where it passes under boxes.
    pub shown: Vec<Vec<Point>>,
    /// The voltage level, where both ends have one and the same.
    pub level: Option<usize>,
    /// The side of a block of the smaller of its two stations.
    pub block: f64,
    /// The stations at its two ends.
    pub stations: [usize; 2],
}

pub struct Scene {
    pub stations: Vec<Station>,
    pub bars: Vec<Bar>,
    pub runs: Vec<Run>,
}

/// What the drawing takes up: boxes, bars and pieces.
pub fn extent(layout: &TxLayout) -> Rect {
    let b = layout.bounds;
    let ends = layout.segments.chunks_exact(2).chain(layout.busbars.chunks_exact(2));
    ends.fold(Rect::new(b[0], b[1], b[2], b[3]), |r, p| r.with([p[0], p[1]]))
}

impl Scene {
    pub fn new(network: &Network, drawing: &Drawing, palette: &Palette, view: &View) -> Self {
        let layout = &drawing.layout;
        let block = |station: u32| layout.unit * layout.scale[station as usize] * view.scale;
        let mut scene = Scene {
            stations: stations(network, layout, view),
            bars: bars(network, layout, palette, view),
            runs: runs(network, layout, palette, view, &block),
        };
        if !drawing.led {
            scene.clear_rows(network);
        }
        scene.clear_tips();
        scene
    }

    /// The boxes by where they are.
    pub fn boxes(&self, page: &Rect) -> Near {
        let mut near = Near::new(page);
        self.stations.iter().enumerate().for_each(|(i, s)| near.insert(i, &s.rect));
        near
    }

    /// The runs by where they are.
    pub fn pieces(&self, page: &Rect) -> Near {
        let mut near = Near::new(page);
        for (i, run) in self.runs.iter().enumerate() {
            run.seen().for_each(|[p, q]| near.insert_piece(i, p, q));
        }
        near
    }

    /// The bars by where they are.
    pub fn bars_near(&self, page: &Rect) -> Near {
        let mut near = Near::new(page);
        let bars = self.bars.iter().enumerate();
        bars.for_each(|(i, bar)| near.insert_piece(i, [bar.x, bar.top], [bar.x, bar.bottom]));
        near
    }

    /// Where a station that has a box stands in the list, by its number.
    pub fn place(&self, number: usize) -> usize {
        self.stations.partition_point(|s| s.number < number)
    }

    /// A station that has a box, by its number.
    pub fn station(&self, number: usize) -> &Station {
        &self.stations[self.place(number)]
    }

    /// How many runs go through a rectangle, without one of them; in a crowd, at least so many.
    pub fn through(&self, pieces: &Near, rect: &Rect, but: Option<usize>) -> usize {
        let meets = |run: usize| self.runs[run].seen().any(|[p, q]| rect.meets(p, q));
        pieces.some(rect).into_iter().filter(|&run| Some(run) != but && meets(run)).count()
    }

    /// How many bends of runs lie in a rectangle; in a crowd, at least so many.
    pub fn bends(&self, pieces: &Near, rect: &Rect) -> usize {
        let inner = |part: &Vec<Point>| part[1..part.len() - 1].iter().filter(|p| rect.has(**p)).count();
        pieces.some(rect).into_iter().map(|run| self.runs[run].shown.iter().map(inner).sum::<usize>()).sum()
    }

    /// Moves the ends of straight open runs along their bars to between two rows, so that they lie on no live run, each where no
    /// other ends. Open runs that are led have their ends there.
    fn clear_rows(&mut self, network: &Network) {
        let mut taken: Vec<Vec<f64>> = vec![Vec::new(); self.bars.len()];
        for run in self.runs.iter_mut().filter(|run| run.is_open() && run.points.len() == 2) {
            let row = &network.branches[run.branch];
            let [p, q] = run.ends();
            for (i, (bus, other)) in [(row.from, q), (row.to, p)].into_iter().enumerate() {
                let Some(bus) = network.known(bus) else { continue };
                let at = self.stations.partition_point(|s| s.number < network.buses[bus].station as usize);
                let places = self.stations[at].between_rows(&self.bars[bus], run.points[i][1], other[1]);
                let free =
                    |y: &&f64| taken[bus].iter().all(|other| (**y - other).abs() > 0.4 * self.stations[at].block);
                let place = places.iter().find(free).or(places.first()).copied();
                run.points[i][1] = place.unwrap_or(run.points[i][1]);
                taken[bus].push(run.points[i][1]);
            }
            run.shown = vec![run.points.clone()];
        }
    }
}

/// A bar's tip this near to a row of another branch, in blocks, is drawn so much short of it.
const NEAR_ROW: f64 = 0.3;
const SHORT: f64 = 0.35;

impl Scene {
    /// Shortens bars whose tips lie on the level rows of other branches, which would look joined to them, unless something ends there.
    fn clear_tips(&mut self) {
        let mut rows: Vec<Vec<(f64, [f64; 2])>> = vec![Vec::new(); self.stations.len()];
        let mut ends: Vec<Vec<(f64, f64)>> = vec![Vec::new(); self.stations.len()];
        for run in &self.runs {
            let count = run.points.len();
            let two = [(0, 1), (count - 1, count - 2)];
            for (station, (row, next)) in run.stations.into_iter().zip(two) {
                let (place, [p, q]) = (self.place(station), [run.points[row], run.points[next]]);
                ends[place].push((p[0], p[1]));
                if (p[1] - q[1]).abs() < 0.01 {
                    rows[place].push((p[1], [p[0].min(q[0]), p[0].max(q[0])]));
                }
            }
        }
        for i in 0..self.bars.len() {
            let (place, bar) = (self.place(self.bars[i].station), &self.bars[i]);
            let (block, x) = (self.stations[place].block, bar.x);
            let near = |a: f64, b: f64| (a - b).abs() < NEAR_ROW * block;
            let passed = |tip: f64| rows[place].iter().any(|(y, [a, b])| near(*y, tip) && a + 0.01 < x && x < b - 0.01);
            let used = |tip: f64| ends[place].iter().any(|(u, y)| (u - x).abs() < 0.01 && near(*y, tip));
            let by = |tip: f64| if passed(tip) && !used(tip) { SHORT * block } else { 0.0 };
            let (above, below) = (by(bar.top), by(bar.bottom));
            self.bars[i].top += above;
            self.bars[i].bottom -= below;
        }
    }
}

impl Station {
    /// Heights on a bar between two rows, the nearest to its middle first: of two as near, the one towards another height,
    /// or the lower one.
    fn between_rows(&self, bar: &Bar, middle: f64, other: f64) -> Vec<f64> {
        let rows = (middle - self.rect.top - self.pad) / self.block - 0.5;
        let on_row = (rows - rows.round()).abs() <= 0.25;
        let towards = if other < middle - 0.01 { -1.0 } else { 1.0 };
        let first = if on_row { middle + 0.5 * towards * self.block } else { middle };
        let count = ((bar.bottom - bar.top) / self.block).round() as i32;
        let mut list: Vec<f64> = (-count..=count).map(|k| first + f64::from(k) * self.block).collect();
        list.retain(|y| bar.top - 0.01 <= *y && *y <= bar.bottom + 0.01);
        let off = |y: &f64| ((y - middle).abs() * 100.0).round();
        list.sort_by(|a, b| off(a).total_cmp(&off(b)).then(((b - a) * towards).total_cmp(&0.0)));
        list.iter().map(|y| y.clamp(bar.top, bar.bottom)).collect()
    }
}

fn stations(network: &Network, layout: &TxLayout, view: &View) -> Vec<Station> {
    let mut members = vec![Vec::new(); layout.scale.len()];
    for (i, bus) in network.buses.iter().enumerate() {
        members[bus.station as usize].push(i);
    }
    let left = |bus: &usize| layout.positions[2 * bus];
    let occupied = members.into_iter().enumerate().filter(|(_, buses)| !buses.is_empty());
    occupied
        .map(|(number, mut buses)| {
            buses.sort_by(|a, b| left(a).total_cmp(&left(b)));
            let rect = view.rect(&layout.boxes[4 * number..4 * number + 4]);
            let pad = (layout.busbars[4 * buses[0]] - layout.boxes[4 * number]) * view.scale;
            Station { number, rect, block: layout.unit * layout.scale[number] * view.scale, pad, buses }
        })
        .collect()
}

fn bars(network: &Network, layout: &TxLayout, palette: &Palette, view: &View) -> Vec<Bar> {
    let bars = layout.busbars.chunks_exact(4).zip(&network.buses);
    bars.map(|(four, bus)| {
        let r = view.rect(four);
        Bar { x: r.left, top: r.top, bottom: r.bottom, level: palette.level(bus.kv), station: bus.station as usize }
    })
    .collect()
}

/// The runs of all branches that have one, by branch number.
fn runs(network: &Network, layout: &TxLayout, palette: &Palette, view: &View, block: &dyn Fn(u32) -> f64) -> Vec<Run> {
    let mut points: Vec<Vec<Point>> = vec![Vec::new(); network.branches.len()];
    for (four, &branch) in layout.segments.chunks_exact(4).zip(&layout.segment_edge) {
        let run = &mut points[branch as usize];
        if run.is_empty() {
            run.push(view.point(four[0], four[1]));
        }
        run.push(view.point(four[2], four[3]));
    }
    let drawn = points.into_iter().enumerate().filter(|(_, points)| !points.is_empty());
    drawn
        .filter_map(|(branch, points)| {
            let row = &network.branches[branch];
            let (a, b) = (&network.buses[network.known(row.from)?], &network.buses[network.known(row.to)?]);
            let level = Some(palette.level(a.kv)).filter(|&level| level == palette.level(b.kv));
            Some(Run {
                branch,
                role: layout.role[branch],
                shown: vec![points.clone()],
                points,
                level,
                block: block(a.station).min(block(b.station)),
                stations: [a.station as usize, b.station as usize],
            })
        })
        .collect()
}

impl Run {
    pub fn is_open(&self) -> bool {
        self.role == TX_ROLE_OPEN
    }

    /// The straight pieces that are seen.
    pub fn seen(&self) -> impl Iterator<Item = [Point; 2]> + '_ {
        self.shown.iter().flat_map(|part| part.windows(2).map(|two| [two[0], two[1]]))
    }

    /// Whether both its ends stand in one row of one box.
    pub fn in_one_row(&self) -> bool {
        !self.is_open() && self.stations[0] == self.stations[1]
    }

    pub fn ends(&self) -> [Point; 2] {
        [self.points[0], self.points[self.points.len() - 1]]
    }

    pub fn length(&self) -> f64 {
        self.points.windows(2).map(|two| distance(two[0], two[1])).sum()
    }
}
