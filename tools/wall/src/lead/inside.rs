//! Open branches between two bars of one box: level where both have a place between the same rows, else by a column between two
//! bars.
use super::slots::Slot;
use super::Plan;
use crate::misread::shapes::Point;

/// Parts of the way between two bars that an upright stretch stands at.
const COLUMNS: [f64; 5] = [0.5, 0.35, 0.65, 0.25, 0.75];

/// So many places are tried on each bar.
const TRIED: usize = 12;

impl Plan {
    /// The way of an open branch inside a box; its rows are kept for it.
    pub fn lead_inside(&mut self, branch: usize, buses: [usize; 2], station: usize) -> Vec<Point> {
        let heights = buses.map(|bus| self.heights(station, bus));
        let ways = self.level(buses, &heights).into_iter().chain(self.stepped(station, buses, &heights));
        let slots = |way: &[Point]| way.windows(2).map(|two| Slot::new(branch, two[0], two[1])).collect::<Vec<_>>();
        let mut best: Option<(usize, Vec<Point>)> = None;
        for way in ways {
            let clashes = slots(&way).iter().map(|slot| self.clashes(station, slot)).sum();
            if best.as_ref().is_none_or(|(least, _)| clashes < *least) {
                best = Some((clashes, way));
            }
            if clashes == 0 {
                break;
            }
        }
        let way = best.map_or_else(Vec::new, |(_, way)| way);
        self.slots[station].extend(slots(&way));
        way
    }

    /// Level ways, the nearest to the middles of both bars first.
    fn level(&self, buses: [usize; 2], heights: &[Vec<f64>; 2]) -> Vec<Vec<Point>> {
        let [a, b] = buses.map(|bus| self.bars[bus].x);
        let rank = |list: &[f64], y: f64| list.iter().position(|other| (other - y).abs() < 0.01);
        let mut ranked: Vec<(usize, f64)> =
            heights[0].iter().enumerate().filter_map(|(i, &y)| Some((i + rank(&heights[1], y)?, y))).collect();
        ranked.sort_by(|p, q| p.0.cmp(&q.0).then(p.1.total_cmp(&q.1)));
        ranked.into_iter().map(|(_, y)| vec![[a, y], [b, y]]).collect()
    }

    /// Ways with an upright stretch between two bars, in the order of the places that they begin and end at.
    fn stepped(&self, station: usize, buses: [usize; 2], heights: &[Vec<f64>; 2]) -> Vec<Vec<Point>> {
        let [a, b] = buses.map(|bus| self.bars[bus].x);
        let mut bars: Vec<f64> = self.place(station).map_or_else(Vec::new, |place| place.bars.clone());
        bars.retain(|x| a.min(b) - 0.01 < *x && *x < a.max(b) + 0.01);
        bars.sort_by(f64::total_cmp);
        let columns = bars.windows(2).flat_map(|two| COLUMNS.map(|part| two[0] + (two[1] - two[0]) * part));
        let columns: Vec<f64> = columns.collect();
        let mut ends: Vec<(usize, usize)> = (0..heights[0].len().min(TRIED))
            .flat_map(|i| (0..heights[1].len().min(TRIED)).map(move |j| (i, j)))
            .collect();
        ends.sort_by_key(|(i, j)| i + j);
        let way = |(i, j): (usize, usize), x: f64| {
            let (from, to) = (heights[0][i], heights[1][j]);
            vec![[a, from], [x, from], [x, to], [b, to]]
        };
        let ways = ends.into_iter().flat_map(|ends| columns.iter().map(move |&x| way(ends, x)));
        ways.filter(|way| (way[1][1] - way[2][1]).abs() > 0.02).collect()
    }
}
