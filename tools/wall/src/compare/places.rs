//! What marks keep clear of, by where it is, and where a mark is least in the way.
use crate::check::reading::Reading;
use crate::check::{Point, Span};
use crate::sheet::shape::{between, distance, Rect};
use std::collections::HashMap;

/// Places of a mark: which parts of the way it points to, in which directions and how far from there, in millimetres.
const PARTS: [f64; 5] = [0.5, 0.35, 0.65, 0.2, 0.8];
const WAYS: [[f64; 2]; 8] =
    [[0.7, -0.7], [-0.7, -0.7], [0.7, 0.7], [-0.7, 0.7], [1.0, 0.0], [-1.0, 0.0], [0.0, -1.0], [0.0, 1.0]];
const AWAY: [f64; 5] = [4.0, 7.0, 11.0, 16.0, 24.0];

/// The side of a cell, in millimetres, and the paper at its edge that stays free.
const CELL: f64 = 10.0;
const EDGE: f64 = 12.0;

/// How much it counts that a mark covers another mark, a name or cross, a bar, a dot, a box or a run.
const MARK: usize = 90;
const NAME: usize = 60;
const BAR: usize = 4;
const DOT: usize = 3;
const BOX: usize = 2;
const RUN: usize = 3;

/// How much it counts that the line to a mark is level or upright, as those of the drawing are.
const LEVEL: usize = 40;

pub struct Places {
    area: Rect,
    cells: HashMap<(i64, i64), Vec<(Rect, usize)>>,
}

fn rect(span: &Span) -> Rect {
    let [left, top, right, bottom] = span.0;
    Rect::new(left, top, right, bottom)
}

fn cells(r: &Rect) -> impl Iterator<Item = (i64, i64)> {
    let cell = |v: f64| (v / CELL).floor() as i64;
    let (left, right, top, bottom) = (cell(r.left), cell(r.right), cell(r.top), cell(r.bottom));
    (top..=bottom).flat_map(move |y| (left..=right).map(move |x| (x, y)))
}

/// The point a part of the way along a line.
fn along(way: &[Point], part: f64) -> Point {
    let whole: f64 = way.windows(2).map(|two| distance(two[0], two[1])).sum();
    let mut left = part * whole;
    for two in way.windows(2) {
        let length = distance(two[0], two[1]);
        if left <= length && length > 0.0 {
            return between(two[0], two[1], left / length);
        }
        left -= length;
    }
    way[way.len() - 1]
}

impl Places {
    /// Marks stay left of the panel.
    pub fn new(reading: &Reading<'_>, panel: &Rect) -> Self {
        let mut area = rect(&reading.page).grown(-EDGE);
        area.right = area.right.min(panel.left - 1.0);
        let mut places = Places { area, cells: HashMap::new() };
        for (i, element) in reading.elements.iter().enumerate() {
            let weight = match element.name {
                "text" => NAME,
                "circle" => DOT,
                "rect" if element.attribute("data-station").is_some() => BOX,
                "path" if element.attribute("data-cross").is_some() => NAME,
                "path" if element.attribute("data-bus").is_some() => BAR,
                _ => continue,
            };
            let span = reading.points(i).and_then(|points| Span::around(&points));
            span.iter().for_each(|span| places.add(rect(span), weight));
        }
        for two in reading.runs.iter().flat_map(|run| run.stretches.iter().flatten()).flat_map(|one| one.windows(2)) {
            places.add_piece(two[0], two[1]);
        }
        places
    }

    fn add(&mut self, rect: Rect, weight: usize) {
        cells(&rect).for_each(|cell| self.cells.entry(cell).or_default().push((rect, weight)));
    }

    /// A straight piece as small rectangles along it.
    fn add_piece(&mut self, p: Point, q: Point) {
        let parts = (distance(p, q) / 3.0).min(1e3) as usize + 1;
        let at = |i: usize| between(p, q, i as f64 / parts as f64);
        (0..parts).for_each(|i| self.add(Rect::around(at(i), at(i + 1)), RUN));
    }

    fn trouble(&self, rect: &Rect) -> usize {
        let near = cells(rect).filter_map(|cell| self.cells.get(&cell)).flatten();
        near.filter(|(other, _)| other.overlaps(rect)).map(|(_, weight)| weight).sum::<usize>()
    }

    /// Where a mark of this size for a line is least in the way, and the point of the line that it is for.
    pub fn best(&mut self, way: &[Point], [wide, tall]: [f64; 2]) -> (Point, Rect) {
        let tries = AWAY.iter().flat_map(|a| PARTS.iter().flat_map(move |p| WAYS.iter().map(move |w| (*a, *p, *w))));
        let mut best = (usize::MAX, way[0], self.area);
        for (away, part, step) in tries {
            let at = along(way, part);
            let middle = [at[0] + step[0] * (away + wide / 2.0), at[1] + step[1] * (away + tall / 2.0)];
            let left = (middle[0] - wide / 2.0).min(self.area.right - wide).max(self.area.left);
            let top = (middle[1] - tall / 2.0).min(self.area.bottom - tall).max(self.area.top);
            let rect = Rect::new(left, top, left + wide, top + tall);
            let level = if step[0] * step[1] == 0.0 { LEVEL } else { 0 };
            let cost = 4 * self.trouble(&rect) + away as usize + level;
            if cost < best.0 {
                best = (cost, at, rect);
            }
        }
        self.add(best.2, MARK);
        (best.1, best.2)
    }
}

#[cfg(test)]
mod tests {
    use super::*;

    #[test]
    fn points_along_a_line() {
        let way = [[0.0, 0.0], [4.0, 0.0], [4.0, 0.0], [4.0, 4.0]];
        assert_eq!([along(&way, 0.25), along(&way, 0.5), along(&way, 1.0)], [[2.0, 0.0], [4.0, 0.0], [4.0, 4.0]]);
        assert_eq!(along(&[[1.0, 1.0], [1.0, 1.0]], 0.5), [1.0, 1.0]);
    }

    #[test]
    fn marks_keep_clear_of_each_other() {
        let mut places = Places { area: Rect::new(0.0, 0.0, 100.0, 100.0), cells: HashMap::new() };
        let way = [[40.0, 50.0], [60.0, 50.0]];
        let rects: Vec<Rect> = (0..6).map(|_| places.best(&way, [12.0, 3.5]).1).collect();
        for (i, a) in rects.iter().enumerate() {
            assert!(rects[..i].iter().all(|b| !a.overlaps(b)) && places.area.holds(a));
        }
    }
}
