//! Things on the page by where they are, so that a label looks only at what is near.
use super::shape::{between, distance, Point, Rect};

/// The side of a cell, in millimetres.
const CELL: f64 = 12.0;

/// So many things in one cell are a crowd.
const CROWD: usize = 128;

pub struct Near {
    columns: usize,
    rows: usize,
    cells: Vec<Vec<usize>>,
}

impl Near {
    pub fn new(page: &Rect) -> Self {
        let (columns, rows) = ((page.right / CELL) as usize + 1, (page.bottom / CELL) as usize + 1);
        Near { columns, rows, cells: vec![Vec::new(); columns * rows] }
    }

    /// The cells of a rectangle: first and last column, first and last row.
    fn span(&self, r: &Rect) -> [usize; 4] {
        let cell = |v: f64, count: usize| ((v / CELL).max(0.0) as usize).min(count - 1);
        [cell(r.left, self.columns), cell(r.right, self.columns), cell(r.top, self.rows), cell(r.bottom, self.rows)]
    }

    pub fn insert(&mut self, thing: usize, r: &Rect) {
        let [left, right, top, bottom] = self.span(r);
        for row in top..=bottom {
            for column in left..=right {
                self.cells[row * self.columns + column].push(thing);
            }
        }
    }

    /// A straight piece, in short parts.
    pub fn insert_piece(&mut self, thing: usize, p: Point, q: Point) {
        let parts = (distance(p, q) / CELL).min(1e4) as usize + 1;
        let at = |i: usize| between(p, q, i as f64 / parts as f64);
        for i in 0..parts {
            self.insert(thing, &Rect::around(at(i), at(i + 1)));
        }
    }

    /// Some of what may be near a rectangle: in a crowd, the first of each cell.
    pub fn some(&self, r: &Rect) -> Vec<usize> {
        let [left, right, top, bottom] = self.span(r);
        let mut found = Vec::new();
        for row in top..=bottom {
            for column in left..=right {
                found.extend(self.cells[row * self.columns + column].iter().take(CROWD));
            }
        }
        found.sort_unstable();
        found.dedup();
        found
    }

    /// What may be near a straight piece and has a higher number, in no order; in a crowd, the next of each cell.
    pub fn later(&self, thing: usize, p: Point, q: Point, by: f64) -> Vec<usize> {
        let parts = (distance(p, q) / CELL).min(1e4) as usize + 1;
        let at = |i: usize| between(p, q, i as f64 / parts as f64);
        let mut found = Vec::new();
        for i in 0..parts {
            let [left, right, top, bottom] = self.span(&Rect::around(at(i), at(i + 1)).grown(by));
            for row in top..=bottom {
                for column in left..=right {
                    let cell = &self.cells[row * self.columns + column];
                    found.extend(cell[cell.partition_point(|&other| other <= thing)..].iter().take(CROWD));
                }
            }
        }
        found.sort_unstable();
        found.dedup();
        found
    }

    /// What may be near a straight piece, each once, in rising order.
    pub fn along(&self, p: Point, q: Point, by: f64) -> Vec<usize> {
        let parts = (distance(p, q) / CELL).min(1e4) as usize + 1;
        let at = |i: usize| between(p, q, i as f64 / parts as f64);
        let mut found: Vec<usize> =
            (0..parts).flat_map(|i| self.near(&Rect::around(at(i), at(i + 1)).grown(by))).collect();
        found.sort_unstable();
        found.dedup();
        found
    }

    /// What may be near a rectangle, each once, in rising order.
    pub fn near(&self, r: &Rect) -> Vec<usize> {
        let [left, right, top, bottom] = self.span(r);
        let mut found = Vec::new();
        for row in top..=bottom {
            for column in left..=right {
                found.extend(&self.cells[row * self.columns + column]);
            }
        }
        found.sort_unstable();
        found.dedup();
        found
    }
}
