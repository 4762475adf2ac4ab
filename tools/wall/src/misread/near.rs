//! Shapes on the page by where they are.
use super::shapes::{Point, Span};
use std::cell::RefCell;

/// The side of a cell, in millimetres.
const CELL: f64 = 8.0;

pub struct Near {
    columns: usize,
    rows: usize,
    cells: Vec<Vec<usize>>,
    /// The number of the last look along a piece, and in which look each thing was seen last.
    looks: RefCell<(u32, Vec<u32>)>,
}

impl Near {
    pub fn new(page: &Span) -> Self {
        let count = |side: f64| (side / CELL).clamp(0.0, 1e3) as usize + 1;
        let (columns, rows) = (count(page.0[2]), count(page.0[3]));
        Near { columns, rows, cells: vec![Vec::new(); columns * rows], looks: RefCell::default() }
    }

    fn cells(&self, span: &Span) -> impl Iterator<Item = usize> {
        let cell = |v: f64, count: usize| ((v / CELL).max(0.0) as usize).min(count - 1);
        let (left, right) = (cell(span.0[0], self.columns), cell(span.0[2], self.columns));
        let (top, bottom, columns) = (cell(span.0[1], self.rows), cell(span.0[3], self.rows), self.columns);
        (top..=bottom).flat_map(move |row| (left..=right).map(move |column| row * columns + column))
    }

    pub fn add(&mut self, thing: usize, span: &Span) {
        for cell in self.cells(span) {
            self.cells[cell].push(thing);
        }
    }

    /// Parts of a straight piece, none much longer than a cell.
    fn parts(p: Point, q: Point) -> impl Iterator<Item = Span> {
        let long = (q[0] - p[0]).abs().max((q[1] - p[1]).abs());
        let count = (long / CELL).min(1e4) as usize + 1;
        let at = move |i: usize| {
            let part = i as f64 / count as f64;
            [p[0] + (q[0] - p[0]) * part, p[1] + (q[1] - p[1]) * part]
        };
        (0..count).map(move |i| Span::of(at(i), at(i + 1)))
    }

    pub fn add_piece(&mut self, thing: usize, [p, q]: [Point; 2]) {
        for part in Near::parts(p, q) {
            self.add(thing, &part);
        }
    }

    /// What may be near a rectangle, each once, in rising order.
    pub fn at(&self, span: &Span) -> Vec<usize> {
        let mut list: Vec<usize> = self.cells(span).flat_map(|cell| self.cells[cell].iter().copied()).collect();
        list.sort_unstable();
        list.dedup();
        list
    }

    /// What may be so near a straight piece, each once, in rising order.
    pub fn along(&self, ends: [Point; 2], by: f64) -> Vec<usize> {
        let mut list = Vec::new();
        self.visit(ends, by, &mut |thing| list.push(thing));
        list.sort_unstable();
        list
    }

    /// Visits what may be so near a straight piece, each once.
    pub fn visit(&self, [p, q]: [Point; 2], by: f64, visit: &mut dyn FnMut(usize)) {
        let mut looks = self.looks.borrow_mut();
        looks.0 += 1;
        let look = looks.0;
        for part in Near::parts(p, q) {
            for cell in self.cells(&part.grown(by)) {
                for &thing in &self.cells[cell] {
                    if looks.1.len() <= thing {
                        looks.1.resize(thing + 1, 0);
                    }
                    if std::mem::replace(&mut looks.1[thing], look) != look {
                        visit(thing);
                    }
                }
            }
        }
    }
}
