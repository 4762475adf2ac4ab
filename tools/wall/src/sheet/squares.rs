//! The grid of the sheet, as maps have it: twelve squares along its longer side, 1 to 12, eight along the other, A to H.
use super::lettering::{width, Anchor, Line, CAPITALS};
use super::page::Page;
use super::shape::{Point, Rect};
use super::svg::{mm, path, Svg};

const NUMBERS: usize = 12;
const LETTERS: usize = 8;

pub struct Squares {
    area: Rect,
    upright: bool,
}

fn letter(i: usize) -> char {
    char::from(b'A' + i as u8)
}

impl Squares {
    pub fn new(area: Rect, upright: bool) -> Self {
        Squares { area, upright }
    }

    fn counts(&self) -> [usize; 2] {
        if self.upright {
            [LETTERS, NUMBERS]
        } else {
            [NUMBERS, LETTERS]
        }
    }

    /// The name of a column or row of squares.
    fn label(&self, axis: usize, i: usize) -> String {
        if (axis == 0) == self.upright {
            letter(i).to_string()
        } else {
            (i + 1).to_string()
        }
    }

    /// Where the squares of an axis begin and end.
    fn edge(&self, axis: usize, i: usize) -> f64 {
        let (low, high) = if axis == 0 { (self.area.left, self.area.right) } else { (self.area.top, self.area.bottom) };
        low + (high - low) * i as f64 / self.counts()[axis] as f64
    }

    /// The square that a point lies in, such as C7.
    pub fn name(&self, p: Point) -> String {
        let cell = |axis: usize| {
            let (low, high) = (self.edge(axis, 0), self.edge(axis, self.counts()[axis]));
            let part = (p[axis] - low) / (high - low) * self.counts()[axis] as f64;
            (part.max(0.0) as usize).min(self.counts()[axis] - 1)
        };
        let (number, letters) = if self.upright { (cell(1), cell(0)) } else { (cell(0), cell(1)) };
        format!("{}{}", letter(letters), number + 1)
    }

    /// The band with letters and numbers, and small crosses where four squares meet.
    pub fn draw(&self, svg: &mut Svg, page: &Page) {
        svg.open("g", &[("id", "grid".to_string()), ("fill", "#111111".to_string())]);
        let stroke = |d: String, colour: &str, wide: &str| {
            [("d", d), ("fill", "none".to_string()), ("stroke", colour.to_string()), ("stroke-width", wide.to_string())]
        };
        svg.leaf("path", &stroke(self.ticks(page), "#111111", "0.25"));
        svg.leaf("path", &stroke(self.corners(page.text), "#b5b1a6", "0.2"));
        for axis in [0, 1] {
            for i in 0..self.counts()[axis] {
                self.letters(svg, page, axis, i);
            }
        }
        svg.close();
    }

    fn ticks(&self, page: &Page) -> String {
        let (f, n) = (page.frame, page.inner);
        let mut d =
            path(&[[n.left, n.top], [n.right, n.top], [n.right, n.bottom], [n.left, n.bottom], [n.left, n.top]]);
        for i in 0..=self.counts()[0] {
            let x = self.edge(0, i);
            d.push_str(&path(&[[x, f.top], [x, n.top]]));
            d.push_str(&path(&[[x, n.bottom], [x, f.bottom]]));
        }
        for i in 0..=self.counts()[1] {
            let y = self.edge(1, i);
            d.push_str(&path(&[[f.left, y], [n.left, y]]));
            d.push_str(&path(&[[n.right, y], [f.right, y]]));
        }
        d
    }

    fn corners(&self, text: f64) -> String {
        let mut d = String::new();
        for i in 1..self.counts()[0] {
            for j in 1..self.counts()[1] {
                let (x, y, arm) = (self.edge(0, i), self.edge(1, j), 0.5 * text);
                d.push_str(&path(&[[x - arm, y], [x + arm, y]]));
                d.push_str(&path(&[[x, y - arm], [x, y + arm]]));
            }
        }
        d
    }

    /// A letter or number in the band on both sides.
    fn letters(&self, svg: &mut Svg, page: &Page, axis: usize, i: usize) {
        let (f, n) = (page.frame, page.inner);
        let middle = (self.edge(axis, i) + self.edge(axis, i + 1)) / 2.0;
        let sides =
            if axis == 0 { [(f.top, n.top), (n.bottom, f.bottom)] } else { [(f.left, n.left), (n.right, f.right)] };
        let text = self.label(axis, i);
        let size = 0.7 * (n.top - f.top);
        for (low, high) in sides {
            let across = (low + high) / 2.0;
            let [x, y] = if axis == 0 { [middle, across] } else { [across, middle] };
            let wide = width(&text, size, false);
            let line = Line {
                text: text.clone(),
                x: x - wide / 2.0,
                y: y + CAPITALS * size / 2.0,
                size,
                bold: false,
                anchor: Anchor::Middle,
            };
            svg.line(&line, &[("data-grid", mm(middle))]);
        }
    }
}

#[cfg(test)]
mod tests {
    use super::*;

    #[test]
    fn names_of_squares() {
        let wide = Squares::new(Rect::new(10.0, 10.0, 130.0, 90.0), false);
        assert_eq!(
            [[10.0, 10.0], [15.0, 25.0], [129.0, 89.0], [130.0, 90.0]].map(|p| wide.name(p)),
            ["A1", "B1", "H12", "H12"]
        );
        let tall = Squares::new(Rect::new(0.0, 0.0, 80.0, 120.0), true);
        assert_eq!([[15.0, 5.0], [5.0, 15.0], [-1.0, 500.0]].map(|p| tall.name(p)), ["B1", "A2", "A12"]);
    }
}
