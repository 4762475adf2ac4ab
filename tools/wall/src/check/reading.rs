//! A finished sheet read back: its page, boxes, bars, runs, crosses, dots and labels, by ids and `data-` attributes.
use super::look::Look;
use super::plane::{number, stretches, Map, Point, Span};
use super::xml::{elements, Element};
use crate::fault::{Fault, Place};
use crate::misread::shapes::lettering;
use std::collections::HashMap;
use std::rc::Rc;

/// A box, bar, run or cross.
pub struct Part {
    pub element: usize,
    /// The name that its title has.
    pub title: String,
    /// The number that its `data-` attribute has.
    pub number: Option<usize>,
    /// Its geometry in millimetres; none where it can't be read.
    pub stretches: Option<Vec<Vec<Point>>>,
}

/// One line of the name of a box or a bar.
pub struct Label {
    pub element: usize,
    pub number: Option<usize>,
    pub text: String,
    pub span: Option<Span>,
}

/// The grid inside boxes, in blocks.
pub struct Grid {
    pub gap: f64,
    pub padding: f64,
    pub shortest: f64,
}

impl Grid {
    /// That of a sheet that says none.
    const USUAL: Grid = Grid { gap: 2.0, padding: 1.0, shortest: 2.0 };

    /// As a sheet says it.
    fn said(text: &str) -> Option<Self> {
        let rest = text.strip_prefix("bar gap ")?;
        let (gap, rest) = rest.split_once(", padding ")?;
        let (padding, rest) = rest.split_once(", shortest bar ")?;
        let (shortest, _) = rest.split_once(", buffer ")?;
        let size = |word: &str| number(word).filter(|x| (0.5..=8.0).contains(x));
        Some(Grid { gap: size(gap)?, padding: size(padding)?, shortest: size(shortest)? })
    }

    /// The blocks that so many bars are wide, and so many rows high.
    pub fn wide(&self, bars: usize) -> f64 {
        self.gap * bars.saturating_sub(1) as f64 + 2.0 * self.padding
    }

    pub fn high(&self, rows: usize) -> f64 {
        (rows as f64).max(self.shortest) + 2.0 * self.padding
    }

    /// How many blocks a bar can leave its box by.
    pub fn out(&self) -> f64 {
        (self.shortest / 2.0 - self.padding - 0.5).max(0.0)
    }
}

pub struct Reading<'a> {
    pub elements: Vec<Element<'a>>,
    pub looks: Vec<Look>,
    pub page: Span,
    pub grid: Grid,
    pub boxes: Vec<Part>,
    pub bars: Vec<Part>,
    pub runs: Vec<Part>,
    pub crosses: Vec<Part>,
    pub bus_labels: Vec<Label>,
    pub station_labels: Vec<Label>,
    pub dots: Vec<Point>,
    /// Bands of rows: the station that each is of, and where it is.
    pub fives: Vec<(usize, Span)>,
    /// Letters and numbers of the grid of squares, each with the middle of its squares.
    squares: Vec<(String, f64)>,
}

pub fn read<'a>(text: &'a str, file: &'a str) -> Result<Reading<'a>, Fault> {
    let elements = elements(text, file)?;
    let (page, map) = page(&elements[0], file)?;
    let mut looks: Vec<Look> = Vec::with_capacity(elements.len());
    // The id of the group around what stands in each element.
    let mut groups: Vec<Rc<str>> = Vec::with_capacity(elements.len());
    for element in &elements {
        let look = match element.parent {
            None => Look::root(map).inside(element),
            Some(parent) => Look { group: groups[parent].clone(), ..looks[parent].inside(element) },
        };
        let own = element.attribute("id").filter(|_| element.name == "g").map(Rc::from);
        groups.push(own.unwrap_or_else(|| look.group.clone()));
        looks.push(look);
    }
    let said = elements.iter().filter(|e| e.name == "desc").find_map(|e| Grid::said(&e.text));
    let mut reading = Reading {
        elements,
        looks,
        page,
        grid: said.unwrap_or(Grid::USUAL),
        boxes: Vec::new(),
        bars: Vec::new(),
        runs: Vec::new(),
        crosses: Vec::new(),
        bus_labels: Vec::new(),
        station_labels: Vec::new(),
        dots: Vec::new(),
        fives: Vec::new(),
        squares: Vec::new(),
    };
    reading.sort_out();
    Ok(reading)
}

/// The text of the element that has an id.
pub fn inner_text(text: &str, file: &str, id: &str) -> Result<Option<String>, Fault> {
    let elements = elements(text, file)?;
    Ok(elements.iter().find(|e| e.attribute("id") == Some(id)).map(|e| e.text.to_string()))
}

/// The page in millimetres, and how its numbers become millimetres.
fn page(root: &Element<'_>, file: &str) -> Result<(Span, Map), Fault> {
    let side =
        |name: &str| root.attribute(name).and_then(|v| v.strip_suffix("mm")).and_then(number).filter(|&v| v > 0.0);
    let view = || -> Option<[f64; 4]> {
        let list: Option<Vec<f64>> =
            root.attribute("viewBox")?.split([' ', ',']).filter(|s| !s.is_empty()).map(number).collect();
        list?.try_into().ok().filter(|v: &[f64; 4]| v[2] > 0.0 && v[3] > 0.0)
    };
    let (Some(width), Some(height), Some(v), "svg") = (side("width"), side("height"), view(), root.name) else {
        let place = Place { line: root.line, column: 1 };
        return Err(Fault::content(file, place, "expected <svg> with a width and a height in mm and a viewBox"));
    };
    let (sx, sy) = (width / v[2], height / v[3]);
    Ok((Span([0.0, 0.0, width, height]), Map([sx, 0.0, 0.0, sy, -v[0] * sx, -v[1] * sy])))
}

impl Reading<'_> {
    fn sort_out(&mut self) {
        let titles = self.titles();
        for i in 0..self.elements.len() {
            let element = &self.elements[i];
            let (name, id) = (element.name, element.attribute("id").unwrap_or(""));
            if name == "g" {
                continue;
            }
            let kind = |prefix: &str, data: &str| id.starts_with(prefix) || element.attribute(data).is_some();
            let part = |data: &str| Part {
                element: i,
                title: titles.get(&i).cloned().unwrap_or_default(),
                number: element.attribute(data).and_then(|v| v.parse().ok()),
                stretches: self.geometry(i),
            };
            if name == "text" {
                let data = if &*self.looks[i].group == "station-names" { "data-of" } else { "data-label" };
                let label = self.label(i, data);
                let list = if data == "data-of" { &mut self.station_labels } else { &mut self.bus_labels };
                list.extend(label);
                let middle = element.attribute("data-grid").and_then(number);
                self.squares.extend(middle.map(|middle| (element.text.to_string(), middle)));
            } else if kind("station-", "data-station") {
                self.boxes.push(part("data-station"));
            } else if kind("bus-", "data-bus") {
                self.bars.push(part("data-bus"));
            } else if kind("branch-", "data-branch") {
                self.runs.push(part("data-branch"));
            } else if element.attribute("data-cross").is_some() {
                self.crosses.push(part("data-cross"));
            } else if let Some(station) = element.attribute("data-five") {
                let span = self.points(i).and_then(|points| Span::around(&points));
                self.fives.extend(station.parse().ok().zip(span));
            } else if name == "circle" && &*self.looks[i].group == "dots" {
                let middle = self.points(i).and_then(|points| Span::around(&points));
                self.dots.extend(middle.map(|span| span.middle()));
            }
        }
    }

    /// The square of a point, by the letters and numbers round the sheet.
    pub fn square(&self, p: Point) -> Option<String> {
        let [_, _, wide, high] = self.page.0;
        let nearest = |letters: bool| {
            let axis = usize::from(letters == (wide >= high));
            let list = self.squares.iter().filter(|(text, _)| text.chars().all(|c| c.is_ascii_alphabetic()) == letters);
            let far = |middle: f64| (middle - p[axis]).abs();
            list.min_by(|a, b| far(a.1).total_cmp(&far(b.1))).map(|(text, _)| text)
        };
        Some(format!("{}{}", nearest(true)?, nearest(false)?))
    }

    /// The buses of the part of a network that the sheet says it shows.
    pub fn part(&self) -> Option<Vec<usize>> {
        let said = self
            .elements
            .iter()
            .find_map(|e| e.text.strip_prefix("part with the buses ").filter(|_| e.name == "desc"))?;
        said.split(' ').map(|bus| bus.parse().ok()).collect()
    }

    /// Whether the sheet says that it was drawn from a file of this name with this SHA-256.
    pub fn was_drawn_from(&self, name: &str, sha256: &str) -> bool {
        let wanted = format!("{name} SHA-256 {sha256}");
        self.elements.iter().any(|e| e.name == "desc" && e.text == wanted)
    }

    /// The text of each element's title.
    fn titles(&self) -> HashMap<usize, String> {
        let titles = self.elements.iter().filter(|e| e.name == "title");
        titles.filter_map(|e| Some((e.parent?, e.text.to_string()))).collect()
    }

    fn label(&self, i: usize, data: &str) -> Option<Label> {
        let number = self.elements[i].attribute(data)?.parse().ok();
        let span = self.points(i).and_then(|points| Span::around(&points));
        Some(Label { element: i, number, text: self.elements[i].text.to_string(), span })
    }

    fn numbers<const N: usize>(&self, i: usize, names: [&str; N]) -> Option<[f64; N]> {
        let mut list = [0.0; N];
        for (value, name) in list.iter_mut().zip(names) {
            *value = match self.elements[i].attribute(name) {
                Some(text) => number(text)?,
                None => 0.0,
            };
        }
        Some(list)
    }

    /// The stretches of an element's outline, in millimetres; none where they can't be read.
    fn geometry(&self, i: usize) -> Option<Vec<Vec<Point>>> {
        let element = &self.elements[i];
        let own = match element.name {
            "path" => stretches(element.attribute("d")?)?,
            "line" => {
                let [x1, y1, x2, y2] = self.numbers(i, ["x1", "y1", "x2", "y2"])?;
                vec![vec![[x1, y1], [x2, y2]]]
            }
            "rect" => {
                let [x, y, w, h] = self.numbers(i, ["x", "y", "width", "height"])?;
                vec![Span([x, y, x + w, y + h]).corners().to_vec()]
            }
            "circle" => {
                let [x, y, r] = self.numbers(i, ["cx", "cy", "r"])?;
                vec![vec![[x - r, y], [x, y - r], [x + r, y], [x, y + r]]]
            }
            "polyline" | "polygon" => stretches(&format!("M{}", element.attribute("points")?))?,
            "text" => vec![self.lettering(i)?.corners().to_vec()],
            _ => return None,
        };
        let map = &self.looks[i].map;
        Some(own.into_iter().map(|points| points.into_iter().map(|p| map.at(p)).collect()).collect())
    }

    pub fn points(&self, i: usize) -> Option<Vec<Point>> {
        Some(self.geometry(i)?.concat())
    }

    /// What a line of text covers on the page, about.
    pub fn covered(&self, i: usize) -> Option<Span> {
        Span::around(&self.points(i)?)
    }

    /// The middle of a circle on the page, and its radius.
    pub fn circle(&self, i: usize) -> Option<(Point, f64)> {
        let [x, y, radius] = self.numbers(i, ["cx", "cy", "r"])?;
        let map = &self.looks[i].map;
        Some((map.at([x, y]), radius * map.scale()))
    }

    /// What a line of text covers, in its own numbers.
    fn lettering(&self, i: usize) -> Option<Span> {
        let element = &self.elements[i];
        let [x, y] = self.numbers(i, ["x", "y"])?;
        let size = self.looks[i].size?;
        Some(lettering(&element.text, [x, y], size, &self.looks[i].anchor))
    }
}
