//! Which box, bar and run shows which row of the network: each exactly one, under its own name.
use super::names::is_title;
use super::plane::{Point, Span};
use super::reading::Part;
use super::Check;
use std::collections::{BTreeMap, HashMap};

/// A row that has to be shown.
pub struct Wanted {
    pub number: usize,
    pub name: String,
    /// How messages name it.
    pub row: String,
}

/// What a kind of part is called, and how its ids begin.
pub struct Kind {
    pub thing: &'static str,
    pub prefix: &'static str,
}

/// A box on the sheet.
pub struct Boxed {
    pub span: Span,
    pub element: usize,
    /// How many bars the network has in it.
    pub bars: usize,
}

/// A bar on the sheet.
pub struct Bar {
    pub x: f64,
    pub top: f64,
    pub bottom: f64,
    pub element: usize,
}

/// A name as it stands in an id.
fn in_id(name: &str) -> String {
    name.chars().map(|c| if c.is_ascii_alphanumeric() || "-._".contains(c) { c } else { '_' }).collect()
}

/// Whether an id is that of a name: with a point and a number behind it where others have the same.
fn id_fits(id: &str, prefix: &str, name: &str) -> bool {
    let rest = id.strip_prefix(prefix).and_then(|rest| rest.strip_prefix(in_id(name).as_str()));
    rest.is_some_and(|rest| {
        rest.is_empty()
            || rest.strip_prefix('.').is_some_and(|n| !n.is_empty() && n.bytes().all(|b| b.is_ascii_digit()))
    })
}

impl<'a> Check<'a> {
    /// For each wanted row the one part that has its number, its name in the title, and its id.
    pub fn matched(&mut self, parts: &'a [Part], wanted: &[Wanted], kind: &Kind) -> BTreeMap<usize, &'a Part> {
        let numbers: HashMap<usize, &Wanted> = wanted.iter().map(|w| (w.number, w)).collect();
        let mut found: BTreeMap<usize, &Part> = BTreeMap::new();
        for part in parts {
            let line = self.reading.elements[part.element].line;
            let Some(row) = part.number.and_then(|number| numbers.get(&number)) else {
                let title = &part.title;
                self.say(format!("line {line}: a {} titled '{title}', which the network has none of", kind.thing));
                continue;
            };
            if found.insert(row.number, part).is_some() {
                self.say(format!("line {line}: a second {} of {}", kind.thing, row.row));
            }
            if !is_title(&part.title, &row.name) {
                self.say(format!("line {line}: the {} of {} is titled '{}'", kind.thing, row.row, part.title));
            }
            let id = self.reading.elements[part.element].attribute("id").unwrap_or("");
            if !kind.prefix.is_empty() && !id_fits(id, kind.prefix, &row.name) {
                self.say(format!("line {line}: the {} of {} has the id '{id}'", kind.thing, row.row));
            }
        }
        for row in wanted.iter().filter(|row| !found.contains_key(&row.number)) {
            self.say(format!("{} has no {}", row.row, kind.thing));
        }
        found
    }

    fn stations(&self) -> BTreeMap<usize, usize> {
        let mut counts = BTreeMap::new();
        self.network.buses.iter().for_each(|bus| *counts.entry(bus.station as usize).or_insert(0) += 1);
        counts
    }

    /// The boxes of all stations that have a bus, by station number.
    pub fn boxes(&mut self) -> HashMap<usize, Boxed> {
        let counts = self.stations();
        let row = |&number: &usize| {
            let name = self.network.station_name(number);
            Wanted { number, row: format!("substation '{name}'"), name }
        };
        let wanted: Vec<Wanted> = counts.keys().map(row).collect();
        let parts = self.matched(&self.reading.boxes, &wanted, &Kind { thing: "box", prefix: "station-" });
        let mut boxes = HashMap::new();
        for (number, part) in parts {
            let row = format!("substation '{}'", self.network.station_name(number));
            let span = part.stretches.as_ref().and_then(|list| Span::around(&list.concat()));
            let is_rect = self.reading.elements[part.element].name == "rect";
            match span.filter(|s| is_rect && s.0[2] > s.0[0] && s.0[3] > s.0[1]) {
                Some(span) => {
                    boxes.insert(number, Boxed { span, element: part.element, bars: counts[&number] });
                }
                None => self.say(format!("{row} has a box that is no rectangle")),
            }
            self.seen(part, "box", &row);
        }
        boxes
    }

    /// The bars of all buses, each upright and inside its own station's box, or as far out as the grid has it.
    pub fn bars(&mut self, boxes: &HashMap<usize, Boxed>) -> HashMap<usize, Bar> {
        let buses = self.network.buses.iter().enumerate();
        let wanted: Vec<Wanted> = buses
            .map(|(number, bus)| Wanted { number, name: bus.name.clone(), row: self.network.bus_row(number) })
            .collect();
        let parts = self.matched(&self.reading.bars, &wanted, &Kind { thing: "bar", prefix: "bus-" });
        let grid = &self.reading.grid;
        let out = |b: &Boxed| grid.out() * (b.span.0[2] - b.span.0[0]) / grid.wide(b.bars);
        let holds = |b: &Boxed, bar: &Span| {
            let ([left, top, right, bottom], out) = (b.span.0, out(b));
            Span([left, top - out, right, bottom + out]).grown(0.02).holds(bar)
        };
        let mut bars = HashMap::new();
        for (number, part) in parts {
            let Some([p, q]) = upright(part) else {
                self.say(format!("{} has a bar that isn't one upright line", wanted[number].row));
                continue;
            };
            let station = self.network.buses[number].station as usize;
            let span = Span([p[0], p[1].min(q[1]), p[0], p[1].max(q[1])]);
            if boxes.get(&station).is_some_and(|b| !holds(b, &span)) {
                let name = self.network.station_name(station);
                self.say(format!("{} has its bar outside the box of substation '{name}'", wanted[number].row));
            }
            self.seen(part, "bar", &wanted[number].row);
            bars.insert(number, Bar { x: p[0], top: span.0[1], bottom: span.0[3], element: part.element });
        }
        bars
    }

    /// Each substation without coordinates has a frame round its box, and no other has one.
    pub fn placeless(&mut self, boxes: &HashMap<usize, Boxed>) {
        let known = self.network.placed_stations();
        let mut framed = BTreeMap::new();
        for (i, element) in self.reading.elements.iter().enumerate() {
            let Some(station) = element.attribute("data-placeless") else { continue };
            let station = station.parse::<usize>().ok().filter(|station| boxes.contains_key(station));
            let fits = |station: &usize| {
                let own = boxes[station].span;
                let frame = self.reading.covered(i).filter(|_| element.name == "rect");
                !known[*station] && frame.is_some_and(|frame| frame.holds(&own) && own.grown(1.0).holds(&frame))
            };
            if !station.is_some_and(|station| fits(&station) && self.reading.looks[i].inked()) {
                self.found.push(format!("line {}: a frame of a place that isn't known, at no such box", element.line));
            }
            framed.extend(station.map(|station| (station, i)));
        }
        let mut without: Vec<usize> = boxes.keys().copied().filter(|station| !known[*station]).collect();
        without.sort_unstable();
        for station in without.into_iter().filter(|station| !framed.contains_key(station)) {
            let name = self.network.station_name(station);
            self.say(format!("substation '{name}' has no coordinates, and no frame says so"));
        }
    }

    /// Says where a part has no ink.
    pub fn seen(&mut self, part: &Part, thing: &str, row: &str) {
        if !self.reading.looks[part.element].inked() {
            self.say(format!("the {thing} of {row} can't be seen"));
        }
    }
}

/// The two ends of a bar.
fn upright(part: &Part) -> Option<[Point; 2]> {
    match part.stretches.as_deref()? {
        [one] => match one[..] {
            [p, q] if (p[0] - q[0]).abs() < 0.011 && p[1] != q[1] => Some([p, q]),
            _ => None,
        },
        _ => None,
    }
}

#[cfg(test)]
mod tests {
    use super::id_fits;

    #[test]
    fn ids_of_names() {
        assert!(id_fits("bus-A_1", "bus-", "A 1") && id_fits("bus-A_1.2", "bus-", "A/1"));
        for id in ["bus-A_2", "bus-A_1.", "bus-A_1.x", "A_1", "branch-A_1", ""] {
            assert!(!id_fits(id, "bus-", "A 1"), "{id}");
        }
    }
}
