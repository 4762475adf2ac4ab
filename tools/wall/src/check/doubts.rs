//! What may be misread on the sheet: measured on its shapes, named by branch, substation and square, and looked for among
//! the marks that the sheet has for it.
use super::plane::{Point, Span};
use super::reading::Part;
use super::Check;
use crate::misread::shapes::{Band, Bar, Boxed, Name, Number, Round, Run, Shapes, Tag};
use crate::misread::{found, Kind, Place};
use std::collections::{BTreeMap, HashMap, HashSet};

/// The group of the marks, and that of their edges over names and numbers.
const MARKS: &str = "doubts";
const RINGS: &str = "doubt-rings";

impl Check<'_> {
    /// The places that may be misread, in words; says where one has no mark, or a mark has no place.
    pub fn doubts(&mut self) -> Vec<String> {
        let places = found(&self.shapes());
        let of = |group: &str| self.circles(group).into_iter().map(|(_, at, radius)| (at, radius)).collect::<Vec<_>>();
        let (discs, rings) = (of(MARKS), of(RINGS));
        let marks: Vec<(Point, f64)> = discs.iter().filter(|disc| rings.contains(disc)).copied().collect();
        let holds = |(at, radius): &(Point, f64), p: Point| (at[0] - p[0]).hypot(at[1] - p[1]) <= radius + 0.02;
        let words: Vec<String> = places.iter().map(|place| self.place(place)).collect();
        for (place, words) in places.iter().zip(&words) {
            if !marks.iter().any(|mark| holds(mark, place.at)) {
                self.say(format!("{words}: may be misread, and isn't marked"));
            }
        }
        for (at, _) in discs.iter().chain(&rings).filter(|mark| !places.iter().any(|place| holds(mark, place.at))) {
            self.say(format!(
                "there is a mark at ({:.2}, {:.2}), where nothing is found that may be misread",
                at[0], at[1]
            ));
        }
        if !self.network.buses.is_empty() {
            self.counted_in_block(places.len());
        }
        words
    }

    /// Says where the title block doesn't say how many places there are.
    fn counted_in_block(&mut self, count: usize) {
        let said = if count == 0 {
            "May be misread at: no place found".to_string()
        } else {
            let places = if count == 1 { "place" } else { "places" };
            format!("May be misread at {} {places}: ", crate::number::thousands(count))
        };
        let reading = self.reading;
        let mut texts = reading.elements.iter().enumerate().filter(|(i, e)| {
            e.name == "text" && &*reading.looks[*i].group == "title-block" && e.text.starts_with(said.as_str())
        });
        if texts.next().is_none() {
            self.say(format!("the title block doesn't say '{}'", said.trim_end()));
        }
    }

    /// A place in words: the branch, what may be misread, the substation and the square.
    fn place(&self, place: &Place) -> String {
        let mut words = Vec::new();
        words.extend(place.branch.map(|branch| format!("{} {}", self.network.branch_row(branch), place.kind.words())));
        words.extend(place.branch.is_none().then(|| place.kind.words().to_string()));
        words.extend(place.other.map(|branch| format!("with {}", self.network.branch_row(branch))));
        words.extend(place.bus.map(|bus| format!("of {}", self.network.bus_row(bus))));
        let station = place.station.or_else(|| self.nearest(place.at));
        words.extend(station.map(|station| format!("at substation '{}'", self.network.station_name(station))));
        words.extend(self.reading.square(place.at).map(|square| format!("in {square}")));
        words.join(", ")
    }

    /// The substation whose box is nearest to a point.
    fn nearest(&self, p: Point) -> Option<usize> {
        let far = |part: &&Part| {
            let span = part.stretches.as_ref().and_then(|list| Span::around(&list.concat()));
            span.map_or(f64::INFINITY, |span| crate::misread::shapes::gap(&span, &Span::of(p, p)))
        };
        self.reading.boxes.iter().min_by(|a, b| far(a).total_cmp(&far(b)))?.number
    }

    /// The circles of a group: the element, the middle and the radius of each.
    fn circles(&self, group: &str) -> Vec<(usize, Point, f64)> {
        let all = (0..self.reading.elements.len())
            .filter(|&i| self.reading.elements[i].name == "circle" && &*self.reading.looks[i].group == group);
        all.filter_map(|i| self.reading.circle(i).map(|(at, radius)| (i, at, radius))).collect()
    }

    /// The shapes of the sheet that belong to rows of the network.
    fn shapes(&self) -> Shapes {
        let mut shapes = Shapes { page: self.reading.page, ..Shapes::default() };
        shapes.boxes = self.seen_boxes();
        shapes.bars = self.seen_bars();
        shapes.runs = self.seen_runs();
        shapes.dots = self.rounds("dots", &shapes.runs, false);
        shapes.rings = self.rounds("rings", &shapes.runs, true);
        for part in &self.reading.crosses {
            let span = part.stretches.as_ref().and_then(|list| Span::around(&list.concat()));
            shapes.crosses.extend(part.number.zip(span.map(|span| span.middle())));
        }
        shapes.bands = self.seen_bands();
        shapes.numbers = self.seen_numbers();
        shapes.names = self.seen_names();
        shapes.tags = self.seen_tags();
        shapes
    }

    fn seen_boxes(&self) -> Vec<Boxed> {
        let named: HashSet<usize> = self.reading.station_labels.iter().filter_map(|label| label.number).collect();
        let banded: HashSet<usize> = self.reading.fives.iter().map(|(station, _)| *station).collect();
        let signs = self.signs();
        let boxed = |part: &Part| {
            let station = part.number?;
            let span = part.stretches.as_ref().and_then(|list| Span::around(&list.concat()))?;
            let counted = self.reading.elements[part.element].attribute("data-counted").is_some();
            let (signed, rows) = (signs.contains(&("name", station)), signs.contains(&("rows", station)));
            let banded = banded.contains(&station) || rows;
            Some(Boxed { station, span, named: named.contains(&station), signed, counted, banded })
        };
        self.reading.boxes.iter().filter_map(boxed).collect()
    }

    /// The signs that send the reader to the index: for what, and the substation of each.
    fn signs(&self) -> HashSet<(&str, usize)> {
        let all = self.reading.elements.iter().enumerate().filter(|(i, _)| self.reading.looks[*i].filled());
        let sign = |element: &super::xml::Element<'_>| {
            let (what, station) = element.attribute("data-sign")?.split_once(' ')?;
            Some((if what == "name" { "name" } else { "rows" }, station.parse().ok()?))
        };
        all.filter_map(|(_, element)| sign(element)).collect()
    }

    fn seen_bars(&self) -> Vec<Bar> {
        let bar = |part: &Part| {
            let bus = part.number.filter(|&bus| bus < self.network.buses.len())?;
            let span = part.stretches.as_ref().and_then(|list| Span::around(&list.concat()))?;
            let (look, [x, top, _, bottom]) = (&self.reading.looks[part.element], span.0);
            let station = self.network.buses[bus].station as usize;
            Some(Bar { bus, station, x, top, bottom, colour: look.stroke.clone() })
        };
        self.reading.bars.iter().filter_map(bar).collect()
    }

    fn seen_runs(&self) -> Vec<Run> {
        let run = |part: &Part| {
            let branch = part.number.filter(|&branch| branch < self.network.branches.len())?;
            let (buses, stations) = (self.two_buses(branch)?, self.two_stations(branch)?);
            let look = &self.reading.looks[part.element];
            let (open, wide, colour) = (!self.live(branch), look.wide, look.stroke.clone());
            let parts = part.stretches.clone()?;
            Some(Run { branch, buses, stations, open, wide, colour, parts })
        };
        let mut runs: BTreeMap<usize, Run> = BTreeMap::new();
        for run in self.reading.runs.iter().filter_map(run) {
            runs.entry(run.branch).or_insert(run);
        }
        runs.into_values().collect()
    }

    /// The dots or rings, each with the branch that ends there.
    fn rounds(&self, group: &str, runs: &[Run], open: bool) -> Vec<Round> {
        let key = |p: Point| ((p[0] * 100.0).round() as i64, (p[1] * 100.0).round() as i64);
        let mut ends: HashMap<(i64, i64), Vec<usize>> = HashMap::new();
        for run in runs.iter().filter(|run| run.open == open) {
            run.ends().into_iter().flatten().for_each(|end| ends.entry(key(end)).or_default().push(run.branch));
        }
        let mut rounds = Vec::new();
        for (_, at, radius) in self.circles(group) {
            // Several may end in one ring.
            if let Some(branch) = ends.get_mut(&key(at)).and_then(|list| list.pop()) {
                rounds.push(Round { branch, at, radius });
            }
        }
        rounds
    }

    fn seen_bands(&self) -> Vec<Band> {
        let band = |i: usize| {
            let list = self.reading.elements[i].attribute("data-branches")?;
            let branches = list.split(' ').filter_map(|branch| branch.parse().ok()).collect();
            Some(Band { branches, points: self.reading.points(i)? })
        };
        (0..self.reading.elements.len()).filter_map(band).collect()
    }

    fn seen_numbers(&self) -> Vec<Number> {
        let number = |i: usize| {
            let element = &self.reading.elements[i];
            let branch = element.attribute("data-number").filter(|_| element.name == "text")?.parse().ok()?;
            let end = element.attribute("data-end").map(|end| usize::from(end == "1"));
            Some(Number { branch, end, span: self.reading.covered(i)? })
        };
        (0..self.reading.elements.len()).filter_map(number).collect()
    }

    fn seen_names(&self) -> Vec<Name> {
        let led: HashSet<usize> = self.leaders().into_iter().map(|(station, _)| station).collect();
        let mut names: BTreeMap<usize, Vec<Span>> = BTreeMap::new();
        for label in &self.reading.station_labels {
            if let (Some(station), Some(span)) = (label.number, self.reading.covered(label.element)) {
                names.entry(station).or_default().push(span);
            }
        }
        let name = |(station, lines): (usize, Vec<Span>)| {
            let span = lines.iter().copied().reduce(|a, b| a.and(&b))?;
            Some(Name { station, span, lines, led: led.contains(&station) })
        };
        names.into_iter().filter_map(name).collect()
    }

    fn seen_tags(&self) -> Vec<Tag> {
        let tag = |label: &super::reading::Label| {
            let bus = label.number.filter(|&bus| bus < self.network.buses.len())?;
            let station = self.network.buses[bus].station as usize;
            Some(Tag { bus, station, span: self.reading.covered(label.element)? })
        };
        self.reading.bus_labels.iter().filter_map(tag).collect()
    }

    /// Lines that lead from a substation's name to its box, by substation.
    pub fn leaders(&self) -> Vec<(usize, Vec<Point>)> {
        let leader = |i: usize| {
            let station = self.reading.elements[i].attribute("data-leads")?.parse().ok()?;
            Some((station, self.reading.points(i)?))
        };
        (0..self.reading.elements.len()).filter_map(leader).collect()
    }
}

/// The kinds that are counted, in words: each with its count where there is one.
pub fn tally(places: &[Place]) -> Vec<(Kind, usize)> {
    let counts = crate::misread::counts(places);
    Kind::ALL.into_iter().zip(counts).filter(|(_, count)| *count > 0).collect()
}
