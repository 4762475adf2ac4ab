//! Names: each box and bar has one that is its own, at its place, or is marked as without.
use super::names::{apart, labels, mistaken, shortens, words};
use super::parts::{Bar, Boxed};
use super::plane::Span;
use super::reading::Label;
use super::Check;
use std::collections::{BTreeMap, HashMap, HashSet};

/// How far from its box a name may stand where a line leads there.
const LED: f64 = 13.0;

impl Check<'_> {
    fn unnamed(&self, element: usize) -> bool {
        self.reading.elements[element].attribute("data-unnamed").is_some()
    }

    /// Labels by the number that they have; says where one has none.
    fn by_number<'b>(&mut self, labels: &'b [Label], what: &str) -> BTreeMap<usize, Vec<&'b Label>> {
        let mut list: BTreeMap<usize, Vec<&Label>> = BTreeMap::new();
        for label in labels {
            if !self.reading.looks[label.element].filled() {
                self.say(format!("the name '{}' can't be seen", label.text));
            }
            match label.number {
                Some(number) => list.entry(number).or_default().push(label),
                None => self.say(format!("the name '{}' is that of no {what}", label.text)),
            }
        }
        list
    }

    /// Says where labels and the mark of a part without a name disagree; gives whether there is a label.
    fn labelled(&mut self, labels: Option<&Vec<&Label>>, element: usize, row: &str) -> bool {
        match (labels.is_some(), self.unnamed(element)) {
            (false, false) => self.say(format!("{row} has no name on the sheet, and isn't marked as without")),
            (true, true) => self.say(format!("{row} has a name on the sheet, and is marked as without")),
            _ => {}
        }
        labels.is_some()
    }

    pub fn station_labels(&mut self, boxes: &HashMap<usize, Boxed>) {
        let labels = self.by_number(&self.reading.station_labels, "substation");
        for number in labels.keys().filter(|number| !boxes.contains_key(number)) {
            self.say(format!("there is a name of substation number {number}, which has no box"));
        }
        let led = self.led_names(boxes);
        let mut numbers: Vec<&usize> = boxes.keys().collect();
        numbers.sort();
        for &number in numbers {
            let name = self.network.station_name(number);
            let row = format!("substation '{name}'");
            let lines = labels.get(&number);
            if !self.labelled(lines, boxes[&number].element, &row) {
                continue;
            }
            let lines = lines.map_or(&[][..], |lines| lines);
            let text = lines.iter().map(|line| line.text.as_str()).collect::<Vec<_>>().join(" ");
            if !shortens(&words(&text), &words(&name)) {
                self.say(format!("{row} is named '{text}'"));
            }
            let far = if led.contains(&number) { LED } else { 1.0 };
            let room = |line: &Label| boxes[&number].span.grown(2.0 * tall(line) + far);
            if lines.iter().any(|line| line.span.is_none_or(|span| !meet(&room(line), &span))) {
                self.say(format!("{row} has its name away from its box"));
            }
        }
    }

    /// The substations to whose boxes a line leads from their names; says where one ends elsewhere.
    fn led_names(&mut self, boxes: &HashMap<usize, Boxed>) -> HashSet<usize> {
        let mut led = HashSet::new();
        for (station, points) in self.leaders() {
            let ends = |boxed: &Boxed| points.last().is_some_and(|&p| boxed.span.grown(0.02).holds(&Span::of(p, p)));
            if points.len() == 2 && boxes.get(&station).is_some_and(ends) {
                led.insert(station);
            } else {
                let name = self.network.station_name(station);
                self.say(format!("the line from the name of substation '{name}' doesn't end at its box"));
            }
        }
        led
    }

    pub fn bus_labels(&mut self, boxes: &HashMap<usize, Boxed>, bars: &HashMap<usize, Bar>) {
        let found = self.by_number(&self.reading.bus_labels, "bus");
        for number in found.keys().filter(|number| !bars.contains_key(number)) {
            self.say(format!("there is a name of bus number {number}, which has no bar"));
        }
        let mut taken: HashMap<(u32, String), usize> = HashMap::new();
        let mut texts: BTreeMap<u32, Vec<(usize, String)>> = BTreeMap::new();
        for (number, bus) in self.network.buses.iter().enumerate() {
            let (Some(bar), row) = (bars.get(&number), self.network.bus_row(number)) else { continue };
            let lines = found.get(&number);
            if !self.labelled(lines, bar.element, &row) {
                continue;
            }
            let Some(&[line]) = lines.map(|lines| &lines[..]) else {
                self.say(format!("{row} has more than one name on the sheet"));
                continue;
            };
            if !labels(&line.text, &bus.name, &self.network.station_name(bus.station as usize), number) {
                self.say(format!("{row} is named '{}'", line.text));
            }
            texts.entry(bus.station).or_default().push((number, line.text.clone()));
            if let Some(other) = taken.insert((bus.station, line.text.clone()), number) {
                let other = &self.network.buses[other].name;
                self.say(format!("{row} and '{other}' of the same box are both named '{}'", line.text));
            }
            if boxes.get(&(bus.station as usize)).is_some_and(|boxed| !at_bar(line, bar, boxed)) {
                self.say(format!("{row} has its name away from its bar"));
            }
        }
        self.mistaken(&texts);
    }

    /// Says where a shortened name could be that of another bar of the same box; takes the texts by substation.
    fn mistaken(&mut self, texts: &BTreeMap<u32, Vec<(usize, String)>>) {
        let mut members: HashMap<u32, Vec<usize>> = HashMap::new();
        for (number, bus) in self.network.buses.iter().enumerate() {
            members.entry(bus.station).or_default().push(number);
        }
        for (station, list) in texts.iter().filter(|(_, list)| list.iter().any(|(_, text)| text.contains('…'))) {
            let buses = &members[station];
            let names: Vec<&str> = buses.iter().map(|&bus| self.network.buses[bus].name.as_str()).collect();
            let names = apart(&names, &self.network.station_name(*station as usize));
            for (number, text) in list {
                let own = buses.partition_point(|bus| bus < number);
                if let Some(other) = mistaken(text, own, &names) {
                    let (row, other) = (self.network.bus_row(*number), &self.network.buses[buses[other]].name);
                    self.say(format!("{row} is named '{text}', which '{other}' of the same box could be too"));
                }
            }
        }
    }
}

fn tall(line: &Label) -> f64 {
    line.span.map_or(0.0, |span| span.0[3] - span.0[1])
}

fn meet(a: &Span, b: &Span) -> bool {
    a.0[0] <= b.0[2] && b.0[0] <= a.0[2] && a.0[1] <= b.0[3] && b.0[1] <= a.0[3]
}

/// Whether a bar's name stands in its box or little outside, above or below the bar or beside it.
fn at_bar(line: &Label, bar: &Bar, boxed: &Boxed) -> bool {
    let by = tall(line);
    line.span.is_some_and(|span| {
        let across = span.0[0] - by <= bar.x && bar.x <= span.0[2] + by;
        across && boxed.span.grown(1.5 * by).holds(&span)
    })
}
