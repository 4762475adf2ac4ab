//! Numbers of branches: each is the one in its run's title, at its own end or run, and no other branch has it; where one
//! isn't there, its box is marked and banded, so that its rows can be counted.
use super::ends::Runs;
use super::names::words;
use super::outside::Around;
use super::parts::Boxed;
use super::plane::{Point, Span};
use super::reading::Part;
use super::Check;
use std::collections::{BTreeMap, HashMap, HashSet};

/// How far from its end a number may begin, beside the size of its text.
const BESIDE: f64 = 3.0;

/// The same for a number at a cross, beside half the size of its text; and where a line leads from it to the cross.
const CLOSE: f64 = 0.3;
const LED: f64 = 13.0;

/// How many circuits the label of a band names.
const NAMED: usize = 4;

impl Check<'_> {
    pub fn numbers(&mut self, boxes: &HashMap<usize, Boxed>, runs: &Runs) {
        let (given, around) = (self.given(), Around::new(self.reading, boxes));
        let cross = |part: &Part| Some((part.number?, Span::around(&part.stretches.as_ref()?.concat())?));
        let crosses: HashMap<usize, Span> = self.reading.crosses.iter().filter_map(cross).collect();
        let mut seen = HashSet::new();
        for i in 0..self.reading.elements.len() {
            let element = &self.reading.elements[i];
            let Some(number) = element.attribute("data-number").filter(|_| element.name == "text") else { continue };
            let branch = number.parse::<usize>().ok().filter(|branch| runs.contains_key(branch));
            let Some(branch) = branch else {
                self.say(format!("line {}: the number '{}' of a branch that has no run", element.line, element.text));
                continue;
            };
            let row = self.network.branch_row(branch);
            if given.get(&branch).map(String::as_str) != Some(&*element.text) {
                self.say(format!("{row} has the number '{}', which its title doesn't have", element.text));
            }
            let end = element.attribute("data-end");
            if !seen.insert((branch, end)) {
                self.say(format!("{row} has a second number at one place"));
            }
            let there = match (element.attribute("data-outside"), end) {
                (Some(_), Some(end)) => {
                    around.led_to(i, branch, end, &runs[&branch]) || self.on_its_run(i, branch, end, boxes, &around)
                }
                (_, None) => crosses.get(&branch).is_some_and(|cross| self.at_cross(i, branch, cross, &around)),
                _ => self.at_its_place(i, end, &runs[&branch]),
            };
            if !there {
                self.say(format!("{row} has its number '{}' away from its place", element.text));
            }
        }
        self.at_gaps(&given, &around);
        self.stretch_labels(&given);
        let counted = self.counted(boxes, runs);
        self.missing(runs, &seen, &counted);
    }

    /// Says where an end or a cross has no number, and its box isn't one whose rows are counted. An open branch inside a
    /// box has one number, at its cross.
    fn missing(&mut self, runs: &Runs, seen: &HashSet<(usize, Option<&str>)>, counted: &HashSet<usize>) {
        for &branch in runs.keys() {
            let Some([from, to]) = self.two_stations(branch) else { continue };
            let ends = [(Some("0"), from, from), (Some("1"), to, to)];
            let wanted = match (self.live(branch), from == to) {
                (true, _) => ends.to_vec(),
                (false, true) => vec![(None, from, to)],
                (false, false) => [&ends[..], &[(None, from, to)]].concat(),
            };
            for (end, one, two) in wanted {
                let there = seen.contains(&(branch, end)) || (counted.contains(&one) && counted.contains(&two));
                if !there {
                    let (row, name) = (self.network.branch_row(branch), self.network.station_name(one));
                    let place =
                        if end.is_some() { format!("in substation '{name}'") } else { "at its cross".to_string() };
                    self.say(format!("{row} has no number {place}, and the box isn't marked to be counted"));
                }
            }
        }
    }

    /// The stations whose boxes are marked to be counted; says where their bands aren't every other five rows.
    fn counted(&mut self, boxes: &HashMap<usize, Boxed>, runs: &Runs) -> HashSet<usize> {
        let marked = |boxed: &Boxed| self.reading.elements[boxed.element].attribute("data-counted").is_some();
        let counted: HashSet<usize> = boxes.iter().filter(|(_, boxed)| marked(boxed)).map(|(s, _)| *s).collect();
        let mut bands: BTreeMap<usize, Vec<Span>> = counted.iter().map(|&station| (station, Vec::new())).collect();
        for (station, span) in &self.reading.fives {
            bands.entry(*station).or_default().push(*span);
        }
        let mut heights: HashMap<usize, Vec<f64>> = HashMap::new();
        for (&branch, points) in runs.iter().filter(|(&branch, _)| self.live(branch)) {
            let Some([from, to]) = self.two_stations(branch) else { continue };
            heights.entry(from).or_default().push(points[0][1]);
            if from != to {
                heights.entry(to).or_default().push(points[points.len() - 1][1]);
            }
        }
        for (station, list) in bands {
            let mut rows = heights.remove(&station).unwrap_or_default();
            rows.sort_by(f64::total_cmp);
            let fits = boxes.get(&station).is_some_and(|boxed| in_fives(&rows, &list, &boxed.span));
            if !counted.contains(&station) || !fits {
                let name = self.network.station_name(station);
                self.say(format!("substation '{name}' has bands that aren't every other five of its rows"));
            }
        }
        counted
    }

    /// Says where the label of circuits that run as one stroke doesn't have just the numbers of its band's branches: all,
    /// or the first four.
    fn stretch_labels(&mut self, given: &HashMap<usize, String>) {
        let mut labels: BTreeMap<&str, Vec<&str>> = BTreeMap::new();
        let mut bands: HashMap<&str, Vec<&str>> = HashMap::new();
        for element in &self.reading.elements {
            if let Some(mark) = element.attribute("data-mark").filter(|_| element.name == "text") {
                labels.entry(mark).or_default().push(&element.text);
            }
            if let Some((stretch, list)) = element.attribute("data-stretch").zip(element.attribute("data-branches")) {
                let number = |branch: &str| given.get(&branch.parse().ok()?).map(String::as_str);
                bands.insert(stretch, list.split(' ').filter_map(number).collect());
            }
        }
        let wrong = labels.into_iter().map(|(mark, lines)| (mark, lines.join(" "))).filter(|(mark, text)| {
            let own = bands.get(mark).map_or(&[][..], Vec::as_slice);
            !says(text, own)
        });
        let wrong: Vec<String> = wrong.map(|(_, text)| text).collect();
        for text in wrong {
            self.say(format!("the label '{text}' hasn't the numbers of the circuits of its band"));
        }
    }

    /// The word before the name in each run's title, by branch; says where two have the same.
    fn given(&mut self) -> HashMap<usize, String> {
        let mut list = HashMap::new();
        let mut owners: HashMap<String, usize> = HashMap::new();
        for part in &self.reading.runs {
            let Some(branch) = part.number.filter(|&branch| branch < self.network.branches.len()) else { continue };
            let (title, name) = (words(&part.title), words(&self.network.branches[branch].name));
            let Some(word) = title.strip_suffix(&name).map(str::trim_end).filter(|word| !word.is_empty()) else {
                continue;
            };
            if let Some(other) = owners.insert(word.to_string(), branch).filter(|&other| other != branch) {
                let other = &self.network.branches[other].name;
                self.say(format!("{} and '{other}' both have the number '{word}'", self.network.branch_row(branch)));
            }
            list.insert(branch, word.to_string());
        }
        list
    }

    /// Whether a number stands beside its cross, or near it with a line that leads there.
    fn at_cross(&self, i: usize, branch: usize, cross: &Span, around: &Around<'_>) -> bool {
        let Some(span) = self.reading.covered(i) else { return false };
        let ([left, top, right, bottom], [x, y]) = (span.0, cross.middle());
        let off = (left - x).max(x - right).max(top - y).max(y - bottom);
        let (arm, tall) = ((cross.0[2] - cross.0[0]) / 2.0, bottom - top);
        off <= arm + CLOSE + 0.5 * tall || off <= arm + LED && around.led_to_cross(&span, branch, [x, y])
    }

    /// Whether a number stands level with its end and beside it.
    fn at_its_place(&self, i: usize, end: Option<&str>, run: &[Point]) -> bool {
        let Some(Span([left, top, right, bottom])) = self.reading.points(i).and_then(|points| Span::around(&points))
        else {
            return false;
        };
        let (middle, tall) = ([(left + right) / 2.0, (top + bottom) / 2.0], bottom - top);
        let p = match end {
            Some("0") => run[0],
            Some("1") => run[run.len() - 1],
            _ => return false,
        };
        let across = (left - p[0]).max(p[0] - right);
        (middle[1] - p[1]).abs() <= 0.6 * tall && across <= tall + BESIDE
    }
}

/// Whether a label says how many circuits these are, and which: all, or the first four.
fn says(text: &str, numbers: &[&str]) -> bool {
    let shown = numbers[..numbers.len().min(NAMED)].join(", ");
    let more = if numbers.len() > NAMED { ", …" } else { "" };
    text == format!("{} circuits {shown}{more}", numbers.len())
}

/// Whether bands are as wide as a box, one for every other five of its rows, and have just these in them.
fn in_fives(rows: &[f64], bands: &[Span], boxed: &Span) -> bool {
    let wanted: Vec<&[f64]> = rows.chunks(5).skip(1).step_by(2).collect();
    let wide = |band: &Span| (band.0[0] - boxed.0[0]).abs() < 0.02 && (band.0[2] - boxed.0[2]).abs() < 0.02;
    let has = |band: &Span, five: &[f64]| {
        let inside: Vec<f64> = rows.iter().copied().filter(|y| band.0[1] < *y && *y < band.0[3]).collect();
        inside == five
    };
    let mut bands = bands.to_vec();
    bands.sort_by(|a, b| a.0[1].total_cmp(&b.0[1]));
    bands.len() == wanted.len() && bands.iter().zip(wanted).all(|(band, five)| wide(band) && has(band, five))
}
