//! Names of buses: in the free strips above and below the rows of a box.
use super::lettering::{width, Anchor, Line, SMALLEST};
use super::scene::{Bar, Scene, Station};
use super::shape::Point;
use super::short_names::{self, Wish};
use crate::network::Network;
use crate::plain::one_line;
use std::collections::HashSet;

pub struct BusName {
    pub bus: usize,
    /// What it is called in its box where there is room.
    pub label: String,
    /// None where it doesn't fit.
    pub line: Option<Line>,
    /// From the name to its bar, where they are apart.
    pub guide: Option<[Point; 2]>,
    pub shortened: bool,
}

/// The tallest text, in heights of a strip, whose capitals stay inside it.
const TALLEST: f64 = 1.3;

/// A name for each bus, in text of at most the given size.
pub fn placed(network: &Network, scene: &Scene, largest: f64) -> Vec<BusName> {
    scene.stations.iter().flat_map(|station| of_station(network, scene, station, largest)).collect()
}

/// The names without the station's own name before or behind, or without the words that all of them begin with.
fn labels(network: &Network, station: &Station) -> Vec<String> {
    let names: Vec<String> = station.buses.iter().map(|&bus| one_line(&network.buses[bus].name)).collect();
    let title = one_line(&network.station_name(station.number));
    let bared: Option<Vec<&str>> = names.iter().map(|name| without(name, &title)).collect();
    let bared = bared.filter(|labels| labels.iter().collect::<HashSet<_>>().len() == labels.len());
    let labels = bared.unwrap_or_else(|| names.iter().map(String::as_str).collect());
    unshared(&labels.iter().map(|label| label.split(' ').collect()).collect::<Vec<Vec<&str>>>())
}

/// What words are cut at.
const CUTS: [char; 4] = [' ', '/', '-', '_'];

/// A name without the words of the station's name before it or behind it; none where they aren't there, or nothing else is.
fn without<'a>(name: &'a str, station: &str) -> Option<&'a str> {
    let own: Vec<&str> = station.split(CUTS).filter(|word| !word.is_empty()).collect();
    let words: Vec<&str> = name.split(CUTS).filter(|word| !word.is_empty()).collect();
    if own.is_empty() || words.len() <= own.len() {
        return None;
    }
    let at = |word: &str| word.as_ptr() as usize - name.as_ptr() as usize;
    if words.starts_with(&own) {
        return Some(&name[at(words[own.len()])..]);
    }
    let last = words[words.len() - own.len() - 1];
    words.ends_with(&own).then(|| &name[..at(last) + last.len()])
}

/// The names without the words that all begin with.
fn unshared(words: &[Vec<&str>]) -> Vec<String> {
    let shared = |i: usize| words.len() > 1 && words.iter().all(|w| w.len() > i + 1 && w[i] == words[0][i]);
    let skipped = (0..).take_while(|&i| shared(i)).count();
    words.iter().map(|w| w[skipped..].join(" ")).collect()
}

fn of_station(network: &Network, scene: &Scene, station: &Station, largest: f64) -> Vec<BusName> {
    let labels = labels(network, station);
    let size = (0.9 * station.block.min(station.pad)).min(largest).max(SMALLEST);
    let gap = 0.35 * size;
    let bars: Vec<&Bar> = station.buses.iter().map(|&bus| &scene.bars[bus]).collect();
    let apart = if bars.len() > 1 { bars[1].x - bars[0].x } else { station.rect.width() };
    let column = apart - gap;
    let one_strip = labels.iter().all(|label| width(label, size, false) <= column);
    let below: Vec<bool> = (0..bars.len()).map(|i| goes_below(station, bars[i], !one_strip && i % 2 == 1)).collect();
    let strip = Strip { station, bars: &bars, below: &below, size, gap };
    let texts = strip.texts(&labels);
    labels.iter().zip(texts).enumerate().map(|(i, (label, text))| strip.name(i, label, text)).collect()
}

/// Whether a name goes into the lower strip: where it would, unless its bar reaches into one of the two.
fn goes_below(station: &Station, bar: &Bar, would: bool) -> bool {
    let (upper, lower) = reaches(station, bar);
    (would || upper) && !lower
}

/// Whether a bar reaches into the upper and into the lower strip.
fn reaches(station: &Station, bar: &Bar) -> (bool, bool) {
    let free = 0.9 * station.pad;
    (bar.top - station.rect.top < free, station.rect.bottom - bar.bottom < free)
}

/// The names of a station's buses in its two strips, from left to right.
struct Strip<'a> {
    station: &'a Station,
    bars: &'a [&'a Bar],
    below: &'a [bool],
    size: f64,
    gap: f64,
}

impl Strip<'_> {
    /// A text for each label: one that stands for no other in the box. Where no short form does, it is its row in the
    /// export.
    fn texts(&self, labels: &[String]) -> Vec<Option<String>> {
        if self.size > TALLEST * self.station.pad {
            return vec![None; labels.len()];
        }
        let wish = |i: usize| {
            let (left, right) = self.room(i);
            Wish { name: &labels[i], room: right - left, row: format!("#{}", self.station.buses[i] + 1) }
        };
        short_names::texts(&(0..labels.len()).map(wish).collect::<Vec<_>>(), self.size)
    }

    fn name(&self, i: usize, label: &str, text: Option<String>) -> BusName {
        let line = text.map(|text| self.line(i, text));
        BusName {
            bus: self.station.buses[i],
            label: label.to_string(),
            guide: line.as_ref().and_then(|_| self.guide(i)),
            shortened: line.as_ref().is_some_and(|line| line.text != label),
            line,
        }
    }

    /// From the edge of the box on the left, or what stands in the strip there, to that on the right. A lone bar's name
    /// may stand out a little.
    fn room(&self, i: usize) -> (f64, f64) {
        let rect = self.station.rect;
        let out = if self.bars.len() == 1 { 0.7 * self.size } else { -0.5 * self.gap };
        let left = (0..i).rev().find_map(|j| self.limit(i, j)).map_or(rect.left - out, |x| x + 0.5 * self.gap);
        let right =
            (i + 1..self.bars.len()).find_map(|j| self.limit(i, j)).map_or(rect.right + out, |x| x - 0.5 * self.gap);
        (left, right)
    }

    /// How far name i may go towards bar j: half way where their names share a strip, to the bar where it reaches into it.
    fn limit(&self, i: usize, j: usize) -> Option<f64> {
        let (a, b) = (self.bars[i].x, self.bars[j].x);
        if self.below[i] == self.below[j] {
            return Some((a + b) / 2.0);
        }
        let (upper, lower) = reaches(self.station, self.bars[j]);
        let reached = if self.below[i] { lower } else { upper };
        reached.then_some(b + (a - b).signum() * 0.2 * self.station.block)
    }

    fn line(&self, i: usize, text: String) -> Line {
        let (left, right) = self.room(i);
        let wide = width(&text, self.size, false);
        let (rect, half) = (self.station.rect, 0.5 * self.station.pad);
        let middle = if self.below[i] { rect.bottom - half } else { rect.top + half };
        let x = (self.bars[i].x - wide / 2.0).min(right - wide).max(left);
        Line { text, x, y: middle + 0.36 * self.size, size: self.size, bold: false, anchor: Anchor::Middle }
    }

    fn guide(&self, i: usize) -> Option<[Point; 2]> {
        let (rect, pad, bar) = (self.station.rect, self.station.pad, self.bars[i]);
        let (near, far) = if self.below[i] { (rect.bottom - pad, bar.bottom) } else { (rect.top + pad, bar.top) };
        let apart = if self.below[i] { near - far } else { far - near };
        (apart > 0.3 * self.station.block).then_some([[bar.x, near], [bar.x, far]])
    }
}

#[cfg(test)]
mod tests {
    use super::*;
    use crate::network::Bus;
    use crate::sheet::shape::Rect;

    fn labels_of(station: &str, names: &[&str]) -> Vec<String> {
        let bus = |name: &&str| Bus { name: name.to_string(), station: 0, kv: 11.0, at: None, line: 1 };
        let network = Network {
            name: String::new(),
            sources: Vec::new(),
            stations: vec![station.to_string()],
            buses: names.iter().map(bus).collect(),
            branches: Vec::new(),
            numbering: crate::network::Numbering::Rows,
            retired: Vec::new(),
            part: None,
            notes: Vec::new(),
        };
        let rect = Rect::new(0.0, 0.0, 9.0, 9.0);
        labels(&network, &Station { number: 0, rect, block: 1.0, pad: 1.0, buses: (0..names.len()).collect() })
    }

    #[test]
    fn shared_words_are_left_out() {
        assert_eq!(labels_of("Long Acre", &["Long Acre 66/1", "Long Acre 11/1"]), ["66/1", "11/1"]);
        assert_eq!(labels_of("Acre", &["LAC bar 1", "LAC bar 2"]), ["1", "2"]);
        assert_eq!(labels_of("Long Acre", &["Long Acre 11 kV"]), ["11 kV"]);
        assert_eq!(labels_of("Long Acre", &["Long Acre"]), ["Long Acre"]);
        assert_eq!(labels_of("Long Acre", &["Long Hill"]), ["Long Hill"]);
        assert_eq!(labels_of("Acre", &["Acre", "Acre spare"]), ["Acre", "Acre spare"]);
        assert_eq!(labels_of("Acre 2", &["Busbar-A Acre 2", "Acre 2 11/1"]), ["Busbar-A", "11/1"]);
        assert_eq!(labels_of("Acre", &["Acre A", "A Acre"]), ["Acre A", "A Acre"], "they would be the same");
        assert_eq!(labels_of("RMU 076", &["RMU/076/11", "RMU_076-LV"]), ["11", "LV"]);
        assert_eq!(labels_of("Acre-2", &["66/1 Acre 2", "66/2 Acre 2"]), ["66/1", "66/2"]);
    }
}
