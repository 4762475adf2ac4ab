//! Names of substations: at the box, where they cover no box, no other text and few lines, and stand nearer to their own box
//! than to any other; else a line leads from them to it.
use super::lettering::{baseline, halves, height, shortened, width, Anchor, Keep, Line, SMALLEST};
use super::near::Near;
use super::scene::{Scene, Station};
use super::seen;
use super::shape::{distance, Point, Rect};
use super::short_names::fits;
use super::taken::Taken;
use crate::misread::shapes::gap;
use crate::network::Network;
use crate::plain::one_line;

pub struct StationName {
    pub station: usize,
    /// None at all where no place is free.
    pub lines: Vec<Line>,
    pub shortened: bool,
    /// From the name to its box, where another box is nearer or it stands away from its own.
    pub leader: Option<[Point; 2]>,
}

/// Between a box and its name.
const GAP: f64 = 0.5;

/// How far letters may reach out of their room to the side, in sizes.
const BEARING: f64 = 0.15;

/// How far from its box a name may stand where a line leads to it.
const FARTHER: [f64; 3] = [2.5, 5.0, 8.0];

/// So much nearer, in millimetres, another box takes a name; some more than where it is found to be misread.
const NEARER: f64 = 0.02;

/// How little it is liked that a line has to lead from a name to its box.
const LED: usize = 30;

/// How little it is liked that letters hide a line.
const HIDDEN: usize = 60;

/// A way to write a name: its lines and size, and how little it is liked.
struct Wording {
    lines: Vec<String>,
    size: f64,
    dislike: usize,
    shortened: bool,
}

/// A side of a box.
#[derive(Clone, Copy, PartialEq)]
enum Side {
    Above,
    Below,
    Left,
    Right,
}

/// A place of a name: the side, which part of the spare width or height stands before the box's, and how little it is liked.
const PLACES: [(Side, f64, usize); 12] = [
    (Side::Above, 0.5, 0),
    (Side::Above, 0.0, 1),
    (Side::Above, 1.0, 1),
    (Side::Below, 0.5, 3),
    (Side::Below, 0.0, 4),
    (Side::Below, 1.0, 4),
    (Side::Right, 0.0, 9),
    (Side::Left, 0.0, 9),
    (Side::Right, 0.5, 9),
    (Side::Left, 0.5, 9),
    (Side::Right, 1.0, 10),
    (Side::Left, 1.0, 10),
];

/// Places farther off: across from a corner of the box, and beside it.
const ACROSS: [(Side, f64, usize); 12] = [
    (Side::Above, -0.5, 12),
    (Side::Above, 1.5, 12),
    (Side::Below, -0.5, 14),
    (Side::Below, 1.5, 14),
    (Side::Right, 0.25, 14),
    (Side::Left, 0.25, 14),
    (Side::Right, 0.75, 14),
    (Side::Left, 0.75, 14),
    (Side::Above, -1.1, 18),
    (Side::Above, 2.1, 18),
    (Side::Below, -1.1, 20),
    (Side::Below, 2.1, 20),
];

/// No name stands farther from its box, in millimetres.
const FARTHEST: f64 = 11.0;

struct Around<'a> {
    scene: &'a Scene,
    pieces: &'a Near,
    boxes: &'a Near,
    /// All names, in the order of the stations.
    names: Vec<String>,
    largest: f64,
}

/// A name at a place: how little it is liked, and what it would be.
type Found = (usize, StationName);

pub fn placed(
    network: &Network,
    scene: &Scene,
    [pieces, boxes]: [&Near; 2],
    largest: f64,
    taken: &mut Taken,
) -> Vec<StationName> {
    let names = scene.stations.iter().map(|s| one_line(&network.station_name(s.number))).collect();
    let around = Around { scene, pieces, boxes, names, largest };
    let mut list = Vec::new();
    for (place, station) in scene.stations.iter().enumerate() {
        let best = around.best(place, station, taken);
        best.lines.iter().for_each(|line| taken.add(line.rect()));
        list.push(best);
    }
    list
}

impl Around<'_> {
    fn best(&self, place: usize, station: &Station, taken: &Taken) -> StationName {
        let wordings = self.wordings(place, station);
        let mut found: Option<Found> = None;
        for wording in &wordings {
            self.tries(wording, station, 0.0, taken, &mut found);
        }
        // Away from its box, a name is short of nothing but room. It goes there rather than over a line.
        let small = wordings.iter().filter(|wording| wording.size == SMALLEST && !wording.shortened);
        for (far, wording) in FARTHER.into_iter().flat_map(|far| small.clone().map(move |wording| (far, wording))) {
            if found.as_ref().is_none_or(|(cost, _)| *cost >= HIDDEN) {
                self.tries(wording, station, far, taken, &mut found);
            }
        }
        let none = StationName { station: station.number, lines: Vec::new(), shortened: false, leader: None };
        found.map_or(none, |(_, name)| name)
    }

    /// Looks for a better place of a wording, so far from its box.
    fn tries(&self, wording: &Wording, station: &Station, far: f64, taken: &Taken, found: &mut Option<Found>) {
        let across = if far > 0.0 { &ACROSS[..] } else { &[] };
        for &(side, part, dislike) in PLACES.iter().chain(across) {
            let least = wording.dislike + dislike + if far > 0.0 { LED } else { 0 };
            if found.as_ref().is_some_and(|(cost, _)| *cost <= least) {
                continue;
            }
            let lines = wording.at(&station.rect, side, part, GAP + far);
            if !lines.iter().all(|line| taken.free(&line.rect())) {
                continue;
            }
            let covered: usize = lines.iter().map(|line| self.scene.through(self.pieces, &line.rect(), None)).sum();
            let led = far > 0.0 || self.nearer_to_another(&lines, station);
            let leader = led.then(|| leader(&lines, &station.rect, side));
            let away = |[p, q]: [Point; 2]| distance(p, q) > FARTHEST || self.in_another([p, q], station.number);
            if far > 0.0 && leader.is_some_and(away) {
                continue;
            }
            let bends: usize = lines.iter().map(|line| self.scene.bends(self.pieces, &line.rect().grown(0.5))).sum();
            let under = |line: &Line| self.scene.through(self.pieces, &line.capitals(), None);
            let hidden: usize = if covered > 0 { lines.iter().map(under).sum() } else { 0 };
            let liked = wording.dislike + dislike + if led { LED } else { 0 };
            let cost = liked + 3 * covered + 5 * bends + HIDDEN * hidden;
            if found.as_ref().is_none_or(|(least, _)| cost < *least) {
                let (station, shortened) = (station.number, wording.shortened);
                *found = Some((cost, StationName { station, lines, shortened, leader }));
            }
        }
    }

    /// Whether a name stands nearer to another box than to its own.
    fn nearer_to_another(&self, lines: &[Line], station: &Station) -> bool {
        let Some(span) = lines.iter().map(seen::text).reduce(|a, b| a.and(&b)) else { return false };
        let far = |rect: &Rect| gap(&span, &seen::span(rect));
        let (own, [left, top, right, bottom]) = (far(&station.rect), span.0);
        let near = self.boxes.near(&Rect::new(left, top, right, bottom).grown(own));
        let others = near.into_iter().map(|i| &self.scene.stations[i]).filter(|other| other.number != station.number);
        others.into_iter().any(|other| far(&other.rect) < own - NEARER)
    }

    /// Whether a line meets the box of another station.
    fn in_another(&self, [p, q]: [Point; 2], station: usize) -> bool {
        let stations = self.boxes.along(p, q, 0.0).into_iter().map(|i| &self.scene.stations[i]);
        stations.into_iter().any(|other| other.number != station && other.rect.meets(p, q))
    }

    fn wordings(&self, place: usize, station: &Station) -> Vec<Wording> {
        let name = &self.names[place];
        let large = (1.25 * station.block).clamp(SMALLEST, self.largest);
        let mut list = Vec::new();
        for (size, dislike) in [(large, 0), ((large + SMALLEST) / 2.0, 3), (SMALLEST, 6)] {
            let whole = vec![name.clone()];
            list.push(Wording { lines: whole, size, dislike, shortened: false });
            if let Some(two) = halves(name, size, true) {
                list.push(Wording { lines: two.to_vec(), size, dislike: dislike + 2, shortened: false });
            }
        }
        let most = station.rect.width().max(12.0);
        if width(name, SMALLEST, true) > most {
            let short = self.short(place, most).map(|short| vec![short]);
            list.extend(short.map(|lines| Wording { lines, size: SMALLEST, dislike: 40, shortened: true }));
        }
        list
    }

    /// A short form that stands for no other name on the sheet.
    fn short(&self, place: usize, most: f64) -> Option<String> {
        let forms = [Keep::Both, Keep::End, Keep::Start].into_iter();
        let forms = forms.filter_map(|keep| shortened(&self.names[place], SMALLEST, true, most, keep));
        let only = |form: &String| self.names.iter().enumerate().all(|(i, name)| i == place || !fits(form, name));
        forms.into_iter().find(only)
    }
}

/// A line from a name to its box: level or upright where they face each other.
fn leader(lines: &[Line], rect: &Rect, side: Side) -> [Point; 2] {
    let whole = lines.iter().map(Line::capitals).reduce(|a, b| a.with([b.left, b.top]).with([b.right, b.bottom]));
    let r = whole.unwrap_or(*rect);
    let x = rect.middle()[0].clamp(r.left, r.right);
    let y = rect.middle()[1].clamp(r.top, r.bottom);
    let to = |[x, y]: Point| [x.clamp(rect.left, rect.right), y.clamp(rect.top, rect.bottom)];
    // Beside the text, so that a short one is seen.
    let edge = if x - r.left < r.right - x { r.left - 0.3 } else { r.right + 0.3 };
    match side {
        Side::Above if (rect.left..=rect.right).contains(&edge) => [[edge, r.top], [edge, rect.top]],
        Side::Below if (rect.left..=rect.right).contains(&edge) => [[edge, r.bottom], [edge, rect.bottom]],
        Side::Above => [[x, r.bottom], to([x, rect.top])],
        Side::Below => [[x, r.top], to([x, rect.bottom])],
        Side::Left => [[r.right, y], to([rect.left, y])],
        Side::Right => [[r.left, y], to([rect.right, y])],
    }
}

impl Wording {
    fn at(&self, rect: &Rect, side: Side, part: f64, off: f64) -> Vec<Line> {
        let tall = height(self.size);
        let all = tall * self.lines.len() as f64;
        let top = match side {
            Side::Above => rect.top - off - all,
            Side::Below => rect.bottom + off,
            Side::Left | Side::Right => rect.top + (rect.height() - all) * part,
        };
        let anchor = match side {
            Side::Left => Anchor::End,
            Side::Right => Anchor::Start,
            _ => [Anchor::Start, Anchor::Middle, Anchor::End][(2.0 * part.clamp(0.0, 1.0)) as usize],
        };
        let lines = self.lines.iter().enumerate();
        lines
            .map(|(i, text)| {
                let wide = width(text, self.size, true);
                let x = match side {
                    Side::Left => rect.left - off - BEARING * self.size - wide,
                    Side::Right => rect.right + off + BEARING * self.size,
                    _ => rect.left + (rect.width() - wide) * part,
                };
                let y = baseline(top + i as f64 * tall, self.size);
                Line { text: text.clone(), x, y, size: self.size, bold: true, anchor }
            })
            .collect()
    }
}

#[cfg(test)]
mod tests {
    use super::*;
    use crate::misread::shapes::Span;

    fn wording(text: &str) -> Wording {
        Wording { lines: vec![text.to_string()], size: 2.5, dislike: 0, shortened: false }
    }

    /// Wherever a name stands, it keeps off its box, and a line from it ends at the box.
    #[test]
    fn places_round_a_box() {
        let rect = Rect::new(20.0, 20.0, 30.0, 44.0);
        for (side, part, _) in PLACES {
            let lines = wording("Name").at(&rect, side, part, 3.0);
            assert!(!lines[0].rect().overlaps(&rect.grown(2.9)));
            let [from, to] = leader(&lines, &rect, side);
            assert!(rect.has(to) && !rect.has(from), "{from:?} {to:?}");
            let span = Span::of(from, to);
            assert!(span.0[2] - span.0[0] < 12.0 && span.0[3] - span.0[1] < 12.0);
        }
    }
}
