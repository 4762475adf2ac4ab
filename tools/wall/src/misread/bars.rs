//! Lines at bars, dots, rings and boxes that they aren't joined to.
use super::near::Near;
use super::shapes::{apart, away, crossing, inside, length, on_row, part_of, Bar, Round, Run, Shapes, Span};
use super::{Kind, Place};
use std::collections::{BTreeMap, HashMap};

/// How far from a bar's tip a stroke may pass, in millimetres, and still touch it to the eye.
const TOUCH: f64 = 0.2;

/// A shorter way inside a box isn't seen as one.
const LEAST: f64 = 0.5;

/// How far inside its edge a box begins.
const EDGE: f64 = 0.05;

/// How far beside the middle of its own bar a line lies on it, how much of it has to, and how far from its own end that is
/// its end still.
const ON_BAR: f64 = 0.4;
const LONG: f64 = 0.8;
const OWN: f64 = 1.2;

/// What lines are compared with, by where it is.
struct Around<'a> {
    shapes: &'a Shapes,
    bars: Near,
    rounds: Vec<&'a Round>,
    near_rounds: Near,
    boxes: Near,
}

pub fn found(shapes: &Shapes) -> Vec<Place> {
    let near = || Near::new(&shapes.page);
    let rounds = shapes.dots.iter().chain(&shapes.rings).collect();
    let mut around = Around { shapes, bars: near(), rounds, near_rounds: near(), boxes: near() };
    shapes.bars.iter().enumerate().for_each(|(i, bar)| around.bars.add_piece(i, bar.ends()));
    for (i, round) in around.rounds.iter().enumerate() {
        around.near_rounds.add(i, &Span::of(round.at, round.at).grown(round.radius));
    }
    shapes.boxes.iter().enumerate().for_each(|(i, boxed)| around.boxes.add(i, &boxed.span));
    let mut places = Vec::new();
    for run in &shapes.runs {
        places.extend(around.dots(run));
        places.extend(around.bars(run));
        places.extend(around.boxes(run));
    }
    places
}

impl Around<'_> {
    /// One place for each dot or ring of another branch that a line runs over. What touches its own end there is seen to be
    /// beside it.
    fn dots(&self, run: &Run) -> Vec<Place> {
        let Some(ends) = run.ends() else { return Vec::new() };
        let mut found = BTreeMap::new();
        for piece in run.pieces() {
            self.near_rounds.visit(piece, run.wide, &mut |i| {
                let round = self.rounds[i];
                let at_end = || ends.iter().any(|&end| apart(end, round.at) < 2.0 * round.radius);
                let over = away(round.at, piece[0], piece[1]) < round.radius + run.wide / 2.0;
                if over && round.branch != run.branch && !at_end() {
                    found.insert(i, (round.branch, round.at));
                }
            });
        }
        let place = |(other, at)| Place { branch: Some(run.branch), other: Some(other), ..Place::new(Kind::Dot, at) };
        found.into_values().map(place).collect()
    }

    /// One place for each bar that a line has the colour of, isn't joined to, and meets at its tip, or passes in another
    /// box; and for each of its own that it runs along.
    fn bars(&self, run: &Run) -> Vec<Place> {
        let mut found: BTreeMap<usize, (Kind, [f64; 2])> = BTreeMap::new();
        for piece in run.pieces() {
            self.bars.visit(piece, run.wide + ON_BAR, &mut |i| {
                let bar = &self.shapes.bars[i];
                let hit = match run.buses.iter().position(|&bus| bus == bar.bus) {
                    Some(end) => along(run, end, bar, piece),
                    None if bar.colour == run.colour => met(run, bar, piece),
                    None => None,
                };
                if let Some((kind, at)) = hit {
                    let kept = found.entry(i).or_insert((kind, at));
                    *kept = if kind < kept.0 { (kind, at) } else { *kept };
                }
            });
        }
        let place = |(i, (kind, at)): (usize, (Kind, [f64; 2]))| {
            let bar = &self.shapes.bars[i];
            Place { branch: Some(run.branch), bus: Some(bar.bus), station: Some(bar.station), ..Place::new(kind, at) }
        };
        found.into_iter().map(place).collect()
    }

    /// One place for each box that a line runs over: another substation's, or its own beyond its row.
    fn boxes(&self, run: &Run) -> Vec<Place> {
        let mut found: HashMap<usize, (f64, Place)> = HashMap::new();
        for piece in run.pieces() {
            self.boxes.visit(piece, 0.0, &mut |i| {
                let boxed = &self.shapes.boxes[i];
                if run.stations == [boxed.station; 2] || on_row(run, boxed.station, piece) {
                    return;
                }
                let Some([from, to]) = inside(&boxed.span.grown(-EDGE), piece) else { return };
                let kind = if run.stations.contains(&boxed.station) { Kind::Across } else { Kind::Box };
                let place = Place {
                    branch: Some(run.branch),
                    station: Some(boxed.station),
                    ..Place::new(kind, part_of(piece, (from + to) / 2.0))
                };
                found.entry(i).or_insert((0.0, place)).0 += (to - from) * length(piece);
            });
        }
        let mut list: Vec<(usize, (f64, Place))> = found.into_iter().filter(|(_, (long, _))| *long >= LEAST).collect();
        list.sort_by_key(|(i, _)| *i);
        list.into_iter().map(|(_, (_, place))| place).collect()
    }
}

/// Where a piece of a line lies on its own bar, or crosses it, away from its end there.
fn along(run: &Run, end: usize, bar: &Bar, piece: [[f64; 2]; 2]) -> Option<(Kind, [f64; 2])> {
    let own = run.ends()?[end];
    let by = ON_BAR + run.wide / 2.0;
    let on = inside(&Span([bar.x, bar.top, bar.x, bar.bottom]).grown(by), piece)?;
    let ends = on.map(|part| part_of(piece, part));
    let far = ends.into_iter().max_by(|p, q| apart(*p, own).total_cmp(&apart(*q, own)))?;
    (length(ends) > LONG && apart(far, own) > OWN.max(by + 0.1)).then_some((Kind::Along, far))
}

/// How a piece of a line meets a bar of its colour.
fn met(run: &Run, bar: &Bar, piece: [[f64; 2]; 2]) -> Option<(Kind, [f64; 2])> {
    if !run.stations.contains(&bar.station) {
        if let Some(at) = crossing(piece, bar.ends()) {
            return Some((Kind::Bar, at));
        }
    }
    let tip = bar.ends().into_iter().find(|&tip| away(tip, piece[0], piece[1]) < run.wide / 2.0 + TOUCH)?;
    Some((Kind::Tip, tip))
}
