//! Isolators and kinds: each isolator on the sheet is its branch's, in brackets, at its own end; each sign of a kind is that of
//! its branch, on its run.
use super::ends::Runs;
use super::outside::Around;
use super::parts::Boxed;
use super::plane::{away, Point, Span};
use super::Check;
use crate::misread::shapes::gap;
use crate::network::Kind;
use std::collections::{BTreeMap, HashMap, HashSet};

/// How far from its end an isolator may begin, beside a number: a number's width and some room.
const BESIDE: f64 = 12.0;

/// How far from its box one on its run may stand, in millimetres.
const FAR: f64 = 25.0;

/// How far the middle of a sign may lie beside its run.
const OFF: f64 = 0.05;

impl Check<'_> {
    pub fn switches(&mut self, boxes: &HashMap<usize, Boxed>, runs: &Runs) {
        let around = Around::new(self.reading, boxes);
        let mut seen = HashSet::new();
        for (i, element) in self.reading.elements.iter().enumerate() {
            let Some(branch) = element.attribute("data-switch") else { continue };
            let line = element.line;
            let end = element.attribute("data-end").and_then(|end| ["0", "1"].iter().position(|one| *one == end));
            let known = branch.parse::<usize>().ok().filter(|branch| runs.contains_key(branch)).zip(end);
            let Some((branch, end)) = known.filter(|_| element.name == "text") else {
                self.found.push(format!("line {line}: the isolator '{}' of no end of a run", element.text));
                continue;
            };
            let row = self.network.branch_row(branch);
            if !seen.insert((branch, end)) {
                self.found.push(format!("{row} has a second isolator at one end"));
            }
            let own = &self.network.branches[branch].more.switches[end];
            if own.is_empty() || element.text != format!("[{own}]") {
                self.found.push(format!("{row} has the isolator '{}', which isn't its own", element.text));
            }
            if !self.reading.looks[i].filled() {
                self.found.push(format!("the isolator '{}' of {row} can't be seen", element.text));
            }
            let outside = || self.near_box(i, branch, end, boxes) && around.on_run_only(i, branch);
            if !self.at_end(i, branch, end, runs) && !outside() {
                self.found.push(format!("{row} has its isolator '{}' away from its end", element.text));
            }
        }
    }

    fn near_box(&self, i: usize, branch: usize, end: usize, boxes: &HashMap<usize, Boxed>) -> bool {
        let (Some(span), Some(stations)) = (self.reading.covered(i), self.two_stations(branch)) else { return false };
        boxes.get(&stations[end]).is_some_and(|own| gap(&own.span, &span) < FAR)
    }

    /// Whether a text stands level with an end, beside it, and no nearer to another end that is level with it.
    fn at_end(&self, i: usize, branch: usize, end: usize, runs: &Runs) -> bool {
        let Some(Span([left, top, right, bottom])) = self.reading.covered(i) else { return false };
        let (middle, tall) = ((top + bottom) / 2.0, bottom - top);
        let across = |p: &Point| (left - p[0]).max(p[0] - right).max(0.0);
        let level = |p: &Point| (middle - p[1]).abs() <= 0.6 * tall;
        let two = |points: &[Point]| [points[0], points[points.len() - 1]];
        let own = two(&runs[&branch])[end];
        let others = runs.iter().flat_map(|(&other, points)| {
            two(points).into_iter().enumerate().filter(move |(at, _)| (other, *at) != (branch, end))
        });
        let nearer = others.map(|(_, p)| p).any(|p| level(&p) && across(&p) < across(&own) - 0.01);
        level(&own) && across(&own) <= BESIDE && !nearer
    }

    /// Each sign of a kind stands on its run: two circles for a transformer, a square for a coupler, none for others.
    pub fn kinds(&mut self, runs: &Runs) {
        let mut signs: BTreeMap<usize, Vec<usize>> = BTreeMap::new();
        let mut found = Vec::new();
        for (i, element) in self.reading.elements.iter().enumerate() {
            let Some(branch) = element.attribute("data-kind") else { continue };
            match branch.parse::<usize>().ok().filter(|branch| runs.contains_key(branch)) {
                Some(branch) => signs.entry(branch).or_default().push(i),
                None => found.push(format!("line {}: the sign of a branch that has no run", element.line)),
            }
        }
        for (branch, parts) in signs {
            let row = self.network.branch_row(branch);
            let names: Vec<&str> = parts.iter().map(|&i| self.reading.elements[i].name).collect();
            let kind = self.network.branches[branch].more.kind;
            let fits = match kind {
                Some(Kind::Transformer) => names == ["circle"; 3] && self.two_circles(&parts),
                Some(Kind::Coupler) => names == ["rect"],
                _ => false,
            };
            if !fits {
                found.push(format!("{row} has the sign of a kind that isn't its own"));
            }
            let spans = parts.iter().filter_map(|&i| self.reading.covered(i)).reduce(|a, b| a.and(&b));
            let on = |p: Point| runs[&branch].windows(2).any(|two| away(p, two[0], two[1]) < OFF);
            if !spans.is_some_and(|span| on(span.middle())) {
                found.push(format!("{row} has the sign of its kind away from its run"));
            }
            if parts.iter().any(|&i| !self.reading.looks[i].inked()) {
                found.push(format!("the sign of the kind of {row} can't be seen"));
            }
        }
        found.into_iter().for_each(|line| self.say(line));
    }

    /// Fields of the title block: each at most once, in the block, with a text that is seen.
    pub fn fields(&mut self) {
        let mut seen = HashSet::new();
        let mut found = Vec::new();
        for (i, element) in self.reading.elements.iter().enumerate() {
            let Some(field) = element.attribute("data-field") else { continue };
            let (look, text) = (&self.reading.looks[i], element.text.trim());
            let known = ["Date", "Revision", "Drawn by", "Checked by"].contains(&field);
            if !known || &*look.group != "title-block" || element.name != "text" || text.is_empty() || !look.filled() {
                found.push(format!("line {}: '{text}' is no field of the title block", element.line));
            }
            if !seen.insert(field.to_string()) {
                found.push(format!("line {}: a second field {field} of the title block", element.line));
            }
        }
        found.into_iter().for_each(|line| self.say(line));
    }

    /// Whether three circles are two of one size that overlap: the first is drawn again over the second.
    fn two_circles(&self, parts: &[usize]) -> bool {
        let circles: Option<Vec<(Point, f64)>> = parts.iter().map(|&i| self.reading.circle(i)).collect();
        let Some([(a, r), (b, s), (c, t)]) = circles.as_deref() else { return false };
        let far = |p: &Point, q: &Point| (p[0] - q[0]).hypot(p[1] - q[1]);
        far(a, c) < 0.02 && (r - s).abs() < 0.02 && (r - t).abs() < 0.02 && far(a, b) < 2.0 * r && far(a, b) > 0.3 * r
    }
}
