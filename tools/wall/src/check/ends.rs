//! Runs: each in one stretch from its own bar to its own bar, open ones dashed and crossed, live ones with their dots.
use super::parts::{Bar, Boxed, Kind, Wanted};
use super::plane::{away, Point, Span};
use super::Check;
use crate::misread::shapes::{inside, length, part_of};
use std::collections::{BTreeMap, HashMap, HashSet};

/// Numbers on the sheet are rounded to a hundredth of a millimetre.
const ROUNDING: f64 = 0.011;

/// How far the middle of a cross may lie beside its run.
const BESIDE: f64 = 0.03;

/// How far a gap at a box may reach beyond it.
const UNDER: f64 = 1.7;

/// How far inside its edge a box begins.
const EDGE: f64 = 0.03;

/// A run that is inside a box for less, in millimetres, or less deep, only touches it or runs along its edge.
const TOUCHES: f64 = 0.4;
const DEEP: f64 = 0.08;

/// How many steps what is seen over a box is looked at in.
const STEPS: usize = 8;

/// The least side of a cross.
const CROSS: f64 = 0.5;

/// Whether the rectangle around two points meets another.
fn meets(span: &Span, a: Point, b: Point) -> bool {
    let (s, t) = (span.0, Span::of(a, b).0);
    s[0] <= t[2] && t[0] <= s[2] && s[1] <= t[3] && t[1] <= s[3]
}

/// The points of runs, by branch.
pub type Runs = BTreeMap<usize, Vec<Point>>;

impl Check<'_> {
    /// The two buses of a branch, where both are known and they differ.
    pub fn two_buses(&self, branch: usize) -> Option<[usize; 2]> {
        let row = &self.network.branches[branch];
        let two = [self.network.known(row.from)?, self.network.known(row.to)?];
        Some(two).filter(|[from, to]| from != to)
    }

    pub fn live(&self, branch: usize) -> bool {
        self.network.branches[branch].service != 0
    }

    fn drawn(&self, test: impl Fn(usize) -> bool) -> Vec<Wanted> {
        let numbers = (0..self.network.branches.len()).filter(|&e| self.two_buses(e).is_some() && test(e));
        let row = |number: usize| Wanted {
            number,
            name: self.network.branches[number].name.clone(),
            row: self.network.branch_row(number),
        };
        numbers.map(row).collect()
    }

    /// The runs of all branches between two known, different buses.
    pub fn runs(&mut self, boxes: &HashMap<usize, Boxed>, bars: &HashMap<usize, Bar>) -> Runs {
        let wanted = self.drawn(|_| true);
        let parts = self.matched(&self.reading.runs, &wanted, &Kind { thing: "run", prefix: "branch-" });
        let mut runs = BTreeMap::new();
        for row in &wanted {
            let Some(part) = parts.get(&row.number) else { continue };
            let Some(stretches) = part.stretches.as_deref().filter(|list| list.iter().all(|one| one.len() > 1)) else {
                self.say(format!("{} has a run without straight pieces", row.row));
                continue;
            };
            if stretches.len() != 1 && !self.gaps_under_boxes(row.number, stretches, boxes) {
                self.say(format!("{} has a run in {} stretches, not one", row.row, stretches.len()));
                continue;
            }
            if let Some(station) =
                (!self.live(row.number)).then(|| self.laid_over(row.number, stretches, boxes)).flatten()
            {
                let name = self.network.station_name(station);
                self.say(format!("{} has no gap at the box of substation '{name}', which it passes under", row.row));
            }
            let points = stretches.concat();
            if self.reading.looks[part.element].dashed == self.live(row.number) {
                let wrong = if self.live(row.number) {
                    "is live, and its run is dashed"
                } else {
                    "is open, and its run isn't dashed"
                };
                self.say(format!("{} {wrong}", row.row));
            }
            self.seen(part, "run", &row.row);
            self.ends_at(row, &points, bars);
            runs.insert(row.number, points);
        }
        runs
    }

    /// Whether a run has its gaps only at boxes which it passes under, with none of their ends inside its own boxes.
    fn gaps_under_boxes(&self, branch: usize, stretches: &[Vec<Point>], boxes: &HashMap<usize, Boxed>) -> bool {
        let Some(buses) = self.two_buses(branch) else { return false };
        let own = buses.map(|bus| self.network.buses[bus].station as usize);
        let spot = |r: Point| Span::of(r, r);
        let under = |a: Point, b: Point| {
            let wide: Vec<&Boxed> = boxes.values().filter(|boxed| meets(&boxed.span.grown(UNDER), a, b)).collect();
            let near = |r: Point| wide.iter().any(|boxed| boxed.span.grown(UNDER).holds(&spot(r)));
            let inner = |boxed: &Boxed| boxed.span.grown(-TOUCHES);
            let within = |r: Point| own.iter().filter_map(|s| boxes.get(s)).any(|boxed| inner(boxed).holds(&spot(r)));
            let steps = (b[0] - a[0]).hypot(b[1] - a[1]).ceil().clamp(2.0, 1e4) as usize;
            let part = |i: usize| i as f64 / steps as f64;
            let at = |i: usize| [a[0] + (b[0] - a[0]) * part(i), a[1] + (b[1] - a[1]) * part(i)];
            (0..=steps).all(|i| near(at(i))) && !within(a) && !within(b)
        };
        stretches.windows(2).all(|two| under(two[0][two[0].len() - 1], two[1][0]))
    }

    /// The first substation, by its number, over whose box an open run is seen, outside the boxes of its own.
    fn laid_over(&self, branch: usize, stretches: &[Vec<Point>], boxes: &HashMap<usize, Boxed>) -> Option<usize> {
        let stations = self.two_buses(branch)?.map(|bus| self.network.buses[bus].station as usize);
        let own: Vec<Span> = stations.iter().filter_map(|s| boxes.get(s)).map(|b| b.span.grown(EDGE)).collect();
        let over = |boxed: &Boxed, two: &[Point]| {
            let piece = [two[0], two[1]];
            let Some([from, to]) = inside(&boxed.span.grown(-DEEP), piece) else { return false };
            let long = (to - from) * length(piece);
            long > TOUCHES
                && (0..=STEPS).any(|i| {
                    let at = part_of(piece, from + (to - from) * i as f64 / STEPS as f64);
                    !own.iter().any(|own| own.holds(&Span::of(at, at)))
                })
        };
        // Rows at both ends are seen, whatever lies on them.
        let count: usize = stretches.iter().map(|one| one.len() - 1).sum();
        let rows = if count > 2 { 1 } else { 0 };
        let pieces = || stretches.iter().flat_map(|one| one.windows(2)).skip(rows).take(count - 2 * rows);
        let seen = |(s, boxed): &(&usize, &Boxed)| !stations.contains(s) && pieces().any(|two| over(boxed, two));
        boxes.iter().filter(seen).map(|(&s, _)| s).min()
    }

    /// Says where a run doesn't begin at the bar of its first bus or end at that of its second.
    fn ends_at(&mut self, row: &Wanted, points: &[Point], bars: &HashMap<usize, Bar>) {
        let Some(buses) = self.two_buses(row.number) else { return };
        for (bus, p) in buses.into_iter().zip([points[0], points[points.len() - 1]]) {
            let on = |bar: &Bar| {
                (bar.x - p[0]).abs() < ROUNDING && bar.top - ROUNDING < p[1] && p[1] < bar.bottom + ROUNDING
            };
            if bars.get(&bus).is_some_and(|bar| !on(bar)) {
                let place = format!("({:.2}, {:.2})", p[0], p[1]);
                self.say(format!(
                    "{} ends at {place}, which isn't on the bar of '{}'",
                    row.row, self.network.buses[bus].name
                ));
            }
        }
    }

    /// A cross on the run of each open branch, and on no other.
    pub fn crosses(&mut self, runs: &Runs) {
        let wanted = self.drawn(|e| !self.live(e));
        let parts = self.matched(&self.reading.crosses, &wanted, &Kind { thing: "cross", prefix: "" });
        for row in &wanted {
            let (Some(part), Some(run)) = (parts.get(&row.number), runs.get(&row.number)) else { continue };
            let span = part.stretches.as_ref().and_then(|list| Span::around(&list.concat()));
            let off = |span: &Span| {
                run.windows(2).map(|two| away(span.middle(), two[0], two[1])).fold(f64::INFINITY, f64::min)
            };
            match span {
                Some(span) if span.0[2] - span.0[0] < CROSS || span.0[3] - span.0[1] < CROSS => {
                    self.say(format!("{} has a cross that is too small to see", row.row));
                }
                Some(span) if off(&span) <= BESIDE => {}
                _ => self.say(format!("{} has its cross beside its run", row.row)),
            }
            self.seen(part, "cross", &row.row);
        }
    }

    /// A dot where a live run is joined to its bars, and nowhere else.
    pub fn dots(&mut self, runs: &Runs) {
        let place = |p: &Point| ((p[0] * 100.0).round() as i64, (p[1] * 100.0).round() as i64);
        let near = |set: &HashSet<(i64, i64)>, (x, y): (i64, i64)| {
            (-1..=1).any(|dx| (-1..=1).any(|dy| set.contains(&(x + dx, y + dy))))
        };
        let dots: HashSet<(i64, i64)> = self.reading.dots.iter().map(place).collect();
        let mut ends = HashSet::new();
        for (&branch, points) in runs.iter().filter(|(&branch, _)| self.network.branches[branch].service != 0) {
            for p in [points[0], points[points.len() - 1]] {
                ends.insert(place(&p));
                if !near(&dots, place(&p)) {
                    let row = self.network.branch_row(branch);
                    self.say(format!("{row} has no dot at its end at ({:.2}, {:.2})", p[0], p[1]));
                }
            }
        }
        for dot in self.reading.dots.iter().filter(|dot| !near(&ends, place(dot))) {
            self.say(format!("there is a dot at ({:.2}, {:.2}), where no live branch ends", dot[0], dot[1]));
        }
    }
}
