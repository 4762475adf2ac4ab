//! Numbers outside boxes: each on its own run, or with a thin line to its end; and those of runs at their gaps.
use super::parts::Boxed;
use super::plane::{Point, Span};
use super::reading::Reading;
use super::Check;
use crate::misread::near::Near;
use crate::misread::shapes::{gap, inside};
use std::collections::HashMap;

/// How much of the height of a line of text its digits take, from its top.
const DIGITS: f64 = 0.77;

/// How far from its box a number may stand outside it.
const FAR: f64 = 22.0;

/// How near to a number the line from it begins, and to an end the line to it ends.
const BEGINS: f64 = 0.6;
const WIDER: f64 = 0.2;
const ENDS: f64 = 0.02;

/// Runs, boxes and thin lines, by where they are.
pub struct Around<'a> {
    reading: &'a Reading<'a>,
    pieces: Vec<(Option<usize>, [Point; 2])>,
    near_pieces: Near,
    spans: Vec<Span>,
    near_spans: Near,
    /// By the branch and the end that they lead to.
    leaders: HashMap<&'a str, usize>,
}

impl<'a> Around<'a> {
    pub fn new(reading: &'a Reading<'a>, boxes: &HashMap<usize, Boxed>) -> Self {
        let mut around = Around {
            reading,
            pieces: Vec::new(),
            near_pieces: Near::new(&reading.page),
            spans: boxes.values().map(|boxed| boxed.span).collect(),
            near_spans: Near::new(&reading.page),
            leaders: HashMap::new(),
        };
        for part in &reading.runs {
            for two in part.stretches.iter().flatten().flat_map(|one| one.windows(2)) {
                around.near_pieces.add_piece(around.pieces.len(), [two[0], two[1]]);
                around.pieces.push((part.number, [two[0], two[1]]));
            }
        }
        around.spans.iter().enumerate().for_each(|(i, span)| around.near_spans.add(i, span));
        let leads = reading.elements.iter().enumerate();
        around.leaders = leads.filter_map(|(i, e)| Some((e.attribute("data-leads-to")?, i))).collect();
        around
    }

    /// Whether a thin line leads from a number to its end.
    pub fn led_to(&self, i: usize, branch: usize, end: &str, run: &[Point]) -> bool {
        let own = if end == "0" { run[0] } else { run[run.len() - 1] };
        self.reading.covered(i).is_some_and(|span| self.leads(&format!("{branch} {end}"), &span, own))
    }

    /// Whether a thin line leads from what a number covers to the middle of its branch's cross.
    pub fn led_to_cross(&self, span: &Span, branch: usize, cross: Point) -> bool {
        // It is bold, and wider than it counts as in some fonts.
        let ([left, top, right, bottom], more) = (span.0, WIDER * (span.0[2] - span.0[0]));
        self.leads(&format!("{branch} cross"), &Span([left - more, top, right + more, bottom]), cross)
    }

    fn leads(&self, key: &str, span: &Span, there: Point) -> bool {
        let points = self.leaders.get(key).and_then(|&leader| self.reading.points(leader));
        let Some([from, to]) = points.as_deref() else { return false };
        gap(span, &Span::of(*from, *from)) < BEGINS && (to[0] - there[0]).hypot(to[1] - there[1]) < ENDS
    }

    /// Whether a text stands on the run of its branch, and on no other run and no box.
    pub fn on_run_only(&self, i: usize, branch: usize) -> bool {
        let Some(Span([left, top, right, bottom])) = self.reading.covered(i) else { return false };
        // Digits don't reach below the baseline.
        let narrow = Span([left, top, right, top + DIGITS * (bottom - top)]).narrowed(0.8);
        let near = self.near_pieces.at(&narrow).into_iter().map(|i| self.pieces[i]);
        let mut runs: Vec<Option<usize>> =
            near.filter(|(_, ends)| inside(&narrow, *ends).is_some()).map(|(number, _)| number).collect();
        runs.dedup();
        let on_box = self.near_spans.at(&narrow).into_iter().any(|i| gap(&self.spans[i], &narrow) == 0.0);
        !on_box && runs == [Some(branch)]
    }
}

impl Check<'_> {
    /// Whether a number outside a box stands on its run, near the box of its end.
    pub fn on_its_run(
        &self,
        i: usize,
        branch: usize,
        end: &str,
        boxes: &HashMap<usize, Boxed>,
        around: &Around<'_>,
    ) -> bool {
        let (Some(span), Some(stations)) = (self.reading.covered(i), self.two_stations(branch)) else { return false };
        let near = |own: &Boxed| gap(&own.span, &span) < FAR;
        boxes.get(&stations[usize::from(end == "1")]).is_some_and(near) && around.on_run_only(i, branch)
    }

    /// Says where a number at a gap isn't that of the run that it stands on.
    pub fn at_gaps(&mut self, given: &HashMap<usize, String>, around: &Around<'_>) {
        for (i, element) in self.reading.elements.iter().enumerate() {
            let Some(branch) = element.attribute("data-at-gap") else { continue };
            let branch = branch.parse::<usize>().ok().filter(|branch| given.contains_key(branch));
            let own = |branch: usize| given[&branch] == *element.text && around.on_run_only(i, branch);
            if !branch.is_some_and(own) {
                self.found
                    .push(format!("line {}: the number '{}' at a gap isn't on its run", element.line, element.text));
            }
        }
    }
}
