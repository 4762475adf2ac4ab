//! Thin lines from numbers and labels: each from its own text to the end, the cross or the band that it is of.
use super::plane::{away, Point, Span};
use super::reading::Reading;
use std::collections::HashMap;

/// How far from its number or label a line that leads from there may begin: the outlines of texts are about so.
const FROM: f64 = 1.0;
const WIDER: f64 = 0.2;

/// How near to an end or a cross the line to it ends, and how far beside its band.
const ENDS: f64 = 0.02;
const BAND: f64 = 1.6;

/// What texts cover and what lines lead to, by what the file calls them.
#[derive(Default)]
pub struct Leaders {
    numbers: HashMap<String, Span>,
    labels: HashMap<String, Span>,
    ends: HashMap<String, Point>,
    bands: HashMap<String, Vec<Point>>,
}

impl Leaders {
    pub fn new(reading: &Reading<'_>) -> Self {
        let mut all = Leaders::default();
        for (i, element) in reading.elements.iter().enumerate() {
            let Some(span) = reading.covered(i) else { continue };
            if let Some(branch) = element.attribute("data-number").filter(|_| element.name == "text") {
                let end = element.attribute("data-end").unwrap_or("cross");
                all.numbers.insert(format!("{branch} {end}"), span);
            }
            if let Some(mark) = element.attribute("data-mark").filter(|_| element.name == "text") {
                // A label may have two lines.
                let whole = |whole: &mut Span| *whole = whole.and(&span);
                all.labels.entry(mark.to_string()).and_modify(whole).or_insert(span);
            }
            if let Some(band) = element.attribute("data-stretch") {
                all.bands.extend(reading.points(i).map(|points| (band.to_string(), points)));
            }
        }
        for run in &reading.runs {
            let (Some(branch), Some(stretches)) = (run.number, run.stretches.as_ref()) else { continue };
            let first = stretches.first().and_then(|one| one.first());
            let last = stretches.last().and_then(|one| one.last());
            all.ends.extend(first.map(|&p| (format!("{branch} 0"), p)));
            all.ends.extend(last.map(|&p| (format!("{branch} 1"), p)));
        }
        for cross in &reading.crosses {
            let span = cross.stretches.as_ref().and_then(|list| Span::around(&list.concat()));
            all.ends.extend(cross.number.zip(span).map(|(branch, span)| (format!("{branch} cross"), span.middle())));
        }
        all
    }

    /// Whether a line leads from a number to its own end or cross.
    pub fn to_its_end(&self, reading: &Reading<'_>, i: usize) -> bool {
        let Some(key) = reading.elements[i].attribute("data-leads-to") else { return false };
        let there = |to: Point| self.ends.get(key).is_some_and(|&end| away(to, end, end) < ENDS);
        self.numbers.get(key).zip(two(reading, i)).is_some_and(|(span, [from, to])| begins(span, from) && there(to))
    }

    /// Whether a line leads from a label to its own band.
    pub fn to_its_band(&self, reading: &Reading<'_>, i: usize) -> bool {
        let Some(key) = reading.elements[i].attribute("data-leads-from") else { return false };
        let near = |p: Point, points: &[Point]| points.windows(2).any(|piece| away(p, piece[0], piece[1]) < BAND);
        let there = |to: Point| self.bands.get(key).is_some_and(|points| near(to, points));
        self.labels.get(key).zip(two(reading, i)).is_some_and(|(span, [from, to])| begins(span, from) && there(to))
    }
}

/// The two points of a straight line.
fn two(reading: &Reading<'_>, i: usize) -> Option<[Point; 2]> {
    reading.points(i)?.try_into().ok()
}

/// Whether a line that begins here begins at a text. Widths of texts are about right: wide fonts have more.
fn begins(span: &Span, from: Point) -> bool {
    let ([left, top, right, bottom], more) = (span.grown(FROM).0, WIDER * (span.0[2] - span.0[0]));
    Span([left - more, top, right + more, bottom]).holds(&Span::of(from, from))
}
