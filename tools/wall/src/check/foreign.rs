//! Strokes, fills and texts that belong to nothing on the sheet: whatever has ink is a part that the check knows, goes with
//! one, or stands beside the drawing.
use super::changes::Changes;
use super::leaders::Leaders;
use super::plane::{away, Point, Span};
use super::reading::Part;
use super::Check;
use std::collections::{HashMap, HashSet};

/// Elements that have ink of their own.
const SHAPES: [&str; 7] = ["path", "rect", "circle", "line", "polyline", "polygon", "text"];

/// The longest stroke of the small crosses where squares of the grid meet, and the largest sign, in millimetres.
const TICK: f64 = 6.0;
const SIGN: f64 = 2.0;

/// How far a band, a guide or a leader may lie from what it belongs to.
const BESIDE: f64 = 1.6;

/// The colour of lines that lead to labels, and that of lines that lead to marks of changes.
const LEADING: [&str; 2] = ["#6b675e", "#8f0068"];

/// What parts of the sheet have for their outlines.
struct Outlines<'a> {
    /// What boxes and runs take up.
    drawn: Option<Span>,
    /// The `d` of runs and bars, and of bands by their numbers.
    paths: HashSet<&'a str>,
    bands: HashMap<&'a str, &'a str>,
    /// Corners, ends and bends of boxes, bars and runs, in hundredths of a millimetre.
    points: HashSet<(i64, i64)>,
    /// Ends of open runs.
    ends: HashSet<(i64, i64)>,
    leaders: Leaders,
    changes: Changes,
}

fn key(p: Point) -> (i64, i64) {
    ((p[0] * 100.0).round() as i64, (p[1] * 100.0).round() as i64)
}

fn meet(a: &Span, b: &Span) -> bool {
    a.0[0] < b.0[2] && b.0[0] < a.0[2] && a.0[1] < b.0[3] && b.0[1] < a.0[3]
}

impl Check<'_> {
    /// Says what has ink and belongs to nothing.
    pub fn foreign(&mut self) {
        let outlines = self.outlines();
        let mut found = Vec::new();
        for (i, element) in self.reading.elements.iter().enumerate().filter(|(_, e)| SHAPES.contains(&e.name)) {
            if self.has_ink(i) && !self.belongs(i, &outlines) {
                let what =
                    if element.name == "text" { format!("text '{}'", element.text) } else { element.name.to_string() };
                found.push(format!("line {}: a {what} that belongs to nothing on the sheet", element.line));
            }
        }
        found.into_iter().for_each(|line| self.say(line));
    }

    fn has_ink(&self, i: usize) -> bool {
        let (look, element) = (&self.reading.looks[i], &self.reading.elements[i]);
        let fills = element.name != "path" || &*look.fill != "none";
        look.inked() || (fills && look.filled())
    }

    fn outlines(&self) -> Outlines<'_> {
        let reading = self.reading;
        let d = |i: usize| reading.elements[i].attribute("d").unwrap_or("");
        let parts = || reading.boxes.iter().chain(&reading.bars).chain(&reading.runs);
        let points: Vec<Point> =
            parts().filter_map(|part| part.stretches.as_ref()).flatten().flatten().copied().collect();
        let bands = reading.elements.iter().filter_map(|e| Some((e.attribute("data-stretch")?, e.attribute("d")?)));
        let open = reading.runs.iter().filter(|part| reading.looks[part.element].dashed);
        let ends = open.filter_map(|part| {
            let all = part.stretches.as_ref()?;
            Some([*all.first()?.first()?, *all.last()?.last()?])
        });
        Outlines {
            leaders: Leaders::new(reading),
            changes: Changes::new(self),
            drawn: Span::around(&points),
            paths: reading.bars.iter().chain(&reading.runs).map(|part| d(part.element)).collect(),
            bands: bands.collect(),
            ends: ends.flatten().map(key).collect(),
            points: points.into_iter().map(key).collect(),
        }
    }

    fn belongs(&self, i: usize, of: &Outlines<'_>) -> bool {
        let (look, element) = (&self.reading.looks[i], &self.reading.elements[i]);
        let has = |name: &str| element.attribute(name).is_some();
        let (text, points) = (element.name == "text", self.reading.points(i).unwrap_or_default());
        let Some(span) = Span::around(&points) else { return false };
        let beside = || of.drawn.as_ref().is_none_or(|drawn| !meet(&span, drawn));
        let around = || of.drawn.as_ref().is_none_or(|drawn| span.holds(drawn));
        let along = || of.paths.contains(element.attribute("d").unwrap_or(""));
        let pale = !text && !look.inked();
        match &*look.group {
            "" => element.name == "rect" && around(),
            "grid" => text && has("data-grid") || self.ticks(i, of),
            "stretches" => {
                has("data-stretch") && self.on_runs(element.attribute("data-branches").unwrap_or(""), &points)
            }
            "alternating" => {
                element.attribute("data-shared").and_then(|n| of.bands.get(n).copied()) == element.attribute("d")
            }
            "boxes" => has("data-station"),
            "fives" => has("data-five"),
            "doubts" | "doubt-rings" => element.name == "circle",
            "signs" => has("data-sign") && span.0[2] - span.0[0] < SIGN && span.0[3] - span.0[1] < SIGN,
            "guides" => span.0[2] - span.0[0] < 0.02 && self.in_a_box(&span),
            "lines" | "inside" | "open" => has("data-branch") || (!text && along()),
            "bars" => has("data-bus") || (!text && along()),
            "dots" => element.name == "circle",
            "rings" => {
                element.name == "circle" && self.reading.circle(i).is_some_and(|(at, _)| of.ends.contains(&key(at)))
            }
            "crosses" => has("data-cross") || pale,
            "placeless" => has("data-placeless"),
            "kinds" => has("data-kind"),
            "switches" => text && has("data-switch") || pale,
            "bus-names" => text && has("data-label"),
            "numbers" => {
                text && (has("data-number") || has("data-at-gap"))
                    || pale
                    || self.leads(i) && of.leaders.to_its_end(self.reading, i)
            }
            "station-names" => text && has("data-of") || has("data-leads") && self.leads(i),
            "marks" => text && has("data-mark") || self.leads(i) && of.leaders.to_its_band(self.reading, i),
            "changed" => !text && points.iter().all(|&p| of.points.contains(&key(p))),
            "changes" => of.changes.compared && (beside() || of.changes.has(self, i)),
            "title-block" | "index" => beside(),
            _ => false,
        }
    }

    /// Whether an element is a thin line in the colour of those that lead to texts.
    pub fn leads(&self, i: usize) -> bool {
        let (look, element) = (&self.reading.looks[i], &self.reading.elements[i]);
        element.name == "path" && LEADING.contains(&&*look.stroke) && look.wide * look.map.scale() < 0.3
    }

    /// Whether each stroke of a path is short or lies beside the drawing.
    fn ticks(&self, i: usize, of: &Outlines<'_>) -> bool {
        let Some(d) = self.reading.elements[i].attribute("d") else { return false };
        let beside = |span: &Span| of.drawn.as_ref().is_none_or(|drawn| !meet(span, drawn));
        let short = |two: &[Point]| {
            let map = &self.reading.looks[i].map;
            let (p, q) = (map.at(two[0]), map.at(two[1]));
            (q[0] - p[0]).hypot(q[1] - p[1]) <= TICK || beside(&Span::of(p, q))
        };
        super::plane::stretches(d).is_some_and(|list| list.iter().all(|one| one.windows(2).all(short)))
    }

    fn in_a_box(&self, span: &Span) -> bool {
        let boxes = self.reading.boxes.iter().filter_map(|part| Span::around(&part.stretches.as_ref()?.concat()));
        boxes.into_iter().any(|boxed| boxed.grown(0.02).holds(span))
    }

    /// Whether points lie on the runs of these branches.
    fn on_runs(&self, branches: &str, points: &[Point]) -> bool {
        let list: HashSet<usize> = branches.split(' ').filter_map(|branch| branch.parse().ok()).collect();
        // An open run's way under a box is part of its line: a band may begin or end there.
        let whole = |part: &Part| Some(part.stretches.as_ref()?.concat());
        let of = self.reading.runs.iter().filter(|part| part.number.is_some_and(|n| list.contains(&n)));
        let runs: Vec<Vec<Point>> = of.filter_map(whole).collect();
        let near = |p: Point| runs.iter().flat_map(|run| run.windows(2)).any(|two| away(p, two[0], two[1]) < BESIDE);
        list.len() > 1 && points.iter().all(|&p| near(p))
    }
}
