//! Marks of a comparison: each stands in its frame, from which a line leads to a part that has a broad line under it.
use super::plane::{away, Point, Span};
use super::Check;

/// How near to a broad line, and to the edge of a frame, a line between them ends.
const ENDS: f64 = 0.03;

/// What the groups of a comparison have.
pub struct Changes {
    /// Whether there is a group of changed parts.
    pub compared: bool,
    /// The frames of marks to which a line leads from a changed part, and these lines.
    frames: Vec<Span>,
    lines: Vec<usize>,
}

impl Changes {
    pub fn new(check: &Check<'_>) -> Self {
        let reading = check.reading;
        let compared = reading.elements.iter().any(|e| e.name == "g" && e.attribute("id") == Some("changed"));
        let mut changes = Changes { compared, frames: Vec::new(), lines: Vec::new() };
        if !compared {
            return changes;
        }
        let of = |group: &'static str, name: &'static str| {
            let all = 0..reading.elements.len();
            all.filter(move |&i| reading.elements[i].name == name && &*reading.looks[i].group == group)
        };
        let seen = of("changed", "path").filter(|&i| reading.looks[i].inked());
        let broad: Vec<Vec<Point>> = seen.filter_map(|i| reading.points(i)).collect();
        let on_changed =
            |p: Point| broad.iter().flat_map(|way| way.windows(2)).any(|piece| away(p, piece[0], piece[1]) < ENDS);
        let frames: Vec<Span> = of("changes", "rect").filter_map(|i| reading.covered(i)).collect();
        for i in of("changes", "path").filter(|&i| check.leads(i)) {
            let Some([from, to]) = reading.points(i).and_then(|points| <[Point; 2]>::try_from(points).ok()) else {
                continue;
            };
            let framed: Vec<&Span> = frames.iter().filter(|frame| frame.grown(ENDS).holds(&Span::of(to, to))).collect();
            if on_changed(from) && !framed.is_empty() {
                changes.lines.push(i);
                changes.frames.extend(framed);
            }
        }
        changes
    }

    /// Whether an element is such a line or frame, or a text in one.
    pub fn has(&self, check: &Check<'_>, i: usize) -> bool {
        let Some(span) = check.reading.covered(i) else { return false };
        let [left, top, _, bottom] = span.0;
        let start = [left, (top + bottom) / 2.0];
        match check.reading.elements[i].name {
            "path" => self.lines.contains(&i),
            "rect" => self.frames.contains(&span),
            "text" => self.frames.iter().any(|frame| frame.holds(&Span::of(start, start))),
            _ => false,
        }
    }
}
