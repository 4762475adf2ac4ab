//! Signs on branches whose kind the export says, as IEC 60617 has them: two circles for a transformer, the square of a unit for
//! a coupler. A line is the plain conductor.
use super::body::{line_width, Body};
use super::near::Near;
use super::numbers::Around;
use super::scene::Run;
use super::shape::{distance, Point, Rect};
use super::svg::{mm, Svg};
use super::taken::Taken;
use crate::network::Kind;
use crate::plain::visible;

/// Radii of a transformer's circles, and half the side of a coupler's square: a part of a block, at least and at most so many
/// millimetres.
const PART: f64 = 0.3;
const LEAST: f64 = 1.0;
const MOST: f64 = 2.0;

/// From the middle of a transformer's sign to that of each circle, in radii.
const APART: f64 = 0.6;

/// The most that the stroke of a sign has of its radius.
const THICK: f64 = 0.3;

/// Stroke that is seen on both sides of a sign, and paper round it, in millimetres.
const SEEN: f64 = 0.8;
const ROUND: f64 = 0.2;

/// Where along a straight piece a sign may stand.
const PARTS: [f64; 9] = [0.5, 0.42, 0.58, 0.34, 0.66, 0.26, 0.74, 0.18, 0.82];

pub struct KindSign {
    pub run: usize,
    pub kind: Kind,
    pub at: Point,
    /// The direction from the first end to the second, of length 1.
    way: Point,
    pub radius: f64,
}

impl KindSign {
    /// How far it reaches along its run.
    fn reach(&self) -> f64 {
        self.radius * if self.kind == Kind::Transformer { 1.0 + APART } else { 1.0 }
    }

    fn rect(&self) -> Rect {
        let ([x, y], [u, v], r) = (self.at, self.way, self.radius);
        let along = self.reach() - r;
        Rect::around([x - along * u, y - along * v], [x + along * u, y + along * v]).grown(r)
    }
}

/// The signs that have room, and how many have none.
pub fn placed(around: &Around<'_>, taken: &mut Taken) -> (Vec<KindSign>, usize) {
    let (mut list, mut left_out) = (Vec::new(), 0);
    for (i, run) in around.scene.runs.iter().enumerate() {
        let kind = around.network.branches[run.branch].more.kind.filter(|kind| *kind != Kind::Line);
        let Some(kind) = kind else { continue };
        match best(around, i, run, kind, taken) {
            Some(sign) => {
                taken.add(sign.rect().grown(ROUND));
                list.push(sign);
            }
            None => left_out += 1,
        }
    }
    (list, left_out)
}

/// On the longest straight piece that has room, in the larger of two sizes that has it.
fn best(around: &Around<'_>, i: usize, run: &Run, kind: Kind, taken: &Taken) -> Option<KindSign> {
    let large = (PART * run.block).clamp(LEAST, MOST);
    let mut pieces: Vec<[Point; 2]> = run.seen().collect();
    pieces.sort_by(|a, b| distance(b[0], b[1]).total_cmp(&distance(a[0], a[1])));
    let sizes = if large > LEAST { vec![large, LEAST] } else { vec![LEAST] };
    sizes.into_iter().find_map(|radius| {
        pieces.iter().find_map(|&[p, q]| {
            let long = distance(p, q);
            let way = [(q[0] - p[0]) / long, (q[1] - p[1]) / long];
            let sign = |part: f64| {
                let at = [p[0] + part * (q[0] - p[0]), p[1] + part * (q[1] - p[1])];
                KindSign { run: i, kind, at, way, radius }
            };
            let mut signs = PARTS.into_iter().map(|part| (part.min(1.0 - part) * long, sign(part)));
            let fits = |(room, sign): &(f64, KindSign)| {
                *room >= sign.reach() + SEEN && free(around, i, run, &sign.rect().grown(ROUND), taken)
            };
            signs.find(fits).map(|(_, sign)| sign)
        })
    })
}

/// Whether a sign has room for itself: on no other run, bar, edge of a box or foreign box.
fn free(around: &Around<'_>, i: usize, run: &Run, rect: &Rect, taken: &Taken) -> bool {
    let own = |place: usize| run.stations.contains(&around.scene.stations[place].number);
    let boxes = around.boxes.near(rect).into_iter();
    let mut met = boxes.filter(|&place| around.scene.stations[place].rect.overlaps(rect));
    let inside = |place: usize| own(place) && around.scene.stations[place].rect.holds(rect);
    taken.free(rect)
        && around.scene.through(around.pieces, rect, Some(i)) == 0
        && met.all(inside)
        && !meets_bar(around, around.bars, rect)
}

/// Whether a rectangle meets a bar.
pub fn meets_bar(around: &Around<'_>, bars: &Near, rect: &Rect) -> bool {
    let hit = |&i: &usize| {
        let bar = &around.scene.bars[i];
        let half = 0.5 * super::body::bar_width(around.scene.station(bar.station).block);
        Rect::new(bar.x - half, bar.top, bar.x + half, bar.bottom).overlaps(rect)
    };
    bars.near(rect).iter().any(hit)
}

impl Body<'_> {
    pub fn kinds(&self, svg: &mut Svg) {
        if self.placed.kinds.is_empty() {
            return;
        }
        svg.open("g", &[("id", "kinds".to_string()), ("fill", "#ffffff".to_string())]);
        for sign in &self.placed.kinds {
            let run = &self.placed.scene.runs[sign.run];
            let row = &self.network.branches[run.branch];
            let wide = mm(line_width(run, self.palette.paint(run.level)).max(0.25).min(THICK * sign.radius));
            let title = format!("{} {}", sign.kind.word(), visible(&row.name));
            let key = ("data-kind", run.branch.to_string());
            let ([x, y], r) = (sign.at, sign.radius);
            if sign.kind == Kind::Coupler {
                let place = [("x", mm(x - r)), ("y", mm(y - r)), ("width", mm(2.0 * r)), ("height", mm(2.0 * r))];
                let stroke = [("stroke", self.palette.paint(run.level).hex()), ("stroke-width", wide)];
                svg.titled("rect", &[&[key], &place[..], &stroke[..]].concat(), &title);
                continue;
            }
            for (fill, side) in [("#ffffff", -1.0), ("#ffffff", 1.0), ("none", -1.0)] {
                let bus = self.network.known(if side < 0.0 { row.from } else { row.to });
                let colour =
                    bus.map_or("#111111".to_string(), |bus| self.palette.colour(self.placed.scene.bars[bus].level));
                let middle = [x + side * APART * r * sign.way[0], y + side * APART * r * sign.way[1]];
                let place = [("cx", mm(middle[0])), ("cy", mm(middle[1])), ("r", mm(r)), ("fill", fill.to_string())];
                let stroke = [("stroke", colour), ("stroke-width", wide.clone())];
                svg.titled("circle", &[&[key.clone()], &place[..], &stroke[..]].concat(), &title);
            }
        }
        svg.close();
    }
}
