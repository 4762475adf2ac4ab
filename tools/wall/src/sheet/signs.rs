//! Signs at boxes that send the reader to the index: for the name of one that has none on the sheet, and for the rows of one
//! whose numbers are left out and that has too few rows for a band.
use super::scene::Scene;
use super::shape::{Point, Rect};
use super::taken::Taken;

/// The side of a sign, in millimetres.
const SIDE: f64 = 1.6;

#[derive(Clone, Copy, Debug, PartialEq, Eq)]
pub enum What {
    /// The box's name stands in the index, by its square.
    Name,
    /// Its rows stand there.
    Rows,
}

pub struct Sign {
    pub what: What,
    pub station: usize,
    /// A triangle for a name, a square for rows.
    pub points: Vec<Point>,
}

impl What {
    /// Its word in the file.
    pub fn word(self) -> &'static str {
        match self {
            What::Name => "name",
            What::Rows => "rows",
        }
    }

    /// The outline of the sign in a square; the triangle's right angle is at the box's corner.
    pub fn outline(self, r: &Rect, at_left: bool, above: bool) -> Vec<Point> {
        let corners = [[r.left, r.top], [r.right, r.top], [r.right, r.bottom], [r.left, r.bottom]];
        let far = match (at_left, above) {
            (true, true) => 1,
            (false, true) => 0,
            (true, false) => 2,
            (false, false) => 3,
        };
        let kept = corners.into_iter().enumerate().filter(|(i, _)| self == What::Rows || *i != far);
        kept.map(|(_, corner)| corner).collect()
    }
}

/// The signs of the boxes for which the functions ask, each at the corner of its box that is the most free.
pub fn placed(
    scene: &Scene,
    unnamed: &dyn Fn(usize) -> bool,
    uncounted: &dyn Fn(usize) -> bool,
    taken: &mut Taken,
) -> Vec<Sign> {
    let mut list = Vec::new();
    for (place, station) in scene.stations.iter().enumerate() {
        for (what, wanted) in [(What::Name, unnamed(place)), (What::Rows, uncounted(place))] {
            if wanted {
                let (rect, at_left, above) = best(&station.rect, what, taken);
                taken.add(rect);
                list.push(Sign { what, station: station.number, points: what.outline(&rect, at_left, above) });
            }
        }
    }
    list
}

/// The corner outside a box that is free, or else one inside: a name's sign above where it can be, that of rows below.
fn best(r: &Rect, what: What, taken: &Taken) -> (Rect, bool, bool) {
    let at = |at_left: bool, above: bool, outside: bool| {
        let side = SIDE.min(r.width());
        let left = if at_left { r.left } else { r.right - side };
        let top = match (above, outside) {
            (true, true) => r.top - side,
            (true, false) => r.top,
            (false, true) => r.bottom,
            (false, false) => r.bottom - side,
        };
        Rect::new(left, top, left + side, top + side)
    };
    let first = what == What::Name;
    let mut tries = [(true, first), (false, first), (true, !first), (false, !first)].into_iter();
    let free = tries.find(|&(at_left, above)| taken.free(&at(at_left, above, true).grown(-0.01)));
    match free {
        Some((at_left, above)) => (at(at_left, above, true), at_left, above),
        // The right angle stays at the box's corner.
        None => (at(true, first, false), true, !first),
    }
}
