//! What on a finished sheet may be misread, measured on the shapes as they are drawn: a line that looks joined to a bar that
//! it isn't joined to, and what looks like another thing's name or number. Open branches are lines as live ones are.
mod bars;
mod bends;
mod edges;
mod gaps;
mod hidden;
mod kinds;
pub mod near;
pub mod shapes;
#[cfg(test)]
mod tests;
mod texts;
pub mod turns;

pub use kinds::Kind;
use shapes::{Point, Shapes};

/// A place that may be misread: where, and what stands there.
#[derive(Clone, Debug, PartialEq)]
pub struct Place {
    pub kind: Kind,
    pub at: Point,
    /// The branch whose line, cross or ring it is.
    pub branch: Option<usize>,
    /// The other branch that it may be taken for.
    pub other: Option<usize>,
    /// The bar that it may be taken to be joined to.
    pub bus: Option<usize>,
    /// The substation whose box, bar or name it is.
    pub station: Option<usize>,
}

impl Place {
    fn new(kind: Kind, at: Point) -> Self {
        Place { kind, at, branch: None, other: None, bus: None, station: None }
    }
}

/// What may be misread of lines, by gravity.
pub fn of_lines(shapes: &Shapes) -> Vec<Place> {
    let mut places = turns::hairpins(shapes);
    places.extend(bars::found(shapes));
    places.extend(edges::found(shapes));
    places.extend(bends::found(shapes));
    places.extend(gaps::found(shapes));
    sorted(places)
}

/// All that may be misread, by gravity.
pub fn found(shapes: &Shapes) -> Vec<Place> {
    let mut places = of_lines(shapes);
    places.extend(hidden::found(shapes));
    places.extend(texts::found(shapes));
    sorted(places)
}

fn sorted(mut places: Vec<Place>) -> Vec<Place> {
    let key = |p: &Place| (p.kind, p.branch, p.other, p.station, p.bus);
    places.sort_by(|a, b| key(a).cmp(&key(b)).then(a.at[0].total_cmp(&b.at[0])).then(a.at[1].total_cmp(&b.at[1])));
    places
}

/// How many places there are of each kind.
pub fn counts(places: &[Place]) -> [usize; Kind::ALL.len()] {
    Kind::ALL.map(|kind| places.iter().filter(|place| place.kind == kind).count())
}
