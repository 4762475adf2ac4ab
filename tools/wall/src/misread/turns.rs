//! Hairpins: a line that overshoots and runs back on itself reads as a tap.
use super::shapes::{Point, Shapes};
use super::{Kind, Place};

/// The cosine of the sharpest turn that is no hairpin: 45 degrees between the two legs.
const SHARPEST: f64 = std::f64::consts::FRAC_1_SQRT_2;

/// Points nearer than this, in millimetres, are one to a reader.
const ONE: f64 = 0.3;

/// One place for each hairpin of a line.
pub fn hairpins(shapes: &Shapes) -> Vec<Place> {
    let mut places = Vec::new();
    for run in &shapes.runs {
        for part in &run.parts {
            let turns = thinned(part);
            let spikes = turns.windows(3).filter(|three| is_hairpin([three[0], three[1], three[2]]));
            places
                .extend(spikes.map(|three| Place { branch: Some(run.branch), ..Place::new(Kind::Hairpin, three[1]) }));
        }
    }
    places
}

/// The points without those that are one with the point before; the ends stay.
fn thinned(points: &[Point]) -> Vec<Point> {
    let mut list: Vec<Point> = Vec::with_capacity(points.len());
    for (i, p) in points.iter().enumerate() {
        match list.last() {
            Some(last) if (p[0] - last[0]).hypot(p[1] - last[1]) < ONE => {
                if i + 1 == points.len() && list.len() > 1 {
                    list.pop();
                    list.push(*p);
                }
            }
            _ => list.push(*p),
        }
    }
    list
}

/// Whether a line turns back at the second of three points.
pub fn is_hairpin([a, b, c]: [Point; 3]) -> bool {
    let (u, v) = ([a[0] - b[0], a[1] - b[1]], [c[0] - b[0], c[1] - b[1]]);
    let long = u[0].hypot(u[1]) * v[0].hypot(v[1]);
    u[0] * v[0] + u[1] * v[1] > SHARPEST * long
}

#[cfg(test)]
mod tests {
    use super::*;

    #[test]
    fn turns_back_by_less_than_45_degrees() {
        assert!(is_hairpin([[0.0, 0.0], [10.0, 0.0], [0.0, 9.0]]));
        assert!(!is_hairpin([[0.0, 0.0], [10.0, 0.0], [0.0, 11.0]]));
        assert!(!is_hairpin([[0.0, 0.0], [10.0, 0.0], [20.0, 0.0]]));
    }

    #[test]
    fn a_short_step_at_the_spike_hides_nothing() {
        let points = thinned(&[[0.0, 0.0], [10.0, 0.0], [10.1, 0.1], [0.0, 2.0]]);
        assert_eq!(points.len(), 3);
        assert!(is_hairpin([points[0], points[1], points[2]]));
    }
}
