//! What passes under a box has a gap there, wider than the box: a line at the boxes of other stations and at its own beyond its
//! rows, an open branch that runs straight from bar to bar at those of other stations.
use super::near::Near;
use super::scene::{Run, Scene, Station};
use super::shape::{between, distance, Point, Rect};

/// How far the gap goes past the box, in millimetres.
pub const GAP: f64 = 1.2;

/// Shorter parts aren't drawn.
const LEAST: f64 = 0.3;

/// A line that is inside a box for less, in millimetres, only touches it.
const TOUCHES: f64 = 0.3;

/// Sets what is shown of each run.
pub fn cut(scene: &mut Scene, boxes: &Near) {
    for i in 0..scene.runs.len() {
        let run = &scene.runs[i];
        scene.runs[i].shown = match (run.points.len(), run.stations[0] == run.stations[1]) {
            (_, true) => vec![run.points.clone()],
            (2, _) if run.is_open() => parts(&scene.stations, boxes, run),
            _ => led(&scene.stations, boxes, run),
        };
    }
}

/// The parts of a straight open run between the gaps; all of it inside its own stations' boxes.
fn parts(stations: &[Station], boxes: &Near, run: &Run) -> Vec<Vec<Point>> {
    let [p, q] = run.ends();
    let (mut own, mut gaps) = (Vec::new(), Vec::new());
    for i in boxes.along(p, q, GAP) {
        let station = &stations[i];
        if run.stations.contains(&station.number) {
            own.extend(station.rect.part(p, q));
        } else {
            gaps.extend(station.rect.grown(GAP).part(p, q));
        }
    }
    let within = |list: &[[f64; 2]], part: f64| list.iter().any(|[a, b]| *a <= part && part <= *b);
    let long = distance(p, q);
    let lengths = |list: Vec<[f64; 2]>| list.into_iter().map(|two| two.map(|part| part * long)).collect::<Vec<_>>();
    let (own, gaps) = (lengths(own), lengths(gaps));
    let stops = own.iter().chain(&gaps).flatten().copied().collect();
    pieces(&run.points, stops, &|at| within(&own, at) || !within(&gaps, at))
}

/// The parts of a line between the gaps: at boxes of other stations, and at its own boxes beyond its rows.
fn led(stations: &[Station], boxes: &Near, run: &Run) -> Vec<Vec<Point>> {
    let count = run.points.len();
    let mut near: Vec<usize> = run.points.windows(2).flat_map(|two| boxes.along(two[0], two[1], GAP)).collect();
    near.sort_unstable();
    near.dedup();
    let mut gaps = Vec::new();
    for station in near.into_iter().map(|i| &stations[i]) {
        let first = usize::from(run.stations[0] == station.number);
        let last = count - usize::from(run.stations[1] == station.number);
        gaps.extend(passed(&run.points, first..last, station));
    }
    // Rows are seen, whatever lies on them.
    let rows = [distance(run.points[0], run.points[1]), distance(run.points[count - 2], run.points[count - 1])];
    let last = run.length() - rows[1];
    gaps.iter_mut().for_each(|gap| *gap = [gap[0].max(rows[0]), gap[1].min(last)]);
    gaps.retain(|[a, b]| a < b);
    if gaps.is_empty() {
        return vec![run.points.clone()];
    }
    let stops = gaps.iter().flatten().copied().collect();
    pieces(&run.points, stops, &|at| !gaps.iter().any(|[a, b]| *a <= at && at <= *b))
}

/// Where a line of points, of which these are looked at, passes under a box: from and to, as lengths along it.
fn passed(points: &[Point], range: std::ops::Range<usize>, station: &Station) -> Vec<[f64; 2]> {
    let before: f64 = points[..=range.start].windows(2).map(|two| distance(two[0], two[1])).sum();
    let points = &points[range];
    let inner = within(points, &station.rect.grown(-0.05));
    let inner: Vec<[f64; 2]> = inner.into_iter().filter(|[a, b]| b - a > TOUCHES).collect();
    let wide = within(points, &station.rect.grown(GAP)).into_iter();
    let under = wide.filter(|[a, b]| inner.iter().any(|[c, d]| a <= c && d <= b));
    under.map(|two| two.map(|at| at + before)).collect()
}

/// The stretches of a line of points inside a rectangle, as lengths along it.
fn within(points: &[Point], rect: &Rect) -> Vec<[f64; 2]> {
    let (mut list, mut start): (Vec<[f64; 2]>, f64) = (Vec::new(), 0.0);
    for two in points.windows(2) {
        let long = distance(two[0], two[1]);
        if let Some([a, b]) = rect.part(two[0], two[1]) {
            match list.last_mut() {
                Some(last) if start + a * long <= last[1] + 1e-6 => last[1] = start + b * long,
                _ => list.push([start + a * long, start + b * long]),
            }
        }
        start += long;
    }
    list
}

/// The parts of a line of points that are shown, by lengths along it; stops are where that changes.
fn pieces(points: &[Point], mut stops: Vec<f64>, shown: &dyn Fn(f64) -> bool) -> Vec<Vec<Point>> {
    let total: f64 = points.windows(2).map(|two| distance(two[0], two[1])).sum();
    stops.extend([0.0, total]);
    stops.sort_by(f64::total_cmp);
    let mut list: Vec<[f64; 2]> = Vec::new();
    for two in stops.windows(2).filter(|two| two[0] < two[1] && shown((two[0] + two[1]) / 2.0)) {
        match list.last_mut() {
            Some(last) if last[1] == two[0] => last[1] = two[1],
            _ => list.push([two[0], two[1]]),
        }
    }
    let kept = list.into_iter().filter(|[a, b]| b - a > LEAST || *a == 0.0 || *b == total);
    kept.map(|[a, b]| stretch(points, a, b, total)).collect()
}

/// The points of a line from one length along it to another; its own ends stay as they are.
fn stretch(points: &[Point], from: f64, to: f64, total: f64) -> Vec<Point> {
    let (mut list, mut start) = (Vec::new(), 0.0);
    for two in points.windows(2) {
        let long = distance(two[0], two[1]);
        let end = start + long;
        if end > from + 1e-9 && start < to - 1e-9 && long > 0.0 {
            let at = |length: f64| between(two[0], two[1], (length - start) / long);
            if list.is_empty() {
                list.push(if from <= start { two[0] } else { at(from) });
            }
            list.push(if to >= end - 1e-9 || to >= total { two[1] } else { at(to) });
        }
        start = end;
    }
    list
}

#[cfg(test)]
mod tests {
    use super::*;
    use tansygate::{TX_ROLE_LINE, TX_ROLE_OPEN};

    fn station(number: usize, left: f64, right: f64) -> Station {
        Station { number, rect: Rect::new(left, 0.0, right, 10.0), block: 1.0, pad: 1.0, buses: Vec::new() }
    }

    #[test]
    fn a_gap_at_another_box() {
        let stations = vec![station(0, 0.0, 10.0), station(1, 20.0, 30.0), station(2, 50.0, 60.0)];
        let mut boxes = Near::new(&Rect::new(0.0, 0.0, 100.0, 100.0));
        stations.iter().enumerate().for_each(|(i, s)| boxes.insert(i, &s.rect));
        let points = vec![[5.0, 5.0], [55.0, 5.0]];
        let run =
            Run { branch: 0, role: TX_ROLE_OPEN, shown: Vec::new(), points, level: None, block: 1.0, stations: [0, 2] };
        let hundredths = |x: f64| (100.0 * x).round();
        let cut: Vec<f64> = parts(&stations, &boxes, &run).iter().flatten().map(|p| hundredths(p[0])).collect();
        assert_eq!(cut, [5.0, 20.0 - GAP, 30.0 + GAP, 55.0].map(hundredths));
    }

    fn line(points: Vec<Point>) -> Vec<Vec<Point>> {
        let stations = vec![station(0, 0.0, 10.0), station(1, 20.0, 30.0), station(2, 50.0, 60.0)];
        let mut boxes = Near::new(&Rect::new(0.0, 0.0, 100.0, 100.0));
        stations.iter().enumerate().for_each(|(i, s)| boxes.insert(i, &s.rect));
        let run =
            Run { branch: 0, role: TX_ROLE_LINE, shown: Vec::new(), points, level: None, block: 1.0, stations: [0, 2] };
        led(&stations, &boxes, &run)
    }

    /// A live line ends at its own box's edge where it turns back into it, and comes out where it leaves.
    #[test]
    fn a_gap_at_its_own_box() {
        let points = vec![[5.0, 5.0], [10.0, 5.0], [6.0, 15.0], [50.0, 15.0], [55.0, 15.0]];
        let shown = line(points.clone());
        assert_eq!((shown.len(), &shown[0]), (2, &points[..2].to_vec()));
        assert!((shown[1][0][1] - 10.0 - GAP).abs() < 1e-9, "{shown:?}");
        assert_eq!(shown[1][1..], points[2..]);
    }

    #[test]
    fn a_live_line_has_a_gap_at_another_box() {
        let shown = line(vec![[5.0, 5.0], [10.0, 5.0], [50.0, 5.0], [55.0, 5.0]]);
        let ends: Vec<f64> = shown.iter().flatten().map(|p| (100.0 * p[0]).round()).collect();
        assert_eq!(ends, [500.0, 1000.0, 1880.0, 3120.0, 5000.0, 5500.0]);
        assert_eq!(line(vec![[5.0, 5.0], [10.0, 5.0], [15.0, 30.0], [50.0, 5.0], [55.0, 5.0]]).len(), 1);
    }
}
