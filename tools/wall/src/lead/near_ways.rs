//! Ways near a line's own: without one of its points, with one of them moved a little, and round the corners of a box that it
//! passes.
use super::cost::Known;
use super::Plan;
use crate::misread::shapes::{inside, Point};

/// How far points are moved, in millimetres.
const STEPS: [f64; 3] = [0.6, 1.1, 2.8];

/// How often a line is changed.
const TURNS: usize = 5;

/// Round a foreign box, in millimetres.
const CLEAR: f64 = 1.0;

/// A way is taken where it is better by so much.
const BETTER: f64 = 8.0;

impl Plan {
    /// Changes a line step by step as long as that makes it better.
    pub fn lead_near(&mut self, line: usize) {
        let mut known = Known::default();
        for _ in 0..TURNS {
            let grave = self.grave(line, &mut known);
            if grave.is_empty() {
                return;
            }
            let now = self.lines[line].points.clone();
            let cost = self.cost(line, &now, &mut known);
            let mut tries = changed(&now, &grave);
            tries.extend(self.round_boxes(line, &now));
            let costs = tries.into_iter().map(|way| (self.cost(line, &way, &mut known), way));
            match costs.min_by(|a, b| a.0.total_cmp(&b.0)) {
                Some((less, way)) if less < cost - BETTER => self.set(line, way),
                _ => return,
            }
        }
    }

    /// The way round one or two corners of each foreign box that it passes.
    fn round_boxes(&self, line: usize, points: &[Point]) -> Vec<Vec<Point>> {
        let mut list = Vec::new();
        for (i, two) in points.windows(2).enumerate().skip(1).take(points.len().saturating_sub(3)) {
            let ends = [two[0], two[1]];
            for station in self.boxes.along(ends, 0.0) {
                let own = self.lines[line].stations.contains(&station);
                let Some(place) = self.place(station).filter(|_| !own) else { continue };
                if inside(&place.span, ends).is_none() {
                    continue;
                }
                let corners = place.span.grown(CLEAR).corners();
                let with = |more: &[Point]| [&points[..=i], more, &points[i + 1..]].concat();
                for c in 0..4 {
                    let (here, next) = (corners[c], corners[(c + 1) % 4]);
                    list.extend([with(&[here]), with(&[here, next]), with(&[next, here])]);
                }
            }
        }
        list
    }
}

/// The way without one or two of its points, and with one moved. Rows stay; where they end outside the box may move.
fn changed(points: &[Point], grave: &[usize]) -> Vec<Vec<Point>> {
    let count = points.len();
    let mut list = Vec::new();
    let inner = grave.iter().copied().filter(|i| (2..count.saturating_sub(2)).contains(i));
    for i in inner {
        list.push([&points[..i], &points[i + 1..]].concat());
        if i + 1 < count - 2 {
            list.push([&points[..i], &points[i + 2..]].concat());
        }
    }
    for i in grave.iter().copied().filter(|i| (1..count - 1).contains(i)) {
        let level = i == 1 || i == count - 2;
        for step in STEPS {
            for (x, y) in
                [(1.0, 0.0), (-1.0, 0.0), (0.0, 1.0), (0.0, -1.0), (0.7, 0.7), (-0.7, 0.7), (0.7, -0.7), (-0.7, -0.7)]
            {
                let outwards =
                    if i == 1 { points[1][0] - points[0][0] } else { points[count - 2][0] - points[count - 1][0] };
                if level && (y != 0.0 || x * outwards < 0.0) || !level && step == STEPS[0] {
                    continue;
                }
                let mut way = points.to_vec();
                way[i] = [way[i][0] + step * x, way[i][1] + step * y];
                list.push(way);
            }
        }
    }
    list
}
