//! Labels of stretches where circuits run as one stroke: how many they are, and their numbers.
use super::lettering::{height, width, Anchor, Line, SMALLEST};
use super::near::Near;
use super::scene::Scene;
use super::shape::Point;
use super::taken::Taken;
use super::together::{at, Stretch};
use crate::network::Network;

/// Half the width of the band under a stretch.
pub const BAND: f64 = 1.1;

/// A label, and from it to its stretch; empty where no place is free.
#[derive(Default)]
pub struct Mark {
    pub lines: Vec<Line>,
    pub guide: Option<[Point; 2]>,
}

/// Places along a stretch, the middle first.
const PARTS: [f64; 9] = [0.5, 0.38, 0.62, 0.26, 0.74, 0.15, 0.85, 0.06, 0.94];

/// How far from its stretch a label may stand, in millimetres; a line leads to it.
const FARTHER: [f64; 5] = [0.0, 4.0, 8.0, 13.0, 20.0];

/// A label names at most so many; the index has all.
const MOST: usize = 4;

/// The numbers of the circuits of a stretch.
pub fn numbers(network: &Network, scene: &Scene, stretch: &Stretch) -> Vec<String> {
    stretch.runs.iter().map(|&run| network.branches[scene.runs[run].branch].number.clone()).collect()
}

/// What labels keep clear of.
pub struct Around<'a> {
    pub scene: &'a Scene,
    pub pieces: &'a Near,
    pub boxes: &'a Near,
}

/// A label for each stretch.
pub fn placed(network: &Network, around: &Around<'_>, stretches: &[Stretch], taken: &mut Taken) -> Vec<Mark> {
    let mut list = Vec::new();
    for stretch in stretches {
        let mark = around.best(&words(&numbers(network, around.scene, stretch)), stretch, taken).unwrap_or_default();
        mark.lines.iter().for_each(|line| taken.add(line.rect()));
        list.push(mark);
    }
    list
}

/// The label on two lines, and on one.
fn words(numbers: &[String]) -> [Vec<String>; 2] {
    let count = format!("{} circuits", numbers.len());
    let mut named = numbers[..numbers.len().min(MOST)].join(", ");
    if numbers.len() > MOST {
        named.push_str(", …");
    }
    [vec![count.clone(), named.clone()], vec![format!("{count} {named}")]]
}

impl Around<'_> {
    /// The best place beside the stretch, or else the nearest to it that is free.
    fn best(&self, words: &[Vec<String>; 2], stretch: &Stretch, taken: &Taken) -> Option<Mark> {
        FARTHER.into_iter().find_map(|far| self.best_at(far, words, stretch, taken))
    }

    fn best_at(&self, far: f64, words: &[Vec<String>; 2], stretch: &Stretch, taken: &Taken) -> Option<Mark> {
        let mut found: Option<(usize, Mark)> = None;
        for (i, part) in PARTS.into_iter().enumerate() {
            let (there, way) = at(&stretch.points, part);
            for (j, texts) in words.iter().enumerate() {
                for (k, side) in [1.0, -1.0].into_iter().enumerate() {
                    let lines = beside(texts, there, [side * way[1], -side * way[0]], far);
                    let guide = guide(&lines, there);
                    let free = lines.iter().all(|line| taken.free(&line.rect()));
                    if !free || far > 0.0 && guide.is_some_and(|ends| self.in_box(ends)) {
                        continue;
                    }
                    let through = |line: &Line| self.scene.through(self.pieces, &line.rect(), None);
                    let bends = |line: &Line| self.scene.bends(self.pieces, &line.rect());
                    let covered: usize = lines.iter().map(|line| 6 * through(line) + 6 * bends(line)).sum();
                    let cost = i + j + k + covered;
                    if found.as_ref().is_none_or(|(least, _)| cost < *least) {
                        found = Some((cost, Mark { lines, guide }));
                    }
                }
            }
        }
        found.map(|(_, mark)| mark)
    }

    /// Whether a line goes through a box, where it could be taken for a branch.
    fn in_box(&self, [p, q]: [Point; 2]) -> bool {
        self.boxes.along(p, q, 0.0).into_iter().any(|i| self.scene.stations[i].rect.meets(p, q))
    }
}

/// From the nearest point of a label's edge to a point.
fn guide(lines: &[Line], there: Point) -> Option<[Point; 2]> {
    let rect = lines.iter().map(Line::rect).reduce(|a, b| a.with([b.left, b.top]).with([b.right, b.bottom]))?;
    let near = [there[0].clamp(rect.left, rect.right), there[1].clamp(rect.top, rect.bottom)];
    Some([near, there])
}

/// The lines so far beside a point, on the side that a unit vector shows.
fn beside(texts: &[String], there: Point, to: Point, far: f64) -> Vec<Line> {
    let size = SMALLEST;
    let wide = texts.iter().map(|text| width(text, size, false)).fold(0.0, f64::max);
    let tall = height(size) * texts.len() as f64;
    let off = BAND + 0.2 + far + (to[0].abs() * wide + to[1].abs() * tall) / 2.0;
    let (x, top) = (there[0] + off * to[0], there[1] + off * to[1] - tall / 2.0);
    let line = |(i, text): (usize, &String)| Line {
        text: text.clone(),
        x: x - width(text, size, false) / 2.0,
        y: super::lettering::baseline(top + i as f64 * height(size), size),
        size,
        bold: false,
        anchor: Anchor::Middle,
    };
    texts.iter().enumerate().map(line).collect()
}
