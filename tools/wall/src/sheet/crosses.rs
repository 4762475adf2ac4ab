//! Where the red cross of an open branch stands: on its run, clear of other things where it can.
use super::near::Near;
use super::scene::Scene;
use super::shape::{distance, Point, Rect};
use super::together;
use crate::misread::shapes::away;

/// Parts of the way that are tried: the middle first, then ever farther from it.
fn parts() -> impl Iterator<Item = f64> {
    (0..35).map(|i| 0.5 + 0.02 * f64::from((i + 1) / 2) * if i % 2 == 0 { 1.0 } else { -1.0 })
}

pub struct Cross {
    pub run: usize,
    pub at: Point,
    pub arm: f64,
}

impl Cross {
    pub fn rect(&self) -> Rect {
        Rect::around(self.at, self.at).grown(self.arm)
    }
}

/// What a cross keeps clear of, by where it is.
struct Around<'a> {
    scene: &'a Scene,
    pieces: &'a Near,
    bars: &'a Near,
    boxes: &'a Near,
}

/// One for each open run.
pub fn placed(scene: &Scene, pieces: &Near, boxes: &Near, bars: &Near, page: &Rect) -> Vec<Cross> {
    let around = Around { scene, pieces, bars, boxes };
    let mut earlier = Near::new(page);
    let mut list: Vec<Cross> = Vec::new();
    for (i, run) in scene.runs.iter().enumerate().filter(|(_, run)| run.is_open()) {
        let arm = (0.45 * run.block).clamp(0.8, 2.2).min(0.4 * run.length().max(1.0));
        let tries = parts().map(|part| Cross { run: i, at: together::at(&run.points, part).0, arm });
        let clash = |cross: &Cross| {
            earlier
                .near(&cross.rect().grown(2.0 * arm))
                .into_iter()
                .filter(|&j| distance(list[j].at, cross.at) < 3.0 * arm)
                .count()
        };
        if let Some(best) = tries.min_by_key(|cross| 20 * clash(cross) + around.trouble(cross)) {
            earlier.insert(list.len(), &best.rect());
            list.push(best);
        }
    }
    list
}

impl Around<'_> {
    /// How much stands in the way of a cross.
    fn trouble(&self, cross: &Cross) -> usize {
        let rect = cross.rect().grown(0.3 * cross.arm);
        let bar = |&i: &usize| {
            rect.meets(
                [self.scene.bars[i].x, self.scene.bars[i].top],
                [self.scene.bars[i].x, self.scene.bars[i].bottom],
            )
        };
        let bars = self.bars.near(&rect).iter().filter(|i| bar(i)).count();
        let points = &self.scene.runs[cross.run].points;
        let whole = |s: &Rect| points.iter().all(|&p| s.grown(0.01).has(p));
        let on = |&i: &usize| self.scene.stations[i].rect.overlaps(&rect) && !whole(&self.scene.stations[i].rect);
        let boxes = self.boxes.near(&rect).iter().filter(|i| on(i)).count();
        let through = |rect: &Rect| self.scene.through(self.pieces, rect, Some(cross.run));
        // On the stroke of another branch it would be read as that one's.
        let struck = through(&cross.rect()) + 3 * through(&cross.rect().grown(-0.5 * cross.arm));
        let hidden = !self.scene.runs[cross.run].seen().any(|[p, q]| away(cross.at, p, q) < 1e-6);
        let turns = points.iter().filter(|&&p| rect.has(p)).count();
        1000 * usize::from(hidden) + 10 * bars + 6 * boxes + 3 * turns + 2 * through(&rect) + struck
    }
}

#[cfg(test)]
mod tests {
    use super::*;
    use crate::sheet::scene::Run;

    fn run(branch: usize, role: u8, ends: [Point; 2]) -> Run {
        let points = ends.to_vec();
        Run { branch, role, shown: vec![points.clone()], points, level: None, block: 1.0, stations: [0, 1] }
    }

    /// Another branch beside it all the way: the cross stands where that one is farthest.
    #[test]
    fn off_another_stroke() {
        let (open, live) = ([[0.0, 50.0], [100.0, 50.0]], [[0.0, 48.5], [100.0, 51.5]]);
        let scene = Scene { stations: Vec::new(), bars: Vec::new(), runs: vec![run(0, 2, open), run(1, 0, live)] };
        let page = Rect::new(0.0, 0.0, 100.0, 100.0);
        let (pieces, boxes, bars) = (scene.pieces(&page), scene.boxes(&page), scene.bars_near(&page));
        let all = placed(&scene, &pieces, &boxes, &bars, &page);
        assert_eq!(all.len(), 1);
        assert!((all[0].at[0] - 50.0).abs() * 0.03 > all[0].arm, "{:?}", all[0].at);
    }
}
