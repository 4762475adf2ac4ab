//! Rows between two rows of a box, which open branches take: each from its bar to the edge or to another bar.
use super::Plan;
use crate::misread::shapes::Point;

/// Rows nearer than this, in blocks, are one; and so far beside a row a ring reaches.
const ONE: f64 = 0.4;
const RING: f64 = 0.35;

/// How far apart two upright stretches are, in blocks.
const ASIDE: f64 = 0.3;

/// A row that an open branch takes, or a stretch of it between two rows.
#[derive(Clone, Copy, Debug)]
pub struct Slot {
    pub branch: usize,
    pub from: Point,
    pub to: Point,
}

impl Slot {
    pub fn new(branch: usize, p: Point, q: Point) -> Self {
        let low = |axis: usize| (p[axis].min(q[axis]), p[axis].max(q[axis]));
        let ((left, right), (top, bottom)) = (low(0), low(1));
        Slot { branch, from: [left, top], to: [right, bottom] }
    }

    fn is_upright(&self) -> bool {
        self.to[1] - self.from[1] > self.to[0] - self.from[0]
    }

    /// How much two are in each other's way, where a block is so large: less where only their rings are one.
    fn clash(&self, other: &Slot, block: f64) -> usize {
        if self.is_upright() != other.is_upright() {
            return 0;
        }
        let (across, along) = if self.is_upright() { (0, 1) } else { (1, 0) };
        let near = if self.is_upright() { ASIDE } else { ONE };
        if (self.from[across] - other.from[across]).abs() >= near * block {
            return 0;
        }
        let shared = self.to[along].min(other.to[along]) - self.from[along].max(other.from[along]);
        match shared / block {
            long if long > RING => 3,
            long if long > -RING => 1,
            _ => 0,
        }
    }
}

impl Plan {
    /// How much a row would be in the way of those of other branches.
    pub fn clashes(&self, station: usize, slot: &Slot) -> usize {
        let Some(place) = self.place(station) else { return 0 };
        let taken = self.slots[station].iter().filter(|other| other.branch != slot.branch);
        taken.map(|other| slot.clash(other, place.block)).sum()
    }

    /// Heights on a bar between two rows, the nearest to its middle first; its middle where there is none.
    pub fn heights(&self, station: usize, bus: usize) -> Vec<f64> {
        let bar = &self.bars[bus];
        let middle = (bar.top + bar.bottom) / 2.0;
        let Some(place) = self.place(station) else { return vec![middle] };
        let base = place.span.0[1] + place.pad;
        let (first, last) = ((bar.top - base) / place.block - 0.02, (bar.bottom - base) / place.block + 0.02);
        let steps = first.ceil() as i64..=last.floor() as i64;
        let mut list: Vec<f64> = steps.map(|k| (base + k as f64 * place.block).clamp(bar.top, bar.bottom)).collect();
        let off = |y: &f64| ((y - middle).abs() * 100.0).round();
        list.sort_by(|a, b| off(a).total_cmp(&off(b)).then(a.total_cmp(b)));
        if list.is_empty() {
            list.push(middle);
        }
        list
    }
}
