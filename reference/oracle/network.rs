//! What a call gets: network, options, mesh, lengths of the lent lists; and the refusals that layout and audit share.
use crate::gaps::{self, Gaps};
use crate::tx_schematic::{TxLayoutInput, TxLayoutOptions, TxSeeding};

#[derive(Clone, Default)]
pub struct Network {
    pub sub: Vec<u32>,
    pub kv: Vec<u64>,
    pub from: Vec<i64>,
    pub to: Vec<i64>,
    pub live: Vec<u8>,
    pub xy: Vec<f64>,
}

#[derive(Clone)]
pub struct Options {
    pub fill: f64,
    pub radius: f64,
    pub counts: [u32; 2],
    pub scales: [f64; 2],
    pub search: i64,
    pub iterations: i64,
    pub gaps: Gaps,
}

#[derive(Clone, Default)]
pub struct Mesh {
    pub corners: Vec<u32>,
    pub twins: Vec<u32>,
}

/// Bus and branch limits, and the greatest size of a coordinate.
pub const BUSES: usize = 4096;
pub const BRANCHES: usize = 8192;
const FAR: f64 = 1e12;

impl Options {
    pub fn defaults() -> Self {
        let d = TxLayoutOptions::default();
        Self {
            fill: d.fill,
            radius: d.tier_radius,
            counts: d.tier_counts.map(|c| c as u32),
            scales: d.tier_scales,
            search: i64::from(d.search),
            iterations: d.route_iterations as i64,
            gaps: gaps::OLD,
        }
    }

    pub fn in_range(&self) -> bool {
        let scale = |s: f64| (1.0 / 64.0..=1.0).contains(&s);
        self.fill > 0.0
            && self.fill <= 16.0
            && (0.0..=1000.0).contains(&self.radius)
            && self.scales.into_iter().all(scale)
            && (0..=20).contains(&self.search)
            && (0..=100).contains(&self.iterations)
            && self.gaps.in_range()
    }

    pub fn original(&self) -> TxLayoutOptions {
        TxLayoutOptions {
            seeding: TxSeeding::Given,
            fill: self.fill,
            tier_radius: self.radius,
            tier_counts: self.counts.map(|c| c as usize),
            tier_scales: self.scales,
            search: self.search as i32,
            route_iterations: self.iterations as usize,
        }
    }
}

impl Network {
    pub fn stations(&self) -> usize {
        self.sub.iter().map(|&s| s as usize + 1).max().unwrap_or(0)
    }

    pub fn occupied(&self) -> Vec<usize> {
        let mut all: Vec<usize> = self.sub.iter().map(|&s| s as usize).collect();
        all.sort();
        all.dedup();
        all
    }

    /// A bus's point, if it has two finite coordinates.
    pub fn point(&self, bus: usize) -> Option<(f64, f64)> {
        match (self.xy.get(2 * bus), self.xy.get(2 * bus + 1)) {
            (Some(&x), Some(&y)) if x.is_finite() && y.is_finite() => Some((x, y)),
            _ => None,
        }
    }

    /// Whether some bus lacks two finite coordinates.
    pub fn unsurveyed(&self) -> bool {
        (0..self.sub.len()).any(|bus| self.point(bus).is_none())
    }

    pub fn original(&self) -> TxLayoutInput {
        TxLayoutInput {
            bus_substation: self.sub.clone(),
            kv: self.kv.iter().map(|&b| f64::from_bits(b)).collect(),
            from: self.from.clone(),
            to: self.to.clone(),
            in_service: self.live.clone(),
            xy: self.xy.clone(),
        }
    }

    /// Refusals 1 to 4, then 15.
    pub fn shape(&self) -> Result<(), u32> {
        let n = self.sub.len();
        refuse(1, n > BUSES || self.from.len() > BRANCHES)?;
        refuse(2, self.kv.len() != n)?;
        refuse(3, self.to.len() != self.from.len())?;
        refuse(4, self.sub.iter().any(|&s| s as usize >= n))?;
        let voltage = |&b: &u64| f64::from_bits(b).is_finite() && f64::from_bits(b) > 0.0;
        refuse(15, !self.kv.iter().all(voltage))
    }

    /// Refusal 6.
    pub fn near(&self) -> Result<(), u32> {
        let far = |(x, y): (f64, f64)| x.abs() > FAR || y.abs() > FAR;
        refuse(6, (0..self.sub.len()).any(|i| self.point(i).is_some_and(far)))
    }

    /// Refusal 8: over the boxes of occupied stations and the further numbers given.
    pub fn sized(&self, boxes: &[f64], further: &[f64]) -> Result<(), u32> {
        let occupied = self.occupied();
        let corners: Vec<&[f64]> = occupied.iter().map(|&s| &boxes[4 * s..4 * s + 4]).collect();
        let mut largest: f64 = 0.0;
        for b in &corners {
            for side in [b[2] - b[0], b[3] - b[1]] {
                if side > largest {
                    largest = side;
                }
            }
        }
        let modest = |x: &f64| (x / largest).abs() <= 1_099_511_627_776.0;
        let all = corners.iter().all(|b| b.iter().all(modest)) && further.iter().all(modest);
        refuse(8, !occupied.is_empty() && (largest == 0.0 || !all))
    }
}

/// Refusal `number` where its condition holds.
pub fn refuse(number: u32, condition: bool) -> Result<(), u32> {
    if condition {
        Err(number)
    } else {
        Ok(())
    }
}
