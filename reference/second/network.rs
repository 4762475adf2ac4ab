//! What a call gets, what its branches are, and the refusals that layout and audit share.
use super::plane::larger_side;
use super::{maximum, Frame, Point};

pub struct Network<'a> {
    pub sub: &'a [u32],
    /// Bit patterns.
    pub kv: &'a [u64],
    pub from: &'a [i64],
    pub to: &'a [i64],
    pub live: &'a [u8],
    pub xy: &'a [f64],
}

pub struct Mesh<'a> {
    pub corners: &'a [u32],
    pub twins: &'a [u32],
}

#[derive(Clone)]
pub struct Options {
    pub fill: f64,
    pub tier_radius: f64,
    pub tier_counts: [u32; 2],
    pub tier_scales: [f64; 2],
    pub search: i64,
    pub iterations: i64,
    pub gap: f64,
    pub padding: f64,
    pub shortest: f64,
    pub buffer: f64,
}

/// What a branch is; its two buses.
#[derive(Clone, Copy, PartialEq)]
pub enum Kind {
    Undrawn,
    Open(usize, usize),
    Internal(usize, usize),
    Line(usize, usize),
}

impl Options {
    /// Not refusal 5.
    pub fn fit(&self) -> bool {
        let from_to = |x: f64, low: f64, high: f64| x >= low && x <= high;
        self.fill > 0.0
            && self.fill <= 16.0
            && from_to(self.tier_radius, 0.0, 1000.0)
            && self.tier_scales.iter().all(|&s| from_to(s, 0.015625, 1.0))
            && self.search >= 0
            && self.search <= 20
            && self.iterations >= 0
            && self.iterations <= 100
            && [self.gap, self.padding, self.shortest, self.buffer].iter().all(|&g| from_to(g, 0.5, 8.0))
    }
}

impl Network<'_> {
    pub fn buses(&self) -> usize {
        self.sub.len()
    }

    pub fn branches(&self) -> usize {
        self.from.len()
    }

    /// Highest station number + 1, 0 without buses.
    pub fn stations(&self) -> usize {
        let mut k = 0;
        for &s in self.sub {
            if s as usize >= k {
                k = s as usize + 1;
            }
        }
        k
    }

    pub fn station(&self, bus: usize) -> usize {
        self.sub[bus] as usize
    }

    /// Each station's buses, in bus order.
    pub fn members(&self) -> Vec<Vec<usize>> {
        let mut of = vec![Vec::new(); self.stations()];
        for bus in 0..self.buses() {
            of[self.station(bus)].push(bus);
        }
        of
    }

    /// Stations whose number a bus carries, in their order.
    pub fn occupied(&self) -> Vec<usize> {
        let members = self.members();
        (0..members.len()).filter(|&s| !members[s].is_empty()).collect()
    }

    /// Both coordinates, where they are there and finite.
    fn given(&self, bus: usize) -> Option<Point> {
        let x = *self.xy.get(2 * bus)?;
        let y = *self.xy.get(2 * bus + 1)?;
        (x.is_finite() && y.is_finite()).then_some((x, y))
    }

    /// The mean of each station's bus points; (0, 0) for an unoccupied one.
    pub fn seeds(&self) -> Vec<Point> {
        let mean = |buses: &Vec<usize>| {
            let (mut x, mut y) = (0.0, 0.0);
            for &bus in buses {
                let p = self.given(bus).unwrap_or((0.0, 0.0));
                x += p.0;
                y += p.1;
            }
            let count = buses.len() as f64;
            if buses.is_empty() { (0.0, 0.0) } else { (x / count, y / count) }
        };
        self.members().iter().map(mean).collect()
    }

    fn known(&self, bus: i64) -> Option<usize> {
        (bus >= 0 && bus < self.buses() as i64).then_some(bus as usize)
    }

    /// Both ends, where both are known.
    pub fn ends(&self, branch: usize) -> Option<(usize, usize)> {
        Some((self.known(self.from[branch])?, self.known(self.to[branch])?))
    }

    pub fn kind(&self, branch: usize) -> Kind {
        let Some((a, b)) = self.ends(branch) else { return Kind::Undrawn };
        let open = branch < self.live.len() && self.live[branch] == 0;
        if a == b {
            Kind::Undrawn
        } else if open {
            Kind::Open(a, b)
        } else if self.sub[a] == self.sub[b] {
            Kind::Internal(a, b)
        } else {
            Kind::Line(a, b)
        }
    }

    /// Refusals 1 to 4, then 15.
    pub fn shape(&self) -> Option<u32> {
        let n = self.buses();
        if n > 4096 || self.branches() > 8192 {
            return Some(1);
        }
        if self.kv.len() != n {
            return Some(2);
        }
        if self.to.len() != self.branches() {
            return Some(3);
        }
        if self.sub.iter().any(|&s| s as usize >= n) {
            return Some(4);
        }
        // Finite and above zero: patterns from 1 to that of the largest number.
        if self.kv.iter().any(|&bits| bits < 1 || bits > 0x7FEF_FFFF_FFFF_FFFF) {
            return Some(15);
        }
        None
    }

    /// Refusal 6.
    pub fn far(&self) -> bool {
        let above = |x: f64| x > 1e12 || x < -1e12;
        (0..self.buses()).filter_map(|bus| self.given(bus)).any(|(x, y)| above(x) || above(y))
    }
}

/// Refusal 8, over occupied stations' boxes and, in the audit, all piece ends.
pub fn ill_sized(boxes: &[Frame], occupied: &[usize], further: &[f64]) -> bool {
    if occupied.is_empty() {
        return false;
    }
    let mut largest = 0.0;
    for &s in occupied {
        largest = maximum(largest, larger_side(&boxes[s]));
    }
    let modest = |x: &f64| (x / largest).abs() <= 1099511627776.0;
    largest == 0.0 || !occupied.iter().all(|&s| boxes[s].iter().all(modest)) || !further.iter().all(modest)
}
