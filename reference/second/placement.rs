//! Spacing, the unit, scales, and the search for free places.
use super::network::{Network, Options};
use super::plane::overlap;
use super::{hypot, maximum, median, nearest, Frame, Point};

pub struct Placed {
    pub unit: f64,
    /// For each station; 1, (0, 0) and zeros for an unoccupied one.
    pub scales: Vec<f64>,
    pub places: Vec<Point>,
    pub boxes: Vec<Frame>,
}

/// fill × spacing / typical, and the spacing
fn unit(options: &Options, seeds: &[Point], sizes: &[(f64, f64)]) -> (f64, f64) {
    let spacing = median(&nearest(seeds)).unwrap_or(1.0);
    let larger: Vec<f64> = sizes.iter().map(|&(w, h)| maximum(w, h)).collect();
    let typical = median(&larger).map_or(1.0, |t| maximum(t, 1.0));
    (options.fill * spacing / typical, spacing)
}

/// The scale of the i-th seed: the second tier is tested before the first.
fn scale(options: &Options, seeds: &[Point], i: usize, spacing: f64) -> f64 {
    let reach = options.tier_radius * spacing;
    let near = |j: usize| reach != 0.0 && j != i && hypot(seeds[j].0 - seeds[i].0, seeds[j].1 - seeds[i].1) <= reach;
    let count = (0..seeds.len()).filter(|&j| near(j)).count() as u64;
    if count >= u64::from(options.tier_counts[1]) {
        options.tier_scales[1]
    } else if count >= u64::from(options.tier_counts[0]) {
        options.tier_scales[0]
    } else {
        1.0
    }
}

/// Both from -search to search, by a² + b², a, b.
fn offsets(search: i64) -> Vec<(i64, i64)> {
    let mut list = Vec::new();
    for square in 0..=2 * search * search {
        for a in -search..=search {
            for b in -search..=search {
                if a * a + b * b == square {
                    list.push((a, b));
                }
            }
        }
    }
    list
}

fn centred(p: Point, half: (f64, f64)) -> Frame {
    [p.0 - half.0, p.1 - half.1, p.0 + half.0, p.1 + half.1]
}

/// The first free place; the seed where none is free.
fn search(seed: Point, half: (f64, f64), buffer: f64, offsets: &[(i64, i64)], earlier: &[Frame]) -> Point {
    let step = maximum(half.0, half.1);
    for widening in [1.0, 2.0, 4.0] {
        for &(a, b) in offsets {
            let place = (seed.0 + a as f64 * step * widening, seed.1 + b as f64 * step * widening);
            let bare = centred(place, half);
            let kept = [bare[0] - buffer, bare[1] - buffer, bare[2] + buffer, bare[3] + buffer];
            if !earlier.iter().any(|other| overlap(&kept, other)) {
                return place;
            }
        }
    }
    seed
}

pub fn placed(net: &Network, options: &Options, seeds: &[Point], sizes: &[(f64, f64)]) -> Placed {
    let (members, occupied) = (net.members(), net.occupied());
    let points: Vec<Point> = occupied.iter().map(|&s| seeds[s]).collect();
    let blocks: Vec<(f64, f64)> = occupied.iter().map(|&s| sizes[s]).collect();
    let (unit, spacing) = unit(options, &points, &blocks);
    let k = net.stations();
    let (mut scales, mut places, mut boxes) = (vec![1.0; k], vec![(0.0, 0.0); k], vec![[0.0; 4]; k]);
    for (i, &s) in occupied.iter().enumerate() {
        scales[s] = scale(options, &points, i, spacing);
    }
    let top = |s: usize| members[s].iter().map(|&bus| net.kv[bus]).max().expect("a bus");
    let mut turns: Vec<(u64, usize, usize)> = occupied.iter().map(|&s| (top(s), members[s].len(), s)).collect();
    turns.sort_by(|a, b| b.0.cmp(&a.0).then(b.1.cmp(&a.1)).then(a.2.cmp(&b.2)));
    let offsets = offsets(options.search);
    let mut earlier: Vec<Frame> = Vec::new();
    for (_, _, s) in turns {
        let f = unit * scales[s];
        let half = (sizes[s].0 * f / 2.0, sizes[s].1 * f / 2.0);
        places[s] = search(seeds[s], half, f * options.buffer, &offsets, &earlier);
        boxes[s] = centred(places[s], half);
        earlier.push(boxes[s]);
    }
    Placed { unit, scales, places, boxes }
}
