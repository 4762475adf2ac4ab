//! The stored answers of the original (crates/replay/stdin, made by reference/make_replay), through this crate's calls.
use tansygate::*;

/// A stored call's words, read in order.
struct Words(std::vec::IntoIter<u64>);

impl Words {
    fn whole(&mut self) -> u64 {
        self.0.next().expect("a word more")
    }

    fn size(&mut self) -> usize {
        self.whole() as usize
    }

    fn float(&mut self) -> f64 {
        f64::from_bits(self.whole())
    }

    fn floats(&mut self, count: usize) -> Vec<f64> {
        (0..count).map(|_| self.float()).collect()
    }

    fn sizes<const N: usize>(&mut self) -> [usize; N] {
        std::array::from_fn(|_| self.size())
    }

    /// A bus number: from 2^32 on it is -1 or -2.
    fn bus(&mut self) -> i64 {
        let v = self.whole() as i64;
        if v < 1 << 32 {
            v
        } else {
            (1 << 32) - 1 - v
        }
    }

    /// Pieces and their branches, five words each.
    fn pieces(&mut self, count: usize) -> (Vec<f64>, Vec<u32>) {
        let (mut pieces, mut branches) = (Vec::new(), Vec::new());
        for _ in 0..count {
            pieces.extend(self.floats(4));
            branches.push(self.whole() as u32);
        }
        (pieces, branches)
    }
}

/// Zeros to this length, or cut to it.
fn sized<T: Clone + Default>(mut list: Vec<T>, length: usize) -> Vec<T> {
    list.resize(length, T::default());
    list
}

/// The network of so many rows, and what stands beside a branch: its service flag or its role. Lengths: sub, kv, from, to, marks, xy.
fn network(w: &mut Words, buses: usize, branches: usize, lengths: [usize; 6]) -> (TxLayoutInput, Vec<u8>) {
    let mut input = TxLayoutInput::default();
    let mut marks = Vec::new();
    for _ in 0..buses {
        input.bus_substation.push(w.whole() as u32);
        input.kv.push(w.float());
        input.xy.extend(w.floats(2));
    }
    for _ in 0..branches {
        input.from.push(w.bus());
        input.to.push(w.bus());
        marks.push(w.whole() as u8);
    }
    input.bus_substation = sized(input.bus_substation, lengths[0]);
    input.kv = sized(input.kv, lengths[1]);
    input.from = sized(input.from, lengths[2]);
    input.to = sized(input.to, lengths[3]);
    input.xy = sized(input.xy, lengths[5]);
    (input, sized(marks, lengths[4]))
}

/// The answer's number; refusals about lent lists (7, 10, 11) can't come here, and these calls are left out, as are
/// largest fills with piece lists that are too short for some fill.
fn drawn(w: &mut Words, largest: bool) -> Option<u32> {
    let options = TxLayoutOptions {
        fill: w.float(),
        tier_radius: w.float(),
        tier_counts: w.sizes(),
        tier_scales: [w.float(), w.float()],
        search: i32::try_from(w.whole()).ok().filter(|&s| s < 128).unwrap_or(-1),
        route_iterations: w.size(),
        ..TxLayoutOptions::default()
    };
    let [sub, kv, from, to, live, xy, corners, twins] = w.sizes();
    let lent: [usize; 9] = w.sizes();
    let number = w.whole() as u32;
    let [n, m, h, k, p] = w.sizes();
    let unit = w.float();
    let bounds = [w.float(), w.float(), w.float(), w.float()];
    let sixty_fourths = if largest { w.whole() as u32 } else { 0 };
    let (mut input, live) = network(w, n, m, [sub, kv, from, to, live, xy]);
    input.in_service = live;
    let (mut triangles, mut halfedges) = (Vec::new(), Vec::new());
    for _ in 0..h {
        triangles.push(w.whole() as u32);
        halfedges.push(w.whole() as u32);
    }
    let mesh = MeshBuf { triangles: sized(triangles, corners), halfedges: sized(halfedges, twins) };
    if [7, 10, 11].contains(&number) || largest && lent[5].min(4 * lent[6]) < 12 * m {
        return None;
    }
    let answer = if largest {
        let answer = tx_schematic_largest_fill(&input, &options);
        answer.map(|l| {
            assert_eq!(l.sixty_fourths, sixty_fourths);
            l.layout
        })
    } else {
        tx_schematic_layout(&input, &options, mesh.lend())
    };
    if number != 0 {
        assert_eq!(answer.map_err(Refusal::number), Err(number));
        return Some(number);
    }
    let (positions, busbars, boxes, scale) = (w.floats(2 * n), w.floats(4 * n), w.floats(4 * k), w.floats(k));
    let role = (0..m).map(|_| w.whole() as u8).collect();
    let (segments, segment_edge) = w.pieces(p);
    let version = TX_LAYOUT_VERSION;
    let stored = TxLayout { version, positions, busbars, boxes, segments, segment_edge, role, unit, scale, bounds };
    assert_eq!(answer, Ok(stored));
    Some(0)
}

fn audited(w: &mut Words) -> Option<u32> {
    let [sub, kv, from, to, xy, boxes, roles, pieces, branches] = w.sizes();
    let _lent: [usize; 4] = w.sizes();
    let number = w.whole() as u32;
    let [n, m, b, p] = w.sizes();
    let [stations, overlapping_pairs, lines_through_boxes, lines] = w.sizes();
    let (input, role) = network(w, n, m, [sub, kv, from, to, roles, xy]);
    let box_numbers = sized(w.floats(b), boxes);
    let (segments, segment_edge) = w.pieces(p);
    if number == 7 {
        return None;
    }
    let drawing = TxLayout {
        version: TX_LAYOUT_VERSION,
        positions: Vec::new(),
        busbars: Vec::new(),
        boxes: box_numbers,
        segments: sized(segments, pieces),
        segment_edge: sized(segment_edge, branches),
        role,
        unit: 0.0,
        scale: Vec::new(),
        bounds: [0.0; 4],
    };
    let answer = tx_layout_quality(&input, &drawing);
    if number != 0 {
        assert_eq!(answer.map_err(Refusal::number), Err(number));
        return Some(number);
    }
    let (displacement, spacing, relative_length) = (w.floats(stations), w.floats(stations), w.floats(lines));
    let stored = TxLayoutQuality { displacement, spacing, overlapping_pairs, lines_through_boxes, relative_length };
    assert_eq!(answer, Ok(stored));
    Some(0)
}

#[test]
fn the_original_answers_the_same() {
    let text = include_str!("../../../crates/replay/stdin");
    let (mut drawings, mut fills, mut audits) = ([0; 19], [0; 19], [0; 19]);
    for (i, line) in text.lines().enumerate() {
        println!("line {}", i + 1);
        let word = |w: &str| u64::from_str_radix(w, 16).expect("hexadecimal digits");
        let mut words = Words(line[2..].split(' ').map(word).collect::<Vec<_>>().into_iter());
        let (counts, number) = match &line[..1] {
            "L" => (&mut drawings, drawn(&mut words, false)),
            "F" => (&mut fills, drawn(&mut words, true)),
            _ => (&mut audits, audited(&mut words)),
        };
        if let Some(number) = number {
            counts[number as usize] += 1;
            assert!(words.0.next().is_none(), "words left over");
        }
    }
    assert!(drawings[0] >= 300 && fills[0] >= 5 && audits[0] >= 300);
    assert!(fills[5] > 0, "{fills:?}");
    assert!([1, 2, 3, 4, 5, 6, 8, 9, 15].iter().all(|&i| drawings[i] > 0), "{drawings:?}");
    assert!([1, 2, 3, 4, 6, 8, 13, 15].iter().all(|&i| audits[i] > 0), "{audits:?}");
}
