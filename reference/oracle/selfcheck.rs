//! Worked cases of docs/RULES.md and the places where a quick reading of it goes wrong: each said, run by the original and by the
//! second implementation, and compared.
use crate::audit::{Drawing, Figures, Room};
use crate::drawlist::drawlist;
use crate::hypot::hypot;
use crate::gaps::{self, Gaps};
use crate::judge::{self, audit, layout};
use crate::layout::Lent;
use crate::network::{Mesh, Network, Options};
use crate::second::{first_box, Frame, Point, Rule};
use crate::tx_schematic::{inside, tx_layout_quality, TxLayout};

const ROOM: Room = Room { displacement: usize::MAX, spacing: usize::MAX, lengths: usize::MAX };

/// One bus a station, all of one voltage, at these points.
fn stations(points: &[(f64, f64)]) -> Network {
    Network {
        sub: (0..points.len() as u32).collect(),
        kv: vec![100f64.to_bits(); points.len()],
        xy: points.iter().flat_map(|p| [p.0, p.1]).collect(),
        ..Network::default()
    }
}

/// A network with one branch more.
fn joined(mut net: Network, from: i64, to: i64, live: u8) -> Network {
    net.from.push(from);
    net.to.push(to);
    net.live.push(live);
    net
}

fn drawn(net: &Network, options: &Options) -> Result<TxLayout, u32> {
    layout(net, options, &Mesh::default(), &Lent::ample())
}

fn half() -> Options {
    Options { fill: 0.5, ..Options::defaults() }
}

fn searching(search: i64) -> Options {
    Options { search, ..half() }
}

fn audited(net: &Network, options: &Options) -> Result<Figures, u32> {
    audit(net, &Drawing::of(&drawn(net, options)?), &ROOM)
}

/// The overlaps of stations whose boxes are these.
fn overlaps(boxes: &[[f64; 4]]) -> Result<usize, u32> {
    let net = stations(&vec![(0.0, 0.0); boxes.len()]);
    let drawing = Drawing { boxes: boxes.concat(), ..Drawing::default() };
    Ok(audit(&net, &drawing, &ROOM)?.overlaps)
}

fn number<T>(answer: Result<T, u32>) -> u32 {
    answer.err().unwrap_or(0)
}

struct Check {
    wrong: usize,
    made: usize,
}

impl Check {
    fn that(&mut self, what: &str, holds: bool) {
        self.made += 1;
        if !holds {
            self.wrong += 1;
            println!("wrong: {what}");
        }
    }
}

fn worked(c: &mut Check) {
    let text = "sub kv x y\n\
        0 4059000000000000 0000000000000000 0000000000000000\n\
        0 4059000000000000 0000000000000000 0000000000000000\n\
        from to live\n0 1 1\n";
    let want = "branch role x0 y0 x1 y1\n\
        0 1 BFC0000000000000 BFB0000000000000 3FC0000000000000 BFB0000000000000\n";
    c.that("drawlist's worked drawing", drawlist(text.as_bytes()) == want);
    c.that("text without its final LF", drawlist(text.trim_end().as_bytes()) == "refused 14\n");
    let none = drawn(&Network::default(), &Options::defaults()).unwrap();
    c.that("no buses", none.unit == 0.45 && none.bounds == [0.0, 0.0, 1.0, 1.0]);
    let lone = drawn(&stations(&[(0.0, 0.0)]), &half()).unwrap();
    c.that("one bus", lone.boxes == [-0.125, -0.25, 0.125, 0.25]);
    let two = stations(&[(0.0, 0.0); 2]);
    c.that("search 0 leaves both there", drawn(&two, &searching(0)).unwrap().boxes[..4] == lone.boxes);
    c.that("then overlap 1", audited(&two, &searching(0)).unwrap().overlaps == 1);
    let moved = drawn(&two, &searching(1)).unwrap().boxes;
    c.that("search 1 puts the second at (-0.5, 0)", moved[4..] == [-0.625, -0.25, -0.375, 0.25]);
    c.that("hypot(3, 4)", hypot(3.0, 4.0) == 5.0);
    c.that("hypot(1, 1)", hypot(1.0, 1.0).to_bits() == 0x3FF6_A09E_667F_3BCD);
    c.that("hypot(27, 17)", hypot(27.0, 17.0).to_bits() == 0x403F_E7F6_F939_A553);
    c.that("a piece hits", inside::hits(&[0.0, 0.0, 1.0, 0.0], &[1.0, 0.0, 2.0, 1.0]));
    c.that("a piece misses", !inside::hits(&[0.0, 0.0, 1.0, 0.0], &[1.5, 0.0, 2.0, 1.0]));
    let spaced = |gap| inside::places(&[0.5; 3], 0.0, 1.0, gap);
    c.that("gap 0.25", spaced(0.25) == [0.5, 0.75, 1.0]);
    c.that("gap 0.5", spaced(0.5) == [0.0, 0.5, 1.0]);
    c.that("gap 0.75", spaced(0.75) == [0.0, 0.5, 1.0]);
}

fn refusals(c: &mut Check) {
    let many = |n: usize| Network { kv: vec![1; n], sub: vec![0; n], ..Network::default() };
    let with = |net: &Network, options: &Options| number(drawn(net, options));
    let straight = Options { iterations: 0, ..half() };
    c.that("4,096 buses", with(&many(4096), &straight) == 0);
    c.that("4,097 buses", with(&many(4097), &straight) == 1);
    c.that("a short kv", with(&Network { kv: vec![], ..many(1) }, &half()) == 2);
    c.that("a long to", with(&Network { to: vec![0], ..many(1) }, &half()) == 3);
    c.that("station 1 of one bus", with(&Network { sub: vec![1], ..many(1) }, &half()) == 4);
    c.that("15 after 4", with(&Network { sub: vec![1], kv: vec![0], ..many(1) }, &half()) == 4);
    c.that("15 before 5", with(&Network { kv: vec![0], ..many(1) }, &searching(21)) == 15);
    c.that("search 20", with(&many(1), &searching(20)) == 0);
    c.that("search 21", with(&many(1), &searching(21)) == 5);
    let gapped = |four: [f64; 4]| {
        let [gap, padding, shortest, buffer] = four;
        with(&many(1), &Options { gaps: Gaps { gap, padding, shortest, buffer }, ..half() })
    };
    for i in 0..4 {
        for wrong in [0.5f64.next_down(), 8.0f64.next_up(), f64::NAN] {
            let mut four = gaps::OLD.all();
            four[i] = wrong;
            c.that("a gap outside 0.5 to 8", gapped(four) == 5);
        }
    }
    c.that("fill NaN", with(&many(1), &Options { fill: f64::NAN, ..half() }) == 5);
    let far = |x: f64| with(&stations(&[(x, 0.0), (0.0, 0.0)]), &half());
    c.that("10^12", far(1e12) == 0);
    c.that("the next float", far(1e12f64.next_up()) == 6);
    c.that("NaN beside 1e300", with(&stations(&[(f64::NAN, 1e300)]), &half()) == 0);
    c.that("a lone bus at 10^12", with(&stations(&[(1e12, 0.0)]), &Options::defaults()) == 8);
    let lent = |lent| number(layout(&many(1), &half(), &Mesh::default(), &lent));
    c.that("three bar numbers", lent(Lent { bars: 3, ..Lent::ample() }) == 7);
    c.that("a short work list", lent(Lent { work_short: true, ..Lent::ample() }) == 7);
    let three = stations(&[(0.0, 0.0), (10.0, 0.0), (0.0, 10.0)]);
    let meshed = |corners: &[u32], twins: &[u32]| {
        let mesh = Mesh { corners: corners.to_vec(), twins: twins.to_vec() };
        number(layout(&three, &half(), &mesh, &Lent::ample()))
    };
    c.that("one triangle", meshed(&[0, 1, 2], &[u32::MAX; 3]) == 0);
    c.that("a corner too many", meshed(&[0, 1, 3], &[u32::MAX; 3]) == 9);
    c.that("a corner twice", meshed(&[0, 1, 1], &[u32::MAX; 3]) == 9);
    c.that("a twin that is itself", meshed(&[0, 1, 2], &[0, u32::MAX, u32::MAX]) == 9);
    c.that("unequal lists", meshed(&[0, 1, 2], &[u32::MAX; 2]) == 9);
    let open = joined(stations(&[(0.0, 0.0); 2]), 0, 1, 0);
    let none = Lent { pieces: 0, branches: 0, ..Lent::ample() };
    let empty = layout(&open, &searching(0), &Mesh::default(), &none);
    c.that("no length, no piece, no 11", empty.is_ok_and(|d| d.segment_edge.is_empty()));
    let line = joined(three.clone(), 0, 1, 1);
    let pieces = |pieces, branches| {
        number(layout(&line, &half(), &Mesh::default(), &Lent { pieces, branches, ..Lent::ample() }))
    };
    c.that("three pieces held", pieces(12, 3) == 0);
    c.that("two pieces and three numbers", pieces(11, 3) == 11);
}

/// Two triangles beside each other, the line from 0 to 3 across their common edge.
fn crossings(c: &mut Check) {
    let net = joined(stations(&[(0.0, 0.0), (10.0, -10.0), (10.0, 10.0), (20.0, 1.0)]), 0, 3, 1);
    let none = u32::MAX;
    let mesh = Mesh { corners: vec![0, 1, 2, 1, 3, 2], twins: vec![none, 5, none, none, none, 1] };
    let held = |crossings| layout(&net, &half(), &mesh, &Lent { crossings, ..Lent::ample() });
    c.that("no crossing held", number(held(0)) == 10);
    c.that("one crossing", held(1).is_ok_and(|d| d.segment_edge.len() == 4));
}

fn neighbours(c: &mut Check) {
    let apart = drawn(&stations(&[(0.0, -1e12), (-5e-324, 0.0)]), &Options::defaults()).unwrap();
    c.that("spacing 10^12", apart.unit == 0.45 * 1e12 / 4.0);
    let tiers = Options { radius: 1.0, counts: [1, 30], scales: [0.5, 0.25], ..half() };
    let near = drawn(&stations(&[(-1e-20, 0.0), (1.0, 0.0)]), &tiers).unwrap();
    c.that("each has a neighbour", near.scale == [0.5, 0.5]);
    let always = Options { radius: 0.0, counts: [5, 0], scales: [0.5, 0.25], ..half() };
    c.that("a count of 0 applies", drawn(&stations(&[(0.0, 0.0)]), &always).unwrap().scale == [0.25]);
    c.that("seeds at distance 0 are near", inside::within(&[(1.0, 1.0); 2], 5e-324) == [1, 1]);
    let alone = audited(&stations(&[(0.0, 0.0); 2]), &searching(0)).unwrap();
    c.that("two on one place", alone.spacing == [f64::INFINITY; 2]);
}

fn audits(c: &mut Check) {
    let three = stations(&[(0.0, 0.0); 3]);
    let drawing = drawn(&three, &searching(0)).unwrap();
    c.that("three on one seed are 3 pairs", audited(&three, &searching(0)).unwrap().overlaps == 3);
    c.that("the Rust says 2", tx_layout_quality(&three.original(), &drawing).overlapping_pairs == 2);
    let edge = 1.0 - 1.5e-9;
    c.that("one is shrunk", overlaps(&[[0.0, 0.0, 1.0, 1.0], [edge, 0.0, 2.0, 1.0]]) == Ok(1));
    c.that("touching", overlaps(&[[0.0, 0.0, 1.0, 1.0], [1.0, 0.0, 2.0, 1.0]]) == Ok(0));
    let tiny = [0.8e-9, 0.8e-9, 2.3e-9, 2.3e-9];
    c.that("inside out", overlaps(&[tiny, tiny]) == Ok(1));
    let two = joined(stations(&[(0.0, 0.0), (10.0, 0.0)]), 0, 1, 1);
    let good = Drawing::of(&drawn(&two, &half()).unwrap());
    let gives = |net: &Network, drawing: &Drawing| number(audit(net, drawing, &ROOM));
    c.that("its own drawing", gives(&two, &good) == 0);
    let changed = |change: &dyn Fn(&mut Network, &mut Drawing)| {
        let (mut net, mut drawing) = (two.clone(), good.clone());
        change(&mut net, &mut drawing);
        gives(&net, &drawing)
    };
    c.that("a short xy", changed(&|n, _| n.xy.truncate(3)) == 0);
    c.that("no such branch", changed(&|_, d| d.branches[0] = 1) == 13);
    c.that("an end at n", changed(&|n, _| n.to[0] = 2) == 13);
    c.that("an end below 0", changed(&|n, _| n.to[0] = -1) == 13);
    c.that("an unknown end without a line", changed(&|n, d| (n.to[0], d.roles[0]) = (-1, 3)) == 0);
    c.that("a box too few", changed(&|_, d| d.boxes.truncate(4)) == 13);
    c.that("left above right", changed(&|_, d| d.boxes.swap(0, 2)) == 13);
    c.that("NaN in a piece", changed(&|_, d| d.pieces[2] = f64::NAN) == 13);
    c.that("a piece far out", changed(&|_, d| d.pieces[2] = 1e30) == 8);
    c.that("boxes without size", changed(&|_, d| d.boxes.fill(1.0)) == 8);
    // two buses in one station, with these coordinates; the box's middle is (2, 1) or (3, 4)
    let moved = |xy: &[f64], boxes: [f64; 4]| {
        let net = Network { sub: vec![0, 0], kv: vec![1; 2], xy: xy.to_vec(), ..Network::default() };
        audit(&net, &Drawing { boxes: boxes.to_vec(), ..Drawing::default() }, &ROOM).map(|f| f.displacement)
    };
    c.that("one bus of two surveyed", moved(&[4.0, 2.0], [1.0, 0.0, 3.0, 2.0]) == Ok(vec![0.0]));
    c.that("a NaN beside a number", moved(&[4.0, 2.0, f64::NAN, 5.0], [1.0, 0.0, 3.0, 2.0]) == Ok(vec![0.0]));
    c.that("no bus surveyed", moved(&[], [2.0, 3.0, 4.0, 5.0]) == Ok(vec![5.0]));
    let short = Room { lengths: good.branches.len() - 1, ..ROOM };
    c.that("a short list of lengths", number(audit(&two, &good, &short)) == 7);
    c.that("a corner walked past", inside::first_hit(&[0.0, 0.0, 1.0, 1.0], (-1.0, 1.0), (1.0, -1.0)).is_none());
}

fn orders(c: &mut Check) {
    let pair = |kv: [u64; 2]| {
        let net = Network { sub: vec![0, 0], kv: kv.to_vec(), ..stations(&[(0.0, 0.0); 2]) };
        let x = drawn(&net, &half()).unwrap().positions;
        x[0] < x[2]
    };
    c.that("the higher voltage left", pair([2, 1]) && !pair([1, 2]));
    c.that("the lower bus number left at one voltage", pair([1, 1]));
    let answer = |kv: u64| number(drawn(&Network { sub: vec![0], kv: vec![kv], ..stations(&[(0.0, 0.0)]) }, &half()));
    for kv in [0, 1 << 63, 0xBFF0 << 48, 0x7FF0 << 48, 0xFFF0 << 48, 0x7FF8 << 48, 0xFFF8 << 48] {
        c.that("no voltage", answer(kv) == 15);
    }
    c.that("the least and the largest voltage", answer(1) == 0 && answer(0x7FEF_FFFF_FFFF_FFFF) == 0);
    let low = inside::places(&[1.0; 6], 0.25, 0.4, 0.03)[0];
    c.that("a place below its lower end", low == 0.24999999999999992);
    let same = drawn(&joined(stations(&[(0.0, 0.0), (0.0, 9.0)]), 0, 1, 1), &half()).unwrap();
    let (b, s) = (&same.boxes, &same.segments);
    c.that("exits on the right of both", s[2] == b[2] && s[s.len() - 4] == b[6]);
}

/// The box entered first and the walk over cells, by the second implementation.
fn boxes_met(c: &mut Check) {
    let none = usize::MAX;
    let met = |boxes: &[Frame], p: Point, q: Point| {
        [Rule::Cells, Rule::Nearest].map(|rule| first_box(boxes, p, q, [none; 2], rule))
    };
    let across = [[1.0, 0.0, 3.0, 9.0], [3.25, 0.0, 4.25, 1.0]];
    c.that("the box entered first", met(&across, (0.0, 0.5), (10.0, 0.5)) == [Some(1), Some(0)]);
    let own = first_box(&across, (0.0, 0.5), (10.0, 0.5), [none, 0], Rule::Nearest);
    c.that("a station of the line's", own == Some(1));
    let both = [[-1.0, -1.0, 1.0, 1.0], [-2.0, -1.0, 1.0, 1.0]];
    c.that("a start in two boxes", met(&both, (0.0, 0.0), (10.0, 0.0))[1] == Some(0));
    c.that("a corner touched", met(&[[0.0, 0.0, 1.0, 1.0]], (-1.0, 1.0), (1.0, -1.0)) == [None, Some(0)]);
    let beyond = [[1.0 + 0.5f64.powi(14), -1.0, 3.0, 1.0]];
    c.that("a box beyond the end, by rounding", met(&beyond, (-(2f64.powi(40)), 0.0), (1.0, 0.0))[1] == Some(0));
    c.that("a box behind the start", met(&[[-1.0, -1.0, 0.0, 1.0]], (5e-324, 0.0), (10.0, 0.0))[1] == Some(0));
}

pub fn selfcheck() {
    let mut c = Check { wrong: 0, made: 0 };
    for judge in ["original", "second", "nearest"] {
        judge::choose(judge);
        for part in [worked, refusals, crossings, neighbours, audits, orders] {
            part(&mut c);
        }
    }
    boxes_met(&mut c);
    println!("{} examples, {} wrong", c.made, c.wrong);
    std::process::exit((c.wrong > 0).into());
}
