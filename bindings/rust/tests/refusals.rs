//! Each refusal that a caller can provoke, at its limit and past it.
use tansygate::*;

fn plain(n: usize) -> TxLayoutInput {
    TxLayoutInput {
        bus_substation: (0..n as u32).collect(),
        kv: vec![110.0; n],
        xy: (0..n).flat_map(|i| [(i % 64) as f64, (i / 64) as f64]).collect(),
        ..TxLayoutInput::default()
    }
}

fn straight() -> TxLayoutOptions {
    TxLayoutOptions { route_iterations: 0, ..TxLayoutOptions::default() }
}

fn number(input: &TxLayoutInput, options: &TxLayoutOptions, mesh: Mesh<'_>) -> u32 {
    tx_schematic_layout(input, options, mesh).map_or_else(Refusal::number, |_| 0)
}

/// The answer of layout, which that of the audit and of `validate` has to be too.
fn shape(input: &TxLayoutInput) -> u32 {
    let any = tx_schematic_layout(&plain(1), &straight(), Mesh::default()).expect("drawn");
    let answer = number(input, &straight(), Mesh::default());
    assert_eq!(tx_layout_quality(input, &any).map_or_else(Refusal::number, |_| 0), answer);
    assert_eq!(input.validate().map_or_else(Refusal::number, |()| 0), answer);
    answer
}

#[test]
fn too_many() {
    assert_eq!(number(&plain(4096), &straight(), Mesh::default()), 0);
    assert_eq!(shape(&plain(4097)), 1);
    let branches = |m: usize| TxLayoutInput { from: vec![0; m], to: vec![1; m], ..plain(2) };
    assert_eq!(number(&branches(8192), &straight(), Mesh::default()), 0);
    assert_eq!(shape(&branches(8193)), 1);
    // The lowest that applies.
    assert_eq!(shape(&TxLayoutInput { kv: vec![], ..branches(8193) }), 1);
}

#[test]
fn columns() {
    assert_eq!(shape(&TxLayoutInput { kv: vec![1.0], ..plain(2) }), 2);
    assert_eq!(shape(&TxLayoutInput { kv: vec![1.0; 3], from: vec![0], ..plain(2) }), 2);
    assert_eq!(shape(&TxLayoutInput { from: vec![0], ..plain(2) }), 3);
    assert_eq!(shape(&TxLayoutInput { to: vec![0], bus_substation: vec![0, 2], ..plain(2) }), 3);
    assert_eq!(shape(&TxLayoutInput { bus_substation: vec![0, 2], ..plain(2) }), 4);
    assert_eq!(shape(&TxLayoutInput { bus_substation: vec![u32::MAX, 0], ..plain(2) }), 4);
}

#[test]
fn voltages() {
    for kv in [0.0, -0.0, -5e-324, -110.0, f64::INFINITY, f64::NEG_INFINITY, f64::NAN, -f64::NAN] {
        assert_eq!(shape(&TxLayoutInput { kv: vec![110.0, kv], ..plain(2) }), 15, "{kv}");
        assert_eq!(shape(&TxLayoutInput { kv: vec![kv, 110.0], ..plain(2) }), 15, "{kv}");
    }
    let extreme = TxLayoutInput { kv: vec![5e-324, f64::MAX], ..plain(2) };
    assert_eq!(number(&extreme, &straight(), Mesh::default()), 0);
    assert!(extreme.validate().is_ok());
    // After 4, before 5 and 6.
    let stray = TxLayoutInput { kv: vec![0.0; 2], ..plain(2) };
    assert_eq!(shape(&TxLayoutInput { bus_substation: vec![0, 2], ..stray.clone() }), 4);
    assert_eq!(number(&stray, &TxLayoutOptions { fill: 0.0, ..straight() }, Mesh::default()), 15);
    assert_eq!(shape(&TxLayoutInput { xy: vec![1e13; 4], ..stray }), 15);
}

#[test]
fn options() {
    let o = straight;
    let mesh = Mesh::default();
    let answer = |options: TxLayoutOptions| number(&plain(2), &options, mesh);
    for fill in [0.0, -0.0, -1.0, 16.0f64.next_up(), f64::NAN, f64::INFINITY] {
        assert_eq!(answer(TxLayoutOptions { fill, ..o() }), 5, "fill {fill}");
    }
    for tier_radius in [-1.0, 1000.0f64.next_up(), f64::NAN] {
        assert_eq!(answer(TxLayoutOptions { tier_radius, ..o() }), 5, "radius {tier_radius}");
    }
    for scale in [0.0, (1.0f64 / 64.0).next_down(), 1.0f64.next_up(), f64::NAN] {
        assert_eq!(answer(TxLayoutOptions { tier_scales: [scale, 1.0], ..o() }), 5, "scale {scale}");
        assert_eq!(answer(TxLayoutOptions { tier_scales: [1.0, scale], ..o() }), 5, "scale {scale}");
    }
    for search in [-1, 21, i32::MIN, i32::MAX] {
        assert_eq!(answer(TxLayoutOptions { search, ..o() }), 5, "search {search}");
    }
    for route_iterations in [101, u32::MAX as usize, 1 << 32, usize::MAX] {
        assert_eq!(answer(TxLayoutOptions { route_iterations, ..o() }), 5, "iterations {route_iterations}");
    }
    for gap in [0.0, 0.5f64.next_down(), -1.0, 8.0f64.next_up(), f64::NAN, f64::INFINITY] {
        assert_eq!(answer(TxLayoutOptions { bar_gap: gap, ..o() }), 5, "bar gap {gap}");
        assert_eq!(answer(TxLayoutOptions { pad: gap, ..o() }), 5, "padding {gap}");
        assert_eq!(answer(TxLayoutOptions { min_bar: gap, ..o() }), 5, "shortest bar {gap}");
        assert_eq!(answer(TxLayoutOptions { buffer: gap, ..o() }), 5, "buffer {gap}");
    }
    for gap in [0.5, 8.0] {
        assert_eq!(answer(TxLayoutOptions { bar_gap: gap, pad: gap, min_bar: gap, buffer: gap, ..o() }), 0, "{gap}");
    }
    let last = TxLayoutOptions {
        fill: 16.0,
        tier_radius: 1000.0,
        tier_scales: [1.0 / 64.0, 1.0],
        search: 20,
        route_iterations: 100,
        ..o()
    };
    assert_eq!(answer(last), 0);
    assert_eq!(answer(TxLayoutOptions { tier_radius: -0.0, search: 0, ..o() }), 0);
}

#[test]
fn too_far() {
    let at = |x: f64| TxLayoutInput { xy: vec![x, 0.0, 0.0, 0.0], ..plain(2) };
    assert_eq!(number(&at(1e12), &straight(), Mesh::default()), 0);
    assert_eq!(number(&at(1e12f64.next_up()), &straight(), Mesh::default()), 6);
    assert_eq!(number(&at(-1e300), &straight(), Mesh::default()), 6);
    assert_eq!(number(&TxLayoutInput { xy: vec![f64::NAN, 1e300], ..plain(2) }, &straight(), Mesh::default()), 0);
    let drawing = tx_schematic_layout(&at(0.0), &straight(), Mesh::default()).expect("drawn");
    assert_eq!(tx_layout_quality(&at(1e13), &drawing), Err(Refusal::TooFar));
}

#[test]
fn ill_sized() {
    // A lone bus, far off: its box is small beside its coordinates.
    let alone = TxLayoutInput { xy: vec![1e12, 0.0], ..plain(1) };
    assert_eq!(number(&alone, &TxLayoutOptions::default(), Mesh::default()), 8);
    // The unit underflows to 0.
    let close = TxLayoutInput { xy: vec![0.0, 0.0, 5e-324, 0.0], ..plain(2) };
    assert_eq!(number(&close, &straight(), Mesh::default()), 8);
    let input = TxLayoutInput { from: vec![0], to: vec![1], ..plain(2) };
    let drawing = tx_schematic_layout(&input, &straight(), Mesh::default()).expect("drawn");
    let mut far = drawing.clone();
    far.segments[0] = 1e20;
    assert_eq!(tx_layout_quality(&input, &far), Err(Refusal::IllSized));
    let mut points = drawing;
    points.boxes = vec![0.0; 8];
    assert_eq!(tx_layout_quality(&input, &points), Err(Refusal::IllSized));
}

#[test]
fn mesh() {
    let e = EMPTY;
    let three = plain(3);
    let routed = TxLayoutOptions::default();
    let answer = |triangles: &[u32], halfedges: &[u32]| number(&three, &routed, Mesh { triangles, halfedges });
    assert_eq!(answer(&[], &[]), 0);
    assert_eq!(answer(&[0, 1, 2], &[e, e, e]), 0);
    assert_eq!(answer(&[0, 1, 3], &[e, e, e]), 9); // no such corner
    assert_eq!(answer(&[0, 1, 1], &[e, e, e]), 9); // corners that don't differ
    assert_eq!(answer(&[0, 1, 2], &[e, e]), 9); // lengths that differ
    assert_eq!(answer(&[0, 1], &[e, e]), 9); // no whole triangle
    assert_eq!(answer(&[0, 1, 2], &[3, e, e]), 9); // no such twin
    assert_eq!(answer(&[0, 1, 2, 0, 1, 2], &[3, e, e, 0, e, e]), 9); // a twin that runs the same way
    assert_eq!(answer(&[0, 1, 2, 1, 0, 2], &[3, e, e, 0, e, e]), 0);
    assert_eq!(answer(&[0, 1, 2, 1, 0, 2], &[3, e, e, e, e, e]), 9); // a twin that doesn't point back
    let long: Vec<u32> = [0, 1, 2].repeat(8192);
    assert_eq!(answer(&long, &vec![e; 24_576]), 0);
    let longer: Vec<u32> = [0, 1, 2].repeat(8193);
    assert_eq!(answer(&longer, &vec![e; 24_579]), 9);
    // Not looked at with 0 rounds, or below three occupied substations.
    let bad = Mesh { triangles: &[9], halfedges: &[] };
    assert_eq!(number(&three, &straight(), bad), 0);
    assert_eq!(number(&plain(2), &routed, bad), 0);
    // A triangulation's wide numbers.
    let buf = MeshBuf::new(&[0, 1, usize::MAX], &[usize::MAX; 3]);
    assert_eq!(number(&three, &routed, buf.lend()), 9);
    let buf = MeshBuf::new(&[0, 1, 2], &[usize::MAX - 1, usize::MAX, usize::MAX]);
    assert_eq!(number(&three, &routed, buf.lend()), 9);
}

#[test]
fn a_drawing_that_does_not_fit() {
    let input = TxLayoutInput { from: vec![0, 0], to: vec![1, 7], ..plain(2) };
    let drawing = tx_schematic_layout(&input, &straight(), Mesh::default()).expect("drawn");
    assert!(tx_layout_quality(&input, &drawing).is_ok());
    let refused = |change: &dyn Fn(&mut TxLayout)| {
        let mut changed = drawing.clone();
        change(&mut changed);
        tx_layout_quality(&input, &changed) == Err(Refusal::NoFit)
    };
    assert!(refused(&|d| d.boxes.truncate(7)));
    assert!(refused(&|d| d.boxes.extend([0.0; 4])));
    assert!(refused(&|d| d.role.truncate(1)));
    assert!(refused(&|d| d.segments.truncate(1)));
    assert!(refused(&|d| d.segment_edge[0] = 2));
    assert!(refused(&|d| d.role[1] = TX_ROLE_LINE)); // its second bus is unknown
    assert!(refused(&|d| d.segments[1] = f64::NAN));
    assert!(refused(&|d| d.segments[1] = 2f64.powi(100).next_up()));
    assert!(refused(&|d| d.boxes.swap(0, 2)));
    assert!(refused(&|d| d.boxes[3] = f64::INFINITY));
    let lost = TxLayoutInput { xy: vec![0.0, 0.0, 1.0, f64::NAN], ..input.clone() };
    assert!(tx_layout_quality(&lost, &drawing).is_ok()); // it counts as (0, 0)
}

#[test]
fn largest_fills() {
    let fill = |input: &TxLayoutInput, options: &TxLayoutOptions| {
        tx_schematic_largest_fill(input, options).map_or_else(Refusal::number, |l| 100 + l.sixty_fourths)
    };
    let two = |xy: [f64; 4]| TxLayoutInput { xy: xy.to_vec(), ..plain(2) };
    let still = TxLayoutOptions { search: 0, ..straight() };
    // Both boxes stand on one point, and nothing is searched.
    assert_eq!(fill(&two([0.0; 4]), &still), 18);
    assert_eq!(fill(&two([0.0; 4]), &straight()), 164);
    assert_eq!(fill(&two([0.0, 0.0, 0.0, 4.0]), &still), 151);
    // The given fill and iterations aren't looked at, the other options are.
    let unread = TxLayoutOptions { fill: f64::NAN, route_iterations: 101, ..TxLayoutOptions::default() };
    assert_eq!(fill(&plain(2), &unread), 164);
    assert_eq!(fill(&plain(2), &TxLayoutOptions { search: 21, ..straight() }), 5);
    assert_eq!(fill(&two([0.0, 0.0, 0.0, 2e12]), &still), 6);
    assert_eq!(fill(&plain(4097), &still), 1);
    assert_eq!(fill(&TxLayoutInput { kv: vec![110.0, 0.0], ..plain(2) }, &still), 15);
    // A refusal of 8 at a fill rules that fill out alone: so far from the origin no box is large enough.
    assert_eq!(fill(&two([1e12, 1e12, 1e12, 1e12 - 1e-3]), &straight()), 18);
    assert_eq!(fill(&TxLayoutInput::default(), &still), 164);
}

/// Each of them finds a free place at 1/64 to 51/64 and at 61/64 to 64/64, not between.
#[test]
fn twelve_stations() {
    let points = [2, 3, 4, 4, 4, 4, 4, 0, 3, 2, 1, 1, 3, 2, 0, 0, 0, 1, 0, 3, 4, 0, 2, 1];
    let input = TxLayoutInput { xy: points.map(f64::from).to_vec(), ..plain(12) };
    let options = TxLayoutOptions { search: 1, tier_radius: 0.0, ..straight() };
    let largest = tx_schematic_largest_fill(&input, &options).expect("drawn");
    assert_eq!((largest.sixty_fourths, largest.fill()), (64, 1.0));
    let same = TxLayoutOptions { fill: largest.fill(), ..options.clone() };
    assert_eq!(tx_schematic_layout(&input, &same, Mesh::default()), Ok(largest.layout));
    // Whether a box with the block that is kept free beside it overlaps another.
    let crowded = |k: u32| {
        let at = TxLayoutOptions { fill: f64::from(k) / 64.0, ..options.clone() };
        let drawing = tx_schematic_layout(&input, &at, Mesh::default()).expect("drawn");
        let boxes: Vec<&[f64]> = drawing.boxes.chunks_exact(4).collect();
        let near = |a: usize, b: usize| {
            let (a, b, u) = (boxes[a], boxes[b], 0.999 * drawing.unit);
            a[0] - u < b[2] && b[0] < a[2] + u && a[1] - u < b[3] && b[1] < a[3] + u
        };
        (0..12).any(|a| (0..a).any(|b| near(a, b)))
    };
    assert!((1..=64).all(|k| crowded(k) == (52..=60).contains(&k)));
}

#[test]
fn numbers_and_words() {
    for (refusal, number) in Refusal::ALL.into_iter().zip((1..=11).chain([13, 15, 18])) {
        assert_eq!(refusal.number(), number);
        assert_eq!(refusal.to_string(), format!("refused {number}: {}", refusal.words()));
    }
    let error: Box<dyn std::error::Error> = Box::new(Refusal::TooMany);
    assert!(error.to_string().contains("4,096 buses"));
}
