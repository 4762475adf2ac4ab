//! Routed drawings: lines run through the mesh, from bar to bar without a gap.
use tansygate::*;

/// A grid of substations, w wide and h high, and the mesh of its squares cut in two, places by rank being row by row.
fn grid(w: usize, h: usize) -> (TxLayoutInput, MeshBuf) {
    let n = w * h;
    let jitter = |i: usize| ((i * 7919) % 13) as f64 / 13.0;
    let input = TxLayoutInput {
        bus_substation: (0..n as u32).collect(),
        kv: vec![110.0; n],
        xy: (0..n).flat_map(|i| [(i % w) as f64 * 10.0 + jitter(i), (i / w) as f64 * 10.0 + jitter(i + 5)]).collect(),
        ..TxLayoutInput::default()
    };
    let mut triangles = Vec::new();
    for y in 0..h - 1 {
        for x in 0..w - 1 {
            let a = y * w + x;
            triangles.extend([a, a + 1, a + w, a + w, a + 1, a + w + 1]);
        }
    }
    let next = |i: usize| if i % 3 == 2 { i - 2 } else { i + 1 };
    let ends: Vec<(usize, usize)> = (0..triangles.len()).map(|i| (triangles[i], triangles[next(i)])).collect();
    let twin = |&(a, b): &(usize, usize)| ends.iter().position(|&e| e == (b, a)).unwrap_or(usize::MAX);
    let halfedges: Vec<usize> = ends.iter().map(twin).collect();
    (input, MeshBuf::new(&triangles, &halfedges))
}

/// Each line starts on its first bar, ends on its second, and has no gap.
fn joined(input: &TxLayoutInput, d: &TxLayout) {
    assert_eq!(d.segments.len(), 4 * d.segment_edge.len());
    for e in 0..input.from.len() {
        let own: Vec<&[f64]> =
            d.segments.chunks(4).zip(&d.segment_edge).filter(|s| *s.1 == e as u32).map(|s| s.0).collect();
        assert!(!own.is_empty(), "branch {e} isn't drawn");
        assert!(own.windows(2).all(|w| w[0][2..] == w[1][..2]), "branch {e} has a gap");
        for (bus, at) in [(input.from[e], &own[0][..2]), (input.to[e], &own[own.len() - 1][2..])] {
            let bar = &d.busbars[4 * bus as usize..][..4];
            assert!(at[0] == bar[0] && bar[1] <= at[1] && at[1] <= bar[3], "branch {e} misses the bar of {bus}");
        }
    }
}

#[test]
fn lines_cross_a_grid() {
    let (mut input, mesh) = grid(6, 5);
    input.from = vec![0, 0, 5, 3, 12, 0, 7];
    input.to = vec![29, 28, 24, 26, 17, 29, 8];
    let straight = TxLayoutOptions { route_iterations: 0, ..TxLayoutOptions::default() };
    let first = tx_schematic_layout(&input, &straight, mesh.lend()).expect("drawn");
    let routed = tx_schematic_layout(&input, &TxLayoutOptions::default(), mesh.lend()).expect("drawn");
    let detoured = tx_schematic_layout(&input, &TxLayoutOptions::default(), Mesh::default()).expect("drawn");
    for d in [&first, &routed, &detoured] {
        joined(&input, d);
        assert_eq!((&d.boxes, &d.busbars, &d.role), (&first.boxes, &first.busbars, &vec![TX_ROLE_LINE; 7]));
    }
    assert_eq!(first.segment_edge.len(), 3 * 7);
    assert!(routed.segment_edge.len() > first.segment_edge.len() + 10);
    assert_ne!(routed.segments, detoured.segments);
    let through = |d: &TxLayout| tx_layout_quality(&input, d).expect("audited").lines_through_boxes;
    assert!(through(&first) > 0 && through(&routed) < through(&first), "{} {}", through(&first), through(&routed));
}

#[test]
fn an_audit_of_a_routed_drawing() {
    let (mut input, mesh) = grid(4, 4);
    input.from = vec![0, 3];
    input.to = vec![15, 12];
    let d = tx_schematic_layout(&input, &TxLayoutOptions::default(), mesh.lend()).expect("drawn");
    let q = tx_layout_quality(&input, &d).expect("audited");
    assert_eq!((q.displacement.len(), q.spacing.len(), q.relative_length.len()), (16, 16, 2));
    assert!(q.relative_length.iter().all(|&r| (1.0..1.5).contains(&r)), "{:?}", q.relative_length);
    assert!(q.displacement.iter().all(|&x| x < 1e-9));
    assert_eq!(q.overlapping_pairs, 0);
    // Without the branches of the segments in between, a line falls apart into stretches.
    let mut cut = d.clone();
    cut.segment_edge.swap(0, d.segment_edge.len() - 1);
    assert_eq!(tx_layout_quality(&input, &cut).expect("audited").relative_length.len(), 4);
}

/// A line along a strip of triangles has more crossings than the lists first have room for.
#[test]
fn many_crossings() {
    let w = 400;
    let (mut input, mesh) = grid(w, 2);
    for (i, at) in input.xy.chunks_mut(2).enumerate() {
        at[1] = if i == 0 || i == 2 * w - 1 { 0.0 } else { (i / w) as f64 * 10.0 - 5.0 };
    }
    input.from = vec![0];
    input.to = vec![2 * w as i64 - 1];
    let d = tx_schematic_layout(&input, &TxLayoutOptions::default(), mesh.lend()).expect("drawn");
    joined(&input, &d);
    assert!(d.segment_edge.len() > 300, "{}", d.segment_edge.len());
}

#[test]
fn calls_repeat_exactly_and_from_many_threads() {
    let (mut input, mesh) = grid(5, 5);
    input.from = vec![0, 4, 2];
    input.to = vec![24, 20, 22];
    let draw = || tx_schematic_layout(&input, &TxLayoutOptions::default(), mesh.lend()).expect("drawn");
    let first = draw();
    std::thread::scope(|s| {
        let all: Vec<_> = (0..4).map(|_| s.spawn(draw)).collect();
        for one in all {
            assert_eq!(one.join().expect("ends"), first);
        }
    });
}
