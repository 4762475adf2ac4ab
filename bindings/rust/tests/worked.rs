//! Worked drawings (docs/RULES.md, 'Worked cases'), and what signs of zero and NaNs do.
use tansygate::*;

/// n substations of one bus each, all at (0, 0).
fn stacked(n: u32) -> TxLayoutInput {
    TxLayoutInput {
        bus_substation: (0..n).collect(),
        kv: vec![110.0; n as usize],
        xy: vec![0.0; 2 * n as usize],
        ..TxLayoutInput::default()
    }
}

fn half() -> TxLayoutOptions {
    TxLayoutOptions { fill: 0.5, route_iterations: 0, ..TxLayoutOptions::default() }
}

fn drawn(input: &TxLayoutInput, options: &TxLayoutOptions) -> TxLayout {
    tx_schematic_layout(input, options, Mesh::default()).expect("drawn")
}

#[test]
fn no_buses() {
    let d = drawn(&TxLayoutInput::default(), &TxLayoutOptions::default());
    assert_eq!((d.unit, d.bounds, d.version), (0.45, [0.0, 0.0, 1.0, 1.0], 1));
    assert!(d.positions.is_empty() && d.boxes.is_empty() && d.segments.is_empty() && d.role.is_empty());
    let q = tx_layout_quality(&TxLayoutInput::default(), &d).expect("audited");
    assert_eq!((q.overlapping_pairs, q.lines_through_boxes, q.spacing.len()), (0, 0, 0));
}

#[test]
fn one_bus() {
    let d = drawn(&stacked(1), &half());
    assert_eq!(d.boxes, [-0.125, -0.25, 0.125, 0.25]);
    assert_eq!(d.bounds, [-0.125, -0.25, 0.125, 0.25]);
    assert_eq!(d.unit, 0.125);
    let q = tx_layout_quality(&stacked(1), &d).expect("audited");
    assert_eq!((q.displacement, q.spacing), (vec![0.0], vec![f64::INFINITY]));
}

#[test]
fn two_substations_on_one_point() {
    let input = stacked(2);
    let stay = drawn(&input, &TxLayoutOptions { search: 0, ..half() });
    assert_eq!(stay.boxes[..4], stay.boxes[4..]);
    assert_eq!(tx_layout_quality(&input, &stay).expect("audited").overlapping_pairs, 1);
    let apart = drawn(&input, &TxLayoutOptions { search: 1, ..half() });
    assert_eq!(apart.mesh_points(&input), [[0.0, 0.0], [-0.5, 0.0]]);
    let q = tx_layout_quality(&input, &apart).expect("audited");
    assert_eq!((q.overlapping_pairs, q.displacement), (0, vec![0.0, 0.5]));
    assert_eq!(q.spacing, [2.0, 2.0]);
}

#[test]
fn three_substations_on_one_point_overlap_in_three_pairs() {
    let d = drawn(&stacked(3), &TxLayoutOptions { search: 0, ..half() });
    assert_eq!(tx_layout_quality(&stacked(3), &d).expect("audited").overlapping_pairs, 3);
}

#[test]
fn two_buses_in_one_substation() {
    let input = TxLayoutInput {
        bus_substation: vec![0, 0],
        kv: vec![100.0, 100.0],
        from: vec![0],
        to: vec![1],
        in_service: vec![1],
        xy: vec![0.0; 4],
    };
    let d = drawn(&input, &half());
    let bits: Vec<u64> = d.segments.iter().map(|x| x.to_bits()).collect();
    assert_eq!(bits, [0xBFC0000000000000, 0xBFB0000000000000, 0x3FC0000000000000, 0xBFB0000000000000]);
    assert_eq!((d.segment_edge, d.role), (vec![0], vec![TX_ROLE_INTERNAL]));
}

#[test]
fn gaps_of_the_grid() {
    let input = TxLayoutInput { bus_substation: vec![0, 0], kv: vec![100.0; 2], xy: vec![0.0; 4], ..stacked(1) };
    let wide = TxLayoutOptions { bar_gap: 3.0, pad: 0.5, min_bar: 3.0, ..half() };
    // 4 blocks of 1/8 each way.
    let d = drawn(&input, &wide);
    assert_eq!((d.unit, d.boxes.as_slice()), (0.125, [-0.25, -0.25, 0.25, 0.25].as_slice()));
    assert_eq!(d.busbars[..4], [-0.1875, -0.1875, -0.1875, 0.1875]);
    assert_eq!(d.busbars[4..], [0.1875, -0.1875, 0.1875, 0.1875]);
}

#[test]
fn a_bar_can_leave_its_box() {
    // A lone line, shortest bar 8, padding 0.5: 9 blocks high, and the bar starts 3 blocks above the box.
    let input = TxLayoutInput { from: vec![0], to: vec![1], xy: vec![0.0, 0.0, 1024.0, 0.0], ..stacked(2) };
    let d = drawn(&input, &TxLayoutOptions { min_bar: 8.0, pad: 0.5, ..half() });
    let blocks = |y: f64| (y - d.boxes[1]) / d.unit;
    assert_eq!(
        (blocks(d.boxes[3]).round(), blocks(d.busbars[1]).round(), blocks(d.busbars[3]).round()),
        (9.0, -3.0, 5.0)
    );
}

#[test]
fn a_wider_buffer() {
    // Two substations on one point, 2 by 4 blocks of 1/8: half a side is 1/4, so offsets are in steps of it.
    let apart = |buffer: f64| {
        let d = drawn(&stacked(2), &TxLayoutOptions { buffer, search: 20, ..half() });
        d.mesh_points(&stacked(2))[1]
    };
    assert_eq!(apart(1.0), [-0.5, 0.0]);
    assert_eq!(apart(8.0), [-1.25, 0.0]);
}

#[test]
fn roles() {
    let input = TxLayoutInput {
        bus_substation: vec![0, 0, 1],
        kv: vec![1.0; 3],
        // internal, line, open line, to an unknown bus, to itself, negative
        from: vec![0, 0, 0, 0, 1, -1],
        to: vec![1, 2, 2, 3, 1, 2],
        in_service: vec![1, 255, 0],
        xy: vec![0.0, 0.0, 0.0, 0.0, 9.0, 0.0],
    };
    let d = drawn(&input, &half());
    assert_eq!(d.role, [1, 0, 2, 2, 2, 2]);
    assert_eq!(d.segment_edge.iter().filter(|&&e| e > 2).count(), 0);
    let pieces = |e: u32| d.segment_edge.iter().filter(|&&f| f == e).count();
    assert_eq!((pieces(0), pieces(1), pieces(2)), (1, 3, 1));
}

#[test]
fn the_higher_voltage_stands_left_and_signs_of_zero_change_no_number() {
    let mut input = TxLayoutInput {
        bus_substation: vec![0, 0, 0, 0],
        kv: vec![5e-324, 11.0, f64::MAX, 11.0],
        xy: vec![0.0; 8],
        ..TxLayoutInput::default()
    };
    let plain = drawn(&input, &half());
    let x: Vec<f64> = (0..4).map(|i| plain.positions[2 * i]).collect();
    assert!(x[2] < x[1] && x[1] < x[3] && x[3] < x[0], "{x:?}");
    input.xy = vec![-0.0; 8];
    assert_eq!(drawn(&input, &half()), plain);
    let q = tx_layout_quality(&input, &plain).expect("audited");
    assert_eq!(q.displacement, [0.0]);
}

#[test]
fn short_and_non_finite_columns_count_as_origin_and_live() {
    let full = TxLayoutInput {
        bus_substation: vec![0, 1, 2],
        kv: vec![1.0; 3],
        from: vec![0, 1],
        to: vec![1, 2],
        in_service: vec![1, 1],
        xy: vec![5.0, 1.0, 0.0, 0.0, 0.0, 0.0],
    };
    let short = TxLayoutInput { in_service: vec![], xy: vec![5.0, 1.0, f64::NAN, 1e300], ..full.clone() };
    assert_eq!(drawn(&short, &half()), drawn(&full, &half()));
    let drawing = drawn(&full, &half());
    assert!(tx_layout_quality(&full, &drawing).is_ok());
    assert_eq!(tx_layout_quality(&short, &drawing), tx_layout_quality(&full, &drawing));
}

#[test]
fn counts_above_the_widest_number_are_never_reached() {
    let input = stacked(2);
    let most = |count| TxLayoutOptions { tier_counts: [count; 2], ..half() };
    let drawing = drawn(&input, &most(usize::MAX));
    assert_eq!(drawing, drawn(&input, &most(u32::MAX as usize)));
    assert_eq!(drawing.scale, [1.0, 1.0]);
    assert_eq!(drawn(&input, &most(0)).scale, [4.0 / 9.0, 4.0 / 9.0]);
}
