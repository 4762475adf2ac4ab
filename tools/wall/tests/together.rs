//! Circuits that run as one stroke are marked, counted and listed; an open branch passes under other boxes.
mod help;
use help::svg::{attribute, away, content, parts, points, rect, rows, with};
use help::{made, root, sheet, Folder};
use std::collections::{BTreeSet, HashMap};
use std::fs;

/// The pairs of branches within half a millimetre of each other, or so close that their strokes touch, none of
/// them dashed, for five millimetres or more, found in steps of 0.05 mm.
fn close(sheet: &str, slack: f64) -> BTreeSet<(usize, usize)> {
    let wide = |e: &str| match attribute(e, "stroke-dasharray") {
        Some(_) => 0.0,
        None => attribute(e, "stroke-width").unwrap().parse::<f64>().unwrap(),
    };
    let widths: Vec<f64> = with(sheet, "data-branch").into_iter().map(wide).collect();
    let runs: Vec<(usize, Vec<Vec<[f64; 2]>>)> = with(sheet, "data-branch")
        .into_iter()
        .map(|e| (attribute(e, "data-branch").unwrap().parse().unwrap(), parts(e)))
        .collect();
    let bounds = |path: &[Vec<[f64; 2]>]| {
        let side = |axis: usize, by: fn(f64, f64) -> f64| path.iter().flatten().map(|p| p[axis]).reduce(by).unwrap();
        [side(0, f64::min) - 1.0, side(1, f64::min) - 1.0, side(0, f64::max) + 1.0, side(1, f64::max) + 1.0]
    };
    let boxes: Vec<[f64; 4]> = runs.iter().map(|(_, path)| bounds(path)).collect();
    let mut found = BTreeSet::new();
    for (i, (a, path)) in runs.iter().enumerate() {
        for (j, (b, other)) in runs.iter().enumerate() {
            let (p, q) = (boxes[i], boxes[j]);
            if a < b
                && p[0] < q[2]
                && q[0] < p[2]
                && p[1] < q[3]
                && q[1] < p[3]
                && longest(path, other, f64::max(0.5, (widths[i] + widths[j]) / 2.0)) >= 5.0 + slack
            {
                found.insert((*a, *b));
            }
        }
    }
    found
}

fn longest(path: &[Vec<[f64; 2]>], other: &[Vec<[f64; 2]>], far: f64) -> f64 {
    const STEP: f64 = 0.05;
    let (mut most, mut now) = (0.0_f64, 0.0);
    for part in path {
        now = 0.0_f64.min(now);
        for two in part.windows(2) {
            let long = ((two[1][0] - two[0][0]).powi(2) + (two[1][1] - two[0][1]).powi(2)).sqrt();
            let steps = (long / STEP).ceil() as usize;
            for s in 0..steps {
                let part = (s as f64 + 0.5) / steps as f64;
                let at = [two[0][0] + part * (two[1][0] - two[0][0]), two[0][1] + part * (two[1][1] - two[0][1])];
                let near = other.iter().flat_map(|part| part.windows(2)).any(|two| away(at, two[0], two[1]) <= far);
                now = if near { now + long / steps as f64 } else { 0.0 };
                most = most.max(now);
            }
        }
    }
    most
}

/// The pairs that the sheet marks.
fn marked(sheet: &str) -> BTreeSet<(usize, usize)> {
    let mut pairs = BTreeSet::new();
    for band in with(sheet, "data-stretch") {
        let list: Vec<usize> =
            attribute(band, "data-branches").unwrap().split(' ').map(|b| b.parse().unwrap()).collect();
        for (i, &a) in list.iter().enumerate() {
            pairs.extend(list[..i].iter().map(|&b| (a.min(b), a.max(b))));
        }
    }
    pairs
}

#[test]
fn every_stretch_is_marked() {
    let network = made(40);
    for (folder, options) in [
        (root().join("examples/forty"), &["--as-asked"][..]),
        (root().join("examples/forty"), &["--paper", "A3"]),
        (network.0.clone(), &[]),
        (network.0.clone(), &["--as-asked"]),
    ] {
        let (sheet, pages) = sheet(&folder, options);
        let (sure, marked) = (close(&sheet, 0.3), marked(&sheet));
        assert!(sure.is_subset(&marked), "{:?}", sure.difference(&marked));
        // Three circuits may be one stretch of which two are close for less.
        let stretches = with(&sheet, "data-stretch").len();
        let listed = pages
            .iter()
            .flat_map(|page| with(page, "data-together"))
            .filter(|e| attribute(e, "data-together").unwrap().ends_with(" 1"));
        assert_eq!(listed.count(), stretches);
        assert!(sheet.contains(&format!(">{stretches}</text>")), "the figures count them");
        let pairs: Vec<&str> = with(&sheet, "data-stretch")
            .into_iter()
            .filter(|e| attribute(e, "data-branches").unwrap().split(' ').count() == 2)
            .collect();
        let only = close(&sheet, -0.3);
        for pair in pairs {
            let list: Vec<usize> =
                attribute(pair, "data-branches").unwrap().split(' ').map(|b| b.parse().unwrap()).collect();
            assert!(only.contains(&(list[0], list[1])), "{pair}");
        }
    }
}

/// The two circuits of the example that its maker knows of.
#[test]
fn forty_marks_quayside_to_ferry_lane() {
    let (sheet, _) = sheet(&root().join("examples/forty"), &["--as-asked"]);
    let branches = rows(&fs::read_to_string(root().join("examples/forty/branches.csv")).unwrap());
    let both: Vec<usize> = (0..branches.len()).filter(|&i| branches[i]["name"].starts_with("QUA-FER 11 ")).collect();
    assert!(marked(&sheet).contains(&(both[0], both[1])));
    let said: Vec<String> = with(&sheet, "data-mark").into_iter().map(content).collect();
    assert!(said.contains(&format!("{}, {}", both[0] + 1, both[1] + 1)), "{said:?}");
    assert!(said.iter().filter(|text| text.starts_with("2 circuits")).count() >= 2);
}

/// Where two voltages run as one stroke, the stretch has dashes of both colours.
#[test]
fn both_colours_are_seen() {
    let network = made(40);
    let (sheet, _) = sheet(&network.0, &["--as-asked"]);
    let stroke: HashMap<&str, &str> = with(&sheet, "data-branch")
        .into_iter()
        .map(|e| (attribute(e, "data-branch").unwrap(), attribute(e, "stroke").unwrap()))
        .collect();
    let mut mixed = 0;
    for band in with(&sheet, "data-stretch") {
        let colours: BTreeSet<&str> = attribute(band, "data-branches").unwrap().split(' ').map(|b| stroke[b]).collect();
        let number = attribute(band, "data-stretch").unwrap();
        let dashes: Vec<&str> =
            with(&sheet, "data-shared").into_iter().filter(|e| attribute(e, "data-shared") == Some(number)).collect();
        let shown: BTreeSet<&str> = dashes.iter().map(|e| attribute(e, "stroke").unwrap()).collect();
        if colours.len() > 1 {
            mixed += 1;
            assert_eq!(shown, colours, "{band}");
            assert!(dashes[1..].iter().all(|e| attribute(e, "stroke-dasharray").is_some()));
            assert!(dashes.iter().all(|e| attribute(e, "d") == attribute(band, "d")));
        } else {
            assert!(dashes.is_empty(), "{band}");
        }
    }
    assert!(mixed >= 2, "the network has such stretches: {mixed}");
}

/// A straight open branch across a third station's box is drawn on both sides of it, and not on it; else it is led round it.
#[test]
fn an_open_branch_has_a_gap_at_other_boxes() {
    let folder = Folder::new("under");
    folder.write("buses.csv", b"name,substation,kv,x,y\nA,S,66,0,0\nB,M,66,1000,0\nC,T,66,2000,0\n");
    folder.write("branches.csv", b"name,from,to,in_service\nopen,A,C,0\nlive,A,B,1\nrest,B,C,1\n");
    let network = made(40);
    for folder in
        [folder.0.clone(), network.0.clone(), root().join("examples/works.txt"), root().join("examples/forty")]
    {
        gaps(&sheet(&folder, &["--paper", "A2"]).0);
    }
    for (options, count) in [(&["--paper", "A2", "--as-asked"][..], 2), (&["--paper", "A2"], 1)] {
        let (sheet, _) = sheet(&folder.0, options);
        let open = with(&sheet, "data-branch").into_iter().find(|e| attribute(e, "stroke-dasharray").is_some());
        assert_eq!(parts(open.unwrap()).len(), count, "{open:?}");
    }
}

fn gaps(sheet: &str) {
    let boxes: Vec<(&str, [f64; 4])> =
        with(sheet, "data-station").into_iter().map(|e| (attribute(e, "data-station").unwrap(), rect(e))).collect();
    for run in with(sheet, "data-branch").into_iter().filter(|e| attribute(e, "stroke-dasharray").is_some()) {
        let all = points(run);
        let ends = [all[0], all[all.len() - 1]];
        let inside = |p: [f64; 2], r: &[f64; 4], by: f64| {
            r[0] - by < p[0] && p[0] < r[2] + by && r[1] - by < p[1] && p[1] < r[3] + by
        };
        let foreign: Vec<&[f64; 4]> =
            boxes.iter().map(|(_, r)| r).filter(|r| !ends.iter().any(|&end| inside(end, r, 0.01))).collect();
        for piece in parts(run).iter().flat_map(|part| part.windows(2)) {
            for s in 0..=400 {
                let at = [0, 1].map(|axis| piece[0][axis] + (piece[1][axis] - piece[0][axis]) * f64::from(s) / 400.0);
                assert!(!foreign.iter().any(|r| inside(at, r, -0.3)), "{run} at {at:?}");
            }
        }
    }
}
