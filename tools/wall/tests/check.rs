//! Damaged runs: whichever is taken from a sheet, added to it or moved on it is found when the sheet is checked.
mod help;
use help::damage::{added, at, changed, points, runs, said, sheet, value, with_points, FORTY, INNER};
use help::{status, text, wall, wall_in, Folder, HERE};
use std::fs;
use std::path::Path;

#[test]
fn a_sheet_as_it_was_drawn() {
    let folder = Folder::new("whole");
    let path = folder.write("sheet.svg", sheet().join("\n").as_bytes());
    let output = wall(&["check", path.to_str().unwrap(), FORTY]);
    let expected =
        "ok: 40 boxes, 131 bars, 300 branches, 9 of them open; names left out: 0; places that may be misread: 0\n";
    assert_eq!((status(&output), text(&output.stdout), text(&output.stderr)), (0, expected.to_string(), String::new()));
    let small = Path::new(HERE).join("tests/networks/small");
    for (network, options) in
        [(small.to_str().unwrap(), &["--paper", "A4"][..]), ("examples/works.txt", &[]), (FORTY, &["--paper", "A4"])]
    {
        fs::write(&path, wall(&[&["draw", network, "-o", "-"], options].concat()).stdout).unwrap();
        let output = wall(&["check", path.to_str().unwrap(), network]);
        assert_eq!((status(&output), text(&output.stderr)), (0, String::new()), "{}", text(&output.stdout));
    }
}

/// Any one run that is missing is found, and named.
#[test]
fn every_run_that_is_removed() {
    let folder = Folder::new("removed");
    let all = [runs("lines"), runs("inside"), runs("open")].concat();
    assert_eq!(all.len(), 300);
    for i in all {
        let row = value(&sheet()[i], "data-branch").parse::<usize>().unwrap() + 2;
        changed(&folder, i, String::new(), &format!(", {FORTY}/branches.csv:{row} has no run"));
    }
}

/// A live run with both ends one row lower or higher is found: the row is another's, or its bar ends before.
#[test]
fn every_run_that_is_moved_by_one_row() {
    let folder = Folder::new("rows");
    let first = &sheet()[at("id=\"station-Kestrel_Moor\"")];
    let block = value(first, "width").parse::<f64>().unwrap()
        / 2.0
        / sheet().iter().filter(|l| l.contains("id=\"bus-Kestrel_Moor_")).count() as f64;
    for i in [runs("lines"), runs("inside")].concat().into_iter().step_by(3) {
        for by in [-block, block] {
            let moved: Vec<[f64; 2]> = points(&sheet()[i]).iter().map(|[x, y]| [*x, y + by]).collect();
            changed(&folder, i, with_points(&sheet()[i], &moved), ".csv:");
        }
    }
}

/// Two runs of a box that have changed rows end on each other's; one that ends between two rows is on none.
#[test]
fn rows_of_a_box() {
    let folder = Folder::new("rows-of-a-box");
    let [one, two] = ["id=\"branch-KES_T1\"", "id=\"branch-KES_T2\""].map(at);
    let (p, q) = (points(&sheet()[one]), points(&sheet()[two]));
    let level = |points: &[[f64; 2]], y: f64| points.iter().map(|[x, _]| [*x, y]).collect::<Vec<_>>();
    changed(&folder, one, with_points(&sheet()[one], &level(&p, q[0][1])), "ends on the row of");
    let between = level(&p, (p[0][1] + q[0][1]) / 2.0);
    changed(&folder, one, with_points(&sheet()[one], &between), "ends on no row of substation 'Kestrel Moor'");
}

/// A straight open run may have a gap under the box of another substation, and nowhere else.
#[test]
fn gaps_of_open_runs() {
    let folder = Folder::new("gaps");
    folder.write("buses.csv", b"name,substation,kv,x,y\nA,S,66,0,0\nB,T,66,100,0\nC,U,66,50,0\n");
    folder.write("branches.csv", b"name,from,to,in_service\nL,A,B,0\nM,A,C,1\nN,C,B,1\n");
    let drawn = text(&wall_in(&folder.0, &["draw", ".", "-o", "-", "--paper", "A3", "--as-asked"]).stdout);
    let run = drawn.lines().find(|line| line.contains("id=\"branch-L\"")).unwrap();
    let boxed = drawn.lines().find(|line| line.contains("id=\"station-U\"")).unwrap();
    let [left, wide] = ["x", "width"].map(|name| value(boxed, name).parse::<f64>().unwrap());
    let d = value(run, "d");
    let first = d.trim_start_matches('M').split(['L', 'M']).next().unwrap().split_once(' ').unwrap();
    let last = d.rsplit('L').next().unwrap().split_once(' ').unwrap();
    let y = |x: f64| {
        let [x0, y0, x1, y1] = [first.0, first.1, last.0, last.1].map(|v| v.parse::<f64>().unwrap());
        y0 + (y1 - y0) * (x - x0) / (x1 - x0)
    };
    let with_gap = |from: f64, to: f64| {
        let broken =
            format!("M{} {}L{from:.2} {:.2}M{to:.2} {:.2}L{} {}", first.0, first.1, y(from), y(to), last.0, last.1);
        folder.write("gap.svg", drawn.replace(run, &run.replace(d, &broken)).as_bytes());
        let output = wall_in(&folder.0, &["check", "gap.svg", "."]);
        (status(&output), text(&output.stdout))
    };
    assert_eq!(with_gap(left - 1.2, left + wide + 1.2).0, 0, "{}", with_gap(left, left + wide).1);
    let closed = format!("M{} {}L{} {}", first.0, first.1, last.0, last.1);
    folder.write("gap.svg", drawn.replace(run, &run.replace(d, &closed)).as_bytes());
    let output = wall_in(&folder.0, &["check", "gap.svg", "."]);
    let said = text(&output.stdout);
    assert!(status(&output) == 1 && said.contains("has no gap at the box of substation '"), "{said}");
    for (from, to) in [(left - 9.0, left - 5.0), (left - 1.2, left + wide + 5.0), (left + wide + 2.0, left - 2.0)] {
        let (found, said) = with_gap(from, to);
        assert!(found == 1 && said.contains("has a run in 2 stretches, not one"), "{said}");
    }
}

#[test]
fn runs_that_end_elsewhere() {
    let folder = Folder::new("ends");
    let lines = runs("lines");
    let (a, b) = (lines[0], lines[1]);
    let (one, two) = (points(&sheet()[a]), points(&sheet()[b]));
    let (p, q) = (one[one.len() - 1], two[two.len() - 1]);
    assert_ne!(p, q);
    let mut swapped = sheet().to_vec();
    swapped[a] = with_points(&sheet()[a], &[&one[..one.len() - 1], &[q]].concat());
    swapped[b] = with_points(&sheet()[b], &[&two[..two.len() - 1], &[p]].concat());
    let found = said(&folder, &swapped);
    assert_eq!(found.matches("which isn't on the bar of").count(), 2, "{found}");
    let backwards: Vec<[f64; 2]> = one.iter().rev().copied().collect();
    changed(&folder, a, with_points(&sheet()[a], &backwards), "which isn't on the bar of");
    changed(&folder, a, with_points(&sheet()[a], &one[..one.len() - 1]), "which isn't on the bar of");
    changed(&folder, a, with_points(&sheet()[a], &one[1..]), "which isn't on the bar of");
    let inner = at(INNER);
    let level = points(&sheet()[inner]);
    let bent = [level[0], [level[0][0] + 2.0, level[0][1] + 3.0], level[1]];
    changed(&folder, inner, with_points(&sheet()[inner], &bent), "and isn't level");
}

#[test]
fn runs_that_are_not_one_line() {
    let folder = Folder::new("broken");
    let i = at(INNER);
    let [p, q] = points(&sheet()[i])[..] else { panic!() };
    let third = |part: f64| format!("{:.2} {:.2}", p[0] + (q[0] - p[0]) * part, p[1]);
    let d = value(&sheet()[i], "d");
    let broken = d.replace('L', &format!("L{}M{}L", third(0.4), third(0.6)));
    changed(&folder, i, sheet()[i].replace(d, &broken), "has a run in 2 stretches, not one");
    changed(&folder, i, sheet()[i].replace(d, &format!("M{} {}", p[0], p[1])), "has a run without straight pieces");
    changed(&folder, i, sheet()[i].replace(d, &d.replace('L', "C1 1 2 2 ")), "has a run without straight pieces");
    added(&folder, i, sheet()[i].clone(), "a second run of branch 'KES T1'");
    added(&folder, i, sheet()[i].replace("branch-KES_T1", "branch-KES_T1.2"), "a second run of branch 'KES T1'");
    let extra = sheet()[i].replace("KES_T1", "KES_T99").replace("KES T1", "KES T99");
    added(&folder, i, extra.clone(), "the run of branch 'KES T1', examples/forty/branches.csv:4 is titled");
    let number = format!("data-branch=\"{}\"", value(&extra, "data-branch"));
    added(&folder, i, extra.replace(&number, "data-branch=\"300\""), "KES T99', which the network has none of");
    changed(&folder, i, sheet()[i].replace(INNER, "id=\"branch-KES_T2.2\""), "has the id 'branch-KES_T2.2'");
    let stroke = format!("stroke=\"{}\"", value(&sheet()[i], "stroke"));
    for unseen in [
        "stroke=\"none\"",
        "stroke=\"#ffffff\"",
        &format!("{stroke} display=\"none\""),
        &format!("{stroke} opacity=\"0\""),
    ] {
        changed(
            &folder,
            i,
            sheet()[i].replace(&stroke, unseen),
            "the run of branch 'KES T1', examples/forty/branches.csv:4 can't be seen",
        );
    }
    let group = at("<g id=\"lines\"");
    changed(&folder, group, sheet()[group].replace("<g ", "<g visibility=\"hidden\" "), "can't be seen");
}

#[test]
fn open_branches() {
    let folder = Folder::new("open");
    let open = runs("open");
    assert_eq!(open.len(), 9);
    for &i in &open {
        let number = value(&sheet()[i], "data-branch");
        let cross = at(&format!("data-cross=\"{number}\""));
        changed(&folder, cross, String::new(), "has no cross");
        let solid = sheet()[i].replace(" stroke-dasharray=", " data-was=");
        changed(&folder, i, solid, "is open, and its run isn't dashed");
    }
    let cross = at("data-cross=");
    let d = value(&sheet()[cross], "d").to_string();
    changed(
        &folder,
        cross,
        sheet()[cross].replace(&d, "M100 100L104 104M100 104L104 100"),
        "has its cross beside its run",
    );
    changed(&folder, cross, sheet()[cross].replace(&d, &d.replace("L", "L1")), "its cross");
    let [x, y] =
        points(d.split_once("M").unwrap().1.split('M').next().map(|d| format!(" d=\"M{d}\"")).as_ref().unwrap())[0];
    let speck = format!("M{x} {y}L{} {}", x + 0.2, y + 0.2);
    changed(&folder, cross, sheet()[cross].replace(&d, &speck), "has a cross that is too small to see");
    added(&folder, cross, sheet()[cross].clone(), "a second cross of");
    let live = at(INNER);
    let number = value(&sheet()[live], "data-branch");
    let extra = format!("<path data-cross=\"{number}\" d=\"{d}\" stroke=\"#d40000\"><title>KES T1</title></path>");
    added(&folder, cross, extra, "KES T1', which the network has none of");
    let dashed = sheet()[live].replace(" stroke=", " stroke-dasharray=\"2 1\" stroke=");
    changed(&folder, live, dashed, "is live, and its run is dashed");
}

/// A number of a branch at each end, as sheets may have them, in the places of two branches of one box.
#[test]
fn numbers() {
    let folder = Folder::new("numbers");
    let [one, two] = ["id=\"branch-KES_T1\"", "id=\"branch-KES_T2\""].map(at);
    let titled = |i: usize, number: &str| {
        let line = sheet()[i].clone();
        let name =
            line.split("<title>").nth(1).unwrap().split("</title>").next().unwrap().rsplit_once("KES ").unwrap().1;
        let old = line.split("<title>").nth(1).unwrap().split("</title>").next().unwrap();
        line.replace(&format!("<title>{old}<"), &format!("<title>{number} KES {name}<"))
    };
    let text = |i: usize, end: usize, number: &str, at: [f64; 2]| {
        let branch = value(&sheet()[i], "data-branch");
        let place = format!("x=\"{:.2}\" y=\"{:.2}\"", at[0] + 2.0, at[1] + 0.9);
        format!("<text {place} font-size=\"2.5\" data-number=\"{branch}\" data-end=\"{end}\">{number}</text>")
    };
    let (p, q) = (points(&sheet()[one]), points(&sheet()[two]));
    let with = |titles: [&str; 2], texts: &[String]| {
        let mut lines = sheet().to_vec();
        for i in [one, two] {
            let number = format!(" data-number=\"{}\"", value(&sheet()[i], "data-branch"));
            lines.retain(|line| !line.contains(&number));
        }
        for (i, title) in [one, two].into_iter().zip(titles) {
            let at = lines.iter().position(|line| *line == sheet()[i]).unwrap();
            lines[at] = titled(i, title);
            let (old, name) = (help::svg::title(&sheet()[i]), help::svg::title(&lines[at]));
            let [old, name] = [old, name].map(|title| title.replacen(' ', ",", 1));
            let list = lines.iter().position(|line| line.contains("<metadata")).unwrap();
            lines[list] = lines[list].replace(&format!(";{old},"), &format!(";{name},"));
        }
        let group = lines.iter().position(|line| line.contains("<g id=\"numbers\"")).unwrap();
        lines.insert(group + 1, texts.join("\n"));
        lines
    };
    let right =
        [(one, "901", &p), (two, "902", &q)].map(|(i, number, at)| [0, 1].map(|end| text(i, end, number, at[end])));
    let right = right.concat();
    let path = folder.write("right.svg", with(["901", "902"], &right).join("\n").as_bytes());
    let output = wall(&["check", path.to_str().unwrap(), FORTY]);
    assert_eq!(status(&output), 0, "{}", help::text(&output.stdout));
    for (titles, texts, expected) in [
        (["901", "902"], vec![text(one, 0, "902", p[0])], "has the number '902', which its title doesn't have"),
        (["901", "901"], vec![], "both have the number '901'"),
        (["901", "902"], vec![text(one, 0, "901", q[0])], "has its number '901' away from its place"),
        (["901", "902"], vec![text(one, 1, "901", p[0])], "has its number '901' away from its place"),
        (["901", "902"], vec![right[0].clone(), right[0].clone()], "has a second number at one place"),
        (
            ["901", "902"],
            vec![right[0].replace(" data-number=\"", " data-number=\"999")],
            "of a branch that has no run",
        ),
    ] {
        let found = said(&folder, &with(titles, &texts));
        assert!(found.contains(expected), "expected {expected:?} in:\n{found}");
    }
}
