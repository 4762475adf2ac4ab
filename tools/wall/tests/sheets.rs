//! Golden sheets, and what a sheet says beside its network.
mod help;
use help::svg::{attribute, away, points, title};
use help::{root, svg, text, wall, Folder, HERE};
use std::collections::HashMap;
use std::fs;
use std::path::Path;

const FORTY: [&str; 3] = ["examples/forty", "--title", "Kestrel and Saltmarsh, 66 and 11 kV"];

/// The pages of a network's sheet, drawn twice, once from another folder.
fn drawn(network: &Path, options: &[&str]) -> Vec<String> {
    let (sheet, index) = help::sheet(network, options);
    let pages = [vec![sheet], index].concat();
    let folder = Folder::new("twice");
    let link = folder.0.join(network.file_name().unwrap());
    std::os::unix::fs::symlink(network.canonicalize().unwrap(), &link).unwrap();
    let (sheet, index) = help::sheet(&link, options);
    assert!(pages == [vec![sheet], index].concat());
    pages
}

/// The pages are those of stored files: sheet.svg, sheet-index.svg, sheet-index-2.svg.
fn stored(pages: &[String], sheet: &Path) {
    let stem = sheet.to_str().unwrap().strip_suffix(".svg").unwrap();
    let name = |i: usize| match i {
        0 => format!("{stem}.svg"),
        1 => format!("{stem}-index.svg"),
        _ => format!("{stem}-index-{i}.svg"),
    };
    pages.iter().enumerate().for_each(|(i, page)| same(page, Path::new(&name(i))));
    assert!(!Path::new(&name(pages.len())).exists());
}

fn same(sheet: &str, golden: &Path) {
    let want = fs::read_to_string(golden).unwrap();
    let differs = sheet.lines().zip(want.lines()).find(|(a, b)| a != b);
    assert!(sheet == want, "{} differs: {differs:?}", golden.display());
}

#[test]
fn forty() {
    stored(&drawn(&root().join(FORTY[0]), &FORTY[1..]), &root().join("examples/forty/sheet.svg"));
}

#[test]
fn small() {
    let network = Path::new(HERE).join("tests/networks/small");
    let pages = drawn(&network, &["--paper", "a4", "--title", "Small & \"odd\""]);
    stored(&pages, &Path::new(HERE).join("tests/golden/small.svg"));
}

fn rows(file: &str) -> Vec<HashMap<String, String>> {
    svg::rows(&fs::read_to_string(root().join(file)).unwrap())
}

/// On the sheet itself, every branch ends at the bars of its two buses, and only open ones are dashed.
#[test]
fn every_branch_ends_at_its_bars() {
    let sheet = fs::read_to_string(root().join("examples/forty/sheet.svg")).unwrap();
    let elements = |mark: &str| sheet.lines().filter(|line| line.contains(mark)).collect::<Vec<_>>();
    let bars: HashMap<String, Vec<[f64; 2]>> =
        elements(" data-bus=").into_iter().map(|e| (title(e), points(e))).collect();
    let name = |e: &str| title(e).split_once(' ').unwrap().1.to_string();
    let runs: HashMap<String, &str> = elements(" data-branch=").into_iter().map(|e| (name(e), e)).collect();
    let branches = rows("examples/forty/branches.csv");
    assert_eq!((bars.len(), runs.len()), (rows("examples/forty/buses.csv").len(), branches.len()));
    for branch in &branches {
        let run = runs[&branch["name"]];
        let path = points(run);
        for (end, bus) in [(path[0], &branch["from"]), (path[path.len() - 1], &branch["to"])] {
            let bar = &bars[bus];
            assert!((end[0] - bar[0][0]).abs() < 0.011 && bar[0][1] <= end[1] && end[1] <= bar[1][1], "{run}");
        }
        assert_eq!(attribute(run, "stroke-dasharray").is_some(), branch["in_service"] == "0");
    }
    let crosses = elements(" data-cross=").into_iter().map(title).collect::<Vec<_>>();
    let open: Vec<String> = branches.iter().filter(|b| b["in_service"] == "0").map(|b| b["name"].clone()).collect();
    assert_eq!((crosses.clone(), crosses.len()), (open, 9));
}

#[test]
fn the_example_has_forty_substations_and_three_hundred_branches() {
    let (buses, branches) = (rows("examples/forty/buses.csv"), rows("examples/forty/branches.csv"));
    let stations: std::collections::HashSet<&String> = buses.iter().map(|b| &b["substation"]).collect();
    assert_eq!((stations.len(), branches.len()), (40, 300));
    assert!(buses.iter().all(|b| b["kv"] == "66" || b["kv"] == "11"));
}

#[test]
fn papers_have_their_sizes() {
    for (paper, size) in [
        ("A0", ["1189mm", "841mm"]),
        ("A1", ["841mm", "594mm"]),
        ("A2", ["594mm", "420mm"]),
        ("A3", ["420mm", "297mm"]),
        ("A4", ["297mm", "210mm"]),
    ] {
        let output = wall(&["draw", FORTY[0], "-o", "-", "--paper", paper]);
        let sheet = text(&output.stdout);
        let svg = sheet.lines().nth(1).unwrap();
        assert_eq!([attribute(svg, "width").unwrap(), attribute(svg, "height").unwrap()], size);
    }
}

#[test]
fn the_sheet_says_which_export_it_shows() {
    let sheet = fs::read_to_string(root().join("examples/forty/sheet.svg")).unwrap();
    let audit = text(&wall(&["audit", FORTY[0]]).stdout);
    for file in ["buses.csv", "branches.csv"] {
        let line = audit.lines().find(|line| line.starts_with(&format!("SHA-256 of {file}"))).unwrap();
        let sum = line.split_whitespace().last().unwrap();
        assert!(sheet.contains(&format!(">{file}: SHA-256 {sum}…</text>")));
        assert!(sheet.contains(&format!("<desc>{file} SHA-256 {sum}")));
    }
}

/// No lettering is smaller than 2.5 mm, on any paper.
#[test]
fn text_can_be_read() {
    for paper in ["A0", "A2", "A4"] {
        let sheet = text(&wall(&["draw", FORTY[0], "-o", "-", "--paper", paper]).stdout);
        let sizes =
            sheet.lines().filter_map(|line| attribute(line, "font-size")).map(|size| size.parse::<f64>().unwrap());
        assert!(sizes.fold(f64::INFINITY, f64::min) >= 2.5);
    }
}

#[test]
fn names_left_out_are_counted() {
    let output = wall(&["draw", FORTY[0], "-o", "-", "--paper", "A4"]);
    let said = text(&output.stderr);
    for note in [
        "wall: note: names left out for want of room: 131; the index has them, and a larger paper has more room\n",
        "wall: note: numbers of branches left out for want of room: ",
        "wall: note: pages of the index not written to standard output: ",
    ] {
        assert!(said.contains(note), "{said}");
    }
    let sheet = text(&output.stdout);
    let rows: Vec<&str> = sheet.lines().collect();
    let after = |name: &str| {
        let at = rows.iter().position(|row| row.contains(&format!(">{name}</text>"))).unwrap();
        svg::content(rows[at + 1])
    };
    let short = svg::with(&sheet, "data-of").into_iter().filter(|e| svg::content(e).contains('…')).count();
    assert_eq!((after("Names left out"), after("Names shortened")), ("131".to_string(), short.to_string()));
    assert!(said.contains(&format!("numbers of branches left out for want of room: {};", after("Numbers left out"))));
    let said = text(&wall(&["draw", FORTY[0], "-o", "-"]).stderr);
    assert!(!said.contains("left out"), "nothing on A1: {said}");
}

/// The end of an open branch isn't where a live one runs or is joined.
#[test]
fn open_branches_lie_on_no_live_one() {
    for network in [FORTY[0], "examples/works.txt"] {
        let sheet = text(&wall(&["draw", network, "-o", "-"]).stdout);
        let runs = sheet.lines().filter(|line| line.contains(" data-branch="));
        let (open, live): (Vec<&str>, Vec<&str>) = runs.partition(|run| run.contains(" stroke-dasharray="));
        let path = |run: &&str| points(run);
        let live: Vec<Vec<[f64; 2]>> = live.iter().map(path).collect();
        for end in open.iter().map(path).flat_map(|path| [path[0], path[path.len() - 1]]) {
            // Rows only: a routed line may come near a bar on its way.
            let rows = live.iter().flat_map(|path| path.windows(2)).filter(|two| two[0][1] == two[1][1]);
            assert!(rows.map(|two| away(end, two[0], two[1])).fold(f64::INFINITY, f64::min) > 1.0, "{network} {end:?}");
        }
    }
}

/// The pieces that `wall list` gives, by branch: role and points.
fn listed(words: &[&str]) -> HashMap<String, (String, Vec<[f64; 2]>)> {
    let float = |digits: &str| f64::from_bits(u64::from_str_radix(digits, 16).unwrap());
    let mut runs: HashMap<String, (String, Vec<[f64; 2]>)> = HashMap::new();
    for line in text(&wall(words).stdout).lines().skip(1) {
        let fields: Vec<&str> = line.split(' ').collect();
        let run = runs.entry(fields[0].to_string()).or_insert((fields[1].to_string(), Vec::new()));
        let ends = [[float(fields[2]), float(fields[3])], [float(fields[4]), float(fields[5])]];
        run.1.extend(&ends[usize::from(!run.1.is_empty())..]);
    }
    runs
}

/// As asked, the sheet shows the library's pieces, moved and scaled as a whole and not otherwise; a run that passes under a
/// box isn't whole.
#[test]
fn the_sheet_shows_the_pieces_that_list_gives() {
    let runs = listed(&["list", FORTY[0], "--fill", "0.8", "--iterations", "10", "--tier-radius", "0"]);
    let sheet = text(&wall(&["draw", FORTY[0], "-o", "-", "--as-asked"]).stdout);
    let mut pairs = Vec::new();
    for run in sheet.lines().filter(|line| line.contains(" data-branch=")) {
        let (role, given) = &runs[attribute(run, "data-branch").unwrap()];
        let shown = svg::parts(run);
        if role != "2" && shown.len() == 1 {
            assert_eq!(given.len(), shown[0].len(), "{run}");
            pairs.extend(given.iter().copied().zip(shown[0].clone()));
        }
    }
    let (first, last) = pairs.iter().fold((pairs[0], pairs[0]), |(low, high), &pair| {
        (if pair.0[0] < low.0[0] { pair } else { low }, if pair.0[0] > high.0[0] { pair } else { high })
    });
    let scale = (last.1[0] - first.1[0]) / (last.0[0] - first.0[0]);
    for (given, shown) in &pairs {
        for axis in [0, 1] {
            let expected = first.1[axis] + (given[axis] - first.0[axis]) * scale;
            assert!((expected - shown[axis]).abs() < 0.03, "{given:?} {shown:?}");
        }
    }
    assert!(pairs.len() > 700, "{}", pairs.len());
}
