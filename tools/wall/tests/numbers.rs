//! Every branch can be named from the paper: its number at its ends, the index, and the grid.
mod help;
use help::svg::{attribute, away, content, number, points, rect, rows, with};
use help::{made, root, sheet, status, text, wall_in, Folder};
use std::collections::{HashMap, HashSet};
use std::fs;
use std::path::Path;

const BUSES: &str = "name,substation,kv,x,y\nA,S,66,0,0\nB,T,66,900,500\nC,T,11,900,500\n";

/// A folder with three buses and these branches.
fn small(branches: &str) -> Folder {
    let folder = Folder::new("numbers");
    folder.write("buses.csv", BUSES.as_bytes());
    folder.write("branches.csv", branches.as_bytes());
    folder
}

/// Where a number's text touches its run: the middle of its side towards the anchor.
fn anchor(element: &str) -> [f64; 2] {
    [number(element, "x"), number(element, "y") - 0.365 * number(element, "font-size")]
}

/// On a sheet that leaves no number out, each end of a live run has its number, nearer to it than to any other run's end.
fn numbered(sheet: &str) {
    let mut ends: Vec<([f64; 2], &str)> = Vec::new();
    for run in with(sheet, "data-branch") {
        let path = points(run);
        ends.extend([path[0], path[path.len() - 1]].map(|end| (end, attribute(run, "data-branch").unwrap())));
    }
    let mut seen = HashSet::new();
    for element in with(sheet, "data-number").into_iter().filter(|e| attribute(e, "data-end").is_some()) {
        let (branch, at) = (attribute(element, "data-number").unwrap(), anchor(element));
        if attribute(element, "data-outside").is_some() {
            assert!(seen.insert((branch, attribute(element, "data-end").unwrap())), "{element}");
            on_its_run(sheet, element);
            continue;
        }
        let far = |end: [f64; 2]| away(at, end, end);
        // Open branches may share an end.
        let nearest = ends.iter().map(|end| far(end.0)).fold(f64::INFINITY, f64::min);
        assert!(ends.iter().any(|end| end.1 == branch && far(end.0) <= nearest + 0.01), "{element}");
        assert!(seen.insert((branch, attribute(element, "data-end").unwrap())), "{element}");
    }
    for run in with(sheet, "data-branch").into_iter().filter(|run| attribute(run, "stroke-dasharray").is_none()) {
        let branch = attribute(run, "data-branch").unwrap();
        assert!(["0", "1"].iter().all(|end| seen.contains(&(branch, *end))), "{run}");
    }
    for cross in with(sheet, "data-cross") {
        let branch = attribute(cross, "data-cross").unwrap();
        let beside = |e: &&str| attribute(e, "data-number") == Some(branch) && attribute(e, "data-end").is_none();
        assert_eq!(with(sheet, "data-number").into_iter().filter(beside).count(), 1, "{cross}");
    }
}

/// A number outside its box stands on its own run, nearer to the end that it is of than to the other.
fn on_its_run(sheet: &str, element: &str) {
    let branch = attribute(element, "data-number").unwrap();
    let run = with(sheet, "data-branch").into_iter().find(|e| attribute(e, "data-branch") == Some(branch)).unwrap();
    let (path, at) = (points(run), anchor(element));
    let key = format!("{branch} {}", attribute(element, "data-end").unwrap());
    let leader = with(sheet, "data-leads-to").into_iter().find(|e| attribute(e, "data-leads-to") == Some(&key));
    if let Some(leader) = leader {
        let (to, end) = (points(leader)[1], path[if key.ends_with(" 0") { 0 } else { path.len() - 1 }]);
        assert!(away(to, end, end) < 0.02, "{leader}");
        return;
    }
    let off = path.windows(2).map(|two| away(at, two[0], two[1])).fold(f64::INFINITY, f64::min);
    let ends = [path[0], path[path.len() - 1]].map(|end| away(at, end, end));
    let own = attribute(element, "data-end").unwrap().parse::<usize>().unwrap();
    assert!(off < 0.1 && ends[own] <= ends[1 - own], "{element}");
}

/// The cells of a table of the index, by the keys of its rows and by column; lines of one cell are joined.
fn cells(pages: &[&str], table: &str) -> HashMap<(String, usize), String> {
    let mut cells: HashMap<(String, usize), String> = HashMap::new();
    for element in pages.iter().flat_map(|page| with(page, table)) {
        let (row, column) = attribute(element, table).unwrap().split_once(' ').unwrap();
        let cell = cells.entry((row.to_string(), column.parse().unwrap())).or_default();
        if !cell.is_empty() {
            cell.push(' ');
        }
        cell.push_str(&content(element));
    }
    cells
}

/// An end of a run on the sheet, and the row of its box that it stands in, counted from the top.
struct End {
    station: usize,
    row: String,
}

/// The ends of all runs, by branch. Buses belong to stations as the rows of the export say.
fn ends(
    sheet: &str,
    buses: &[HashMap<String, String>],
    branches: &[HashMap<String, String>],
) -> HashMap<usize, [End; 2]> {
    let mut names: Vec<&str> = Vec::new();
    for bus in buses {
        if !names.contains(&bus["substation"].as_str()) {
            names.push(&bus["substation"]);
        }
    }
    let station = |bus: &str| {
        let bus = buses.iter().find(|row| row["name"] == bus).unwrap();
        names.iter().position(|name| *name == bus["substation"]).unwrap()
    };
    let mut heights: HashMap<usize, Vec<f64>> = HashMap::new();
    let mut found = Vec::new();
    for run in with(sheet, "data-branch") {
        let branch: usize = attribute(run, "data-branch").unwrap().parse().unwrap();
        let (path, live) = (points(run), branches[branch]["in_service"] == "1");
        let two = ["from", "to"].map(|end| station(&branches[branch][end]));
        let at = [path[0][1], path[path.len() - 1][1]];
        for end in 0..if live {
            if two[0] == two[1] {
                1
            } else {
                2
            }
        } else {
            0
        } {
            heights.entry(two[end]).or_default().push(at[end]);
        }
        found.push((branch, live, two, at));
    }
    let row = |station: usize, y: f64, live: bool| {
        let above = heights.get(&station).map_or(0, |list| list.iter().filter(|row| **row < y - 0.005).count());
        if live {
            (above + 1).to_string()
        } else {
            format!("{above}/{}", above + 1)
        }
    };
    let both =
        |two: [usize; 2], at: [f64; 2], live| [0, 1].map(|i| End { station: two[i], row: row(two[i], at[i], live) });
    found.into_iter().map(|(branch, live, two, at)| (branch, both(two, at, live))).collect()
}

/// On every sheet, each end has its number, or its box is marked and the index has its row there with the number.
fn named(folder: &Path, options: &[&str]) -> usize {
    let (sheet, pages) = sheet(folder, options);
    let all: Vec<&str> = std::iter::once(&sheet).chain(&pages).map(String::as_str).collect();
    let read = |name: &str| rows(&fs::read_to_string(folder.join(name)).unwrap());
    let branches = read("branches.csv");
    let (by_number, by_row) = (cells(&all, "data-index"), cells(&all, "data-row"));
    let shown: HashSet<(&str, Option<&str>)> = with(&sheet, "data-number")
        .into_iter()
        .map(|e| (attribute(e, "data-number").unwrap(), attribute(e, "data-end")))
        .collect();
    let marked: HashSet<&str> =
        with(&sheet, "data-counted").into_iter().map(|e| attribute(e, "data-station").unwrap()).collect();
    let mut by_rows = 0;
    for (branch, two) in ends(&sheet, &read("buses.csv"), &branches) {
        let key = branch.to_string();
        let inside = two[0].station == two[1].station;
        let joined = if inside && two[0].row == two[1].row {
            two[0].row.clone()
        } else {
            format!("{}–{}", two[0].row, two[1].row)
        };
        assert_eq!(by_number[&(key.clone(), 8)], joined, "{branch}");
        let open = branches[branch]["in_service"] != "1";
        let crossless = open && !shown.contains(&(key.as_str(), None));
        for (i, end) in two.iter().enumerate() {
            let there = shown.contains(&(key.as_str(), Some(["0", "1"][i]))) || open && inside;
            if there && !crossless {
                continue;
            }
            by_rows += 1;
            assert!(marked.contains(end.station.to_string().as_str()), "{branch}");
            let listed = if inside && !open { 0 } else { i };
            let cell = |column: usize| by_row[&(format!("{}:{branch}:{listed}", end.station), column)].as_str();
            assert_eq!((cell(0), cell(1)), (end.row.as_str(), by_number[&(key.clone(), 0)].as_str()), "{branch}");
        }
    }
    by_rows
}

/// The square of a station's box, counted from the grid's letters and numbers as they stand on the sheet.
fn square(sheet: &str, station: &str) -> String {
    let name = format!("<title>{station}</title>");
    let element = with(sheet, "data-station").into_iter().find(|e| e.contains(&name)).unwrap();
    let [left, top, right, bottom] = rect(element);
    let middle = [(left + right) / 2.0, (top + bottom) / 2.0];
    let nearest = |letters: bool| {
        let marks = with(sheet, "data-grid").into_iter().filter(|e| content(e).parse::<u8>().is_err() == letters);
        // Letters stand in one column, numbers in one row; on an upright page the other way round.
        let axis = usize::from(letters != upright(sheet));
        let far = |e: &&str| (number(e, "data-grid") - middle[axis]).abs();
        content(marks.min_by(|a, b| far(a).total_cmp(&far(b))).unwrap())
    };
    nearest(true) + &nearest(false)
}

fn upright(sheet: &str) -> bool {
    let svg = sheet.lines().nth(1).unwrap();
    let side = |name: &str| attribute(svg, name).unwrap().trim_end_matches("mm").parse::<f64>().unwrap();
    side("height") > side("width")
}

/// The index has every branch of the export with its buses, state and squares.
fn indexed(folder: &Path, options: &[&str]) {
    let (sheet, pages) = sheet(folder, options);
    let all: Vec<&str> = std::iter::once(&sheet).chain(&pages).map(String::as_str).collect();
    let cells = cells(&all, "data-index");
    let read = |name: &str| rows(&fs::read_to_string(folder.join(name)).unwrap());
    let (buses, branches) = (read("buses.csv"), read("branches.csv"));
    let station: HashMap<&str, &str> = buses.iter().map(|b| (b["name"].as_str(), b["substation"].as_str())).collect();
    let squares: HashMap<&str, String> =
        station.values().collect::<HashSet<_>>().into_iter().map(|s| (*s, square(&sheet, s))).collect();
    for (i, branch) in branches.iter().enumerate() {
        let cell = |column: usize| cells[&(i.to_string(), column)].as_str();
        assert_eq!(cell(0), branch.get("number").cloned().unwrap_or((i + 1).to_string()));
        for (column, name) in [(1, "name"), (2, "from"), (3, "to")] {
            assert_eq!(cell(column).replace(' ', ""), branch[name].replace(' ', ""));
        }
        let (a, b) = (station[branch["from"].as_str()], station[branch["to"].as_str()]);
        assert_eq!(cell(5), if a == b { "inside" } else { "line" });
        assert_eq!(cell(6), if branch["in_service"] == "1" { "live" } else { "open" });
        let there = if a == b { squares[a].clone() } else { format!("{}–{}", squares[a], squares[b]) };
        assert_eq!(cell(7), there, "{branch:?}");
    }
    assert_eq!(cells.keys().map(|(row, _)| row).collect::<HashSet<_>>().len(), branches.len());
}

#[test]
fn forty_has_all_its_numbers() {
    for paper in ["A0", "A1"] {
        numbered(&sheet(&root().join("examples/forty"), &["--paper", paper]).0);
    }
}

#[test]
fn the_index_has_every_branch() {
    indexed(&root().join("examples/forty"), &[]);
    indexed(&made(40).0, &["--paper", "A2"]);
    indexed(&made(400).0, &["--paper", "A0"]);
    indexed(&small("name,from,to,in_service\nL1,A,B,1\nT1,B,C,1\n").0, &["--paper", "A3"]);
}

/// Where paper has no room for a number, the branch is found by its row.
#[test]
fn every_end_is_named() {
    let forty = root().join("examples/forty");
    assert_eq!(named(&forty, &["--paper", "A1"]), 0);
    for (folder, paper, least) in
        [(&forty, "A3", 40), (&forty, "A4", 100), (&made(40).0, "A3", 10), (&made(400).0, "A0", 100)]
    {
        let by_row = named(folder, &["--paper", paper]);
        assert!(by_row > least, "{paper} {by_row}");
    }
}

/// The check finds a number that isn't there, and bands that would be counted wrongly.
#[test]
fn what_is_left_out_is_checked() {
    let (folder, forty) = (Folder::new("left"), root().join("examples/forty"));
    let drawn = sheet(&forty, &["--paper", "A3"]).0;
    let said = |text: String| {
        folder.write("sheet.svg", text.as_bytes());
        text_of_check(&folder, &forty)
    };
    let lines: Vec<&str> = drawn.lines().collect();
    let without = |line: &str| lines.iter().filter(|l| **l != line).map(|l| format!("{l}\n")).collect::<String>();
    assert!(said(drawn.clone()).lines().any(|line| line.starts_with("ok: ")));
    let marked = with(&drawn, "data-counted");
    let bare: HashSet<&str> = with(&drawn, "data-station")
        .into_iter()
        .filter(|e| !marked.contains(e))
        .map(|e| attribute(e, "data-station").unwrap())
        .collect();
    let free = |e: &&str| attribute(e, "data-of").is_some_and(|of| bare.contains(of));
    if let Some(number) = with(&drawn, "data-number").into_iter().find(free) {
        assert!(said(without(number)).contains("has no number in substation '"));
    }
    let unmarked = drawn.replacen(" data-counted=\"1\"", "", 1);
    let found = said(unmarked);
    assert!(found.contains("has no number in substation '") && found.contains("aren't every other five of its rows"));
    let band = with(&drawn, "data-five")[0];
    assert!(said(without(band)).contains("has bands that aren't every other five of its rows"));
    let y = number(band, "y");
    let moved = band.replace(&format!(" y=\"{}\"", attribute(band, "y").unwrap()), &format!(" y=\"{}\"", y + 1.5));
    assert!(said(drawn.replace(band, &moved)).contains("has bands that aren't every other five of its rows"));
}

fn text_of_check(folder: &Folder, network: &Path) -> String {
    text(&wall_in(&folder.0, &["check", "sheet.svg", network.canonicalize().unwrap().to_str().unwrap()]).stdout)
}

/// A number that isn't there is found where all have room, as is one at a cross.
#[test]
fn a_missing_number_is_found() {
    let (folder, forty) = (Folder::new("missing"), root().join("examples/forty"));
    let drawn = sheet(&forty, &[]).0;
    let numbers = with(&drawn, "data-number");
    let cross = numbers.iter().find(|e| attribute(e, "data-end").is_none()).unwrap();
    for (element, expected) in [(numbers[7], "has no number in substation '"), (*cross, "has no number at its cross")] {
        folder.write("sheet.svg", drawn.replace(element, "").as_bytes());
        assert!(text_of_check(&folder, &forty).contains(expected));
    }
}

/// A number at a cross stands beside it, not somewhere on its run, or a line leads from it there.
#[test]
fn numbers_at_crosses() {
    let (folder, network) = (Folder::new("crosses"), made(40));
    let drawn = sheet(&network.0, &["--paper", "A3"]).0;
    let check = |changed: &str| {
        assert_ne!(changed, drawn);
        folder.write("sheet.svg", changed.as_bytes());
        text_of_check(&folder, &network.0)
    };
    let led: Vec<&str> = with(&drawn, "data-leads-to").into_iter().filter(|e| e.contains(" cross\"")).collect();
    assert!(!led.is_empty());
    assert!(check(&drawn.replace(led[0], "")).contains("away from its place"));
    let along = with(&drawn, "data-cross").into_iter().find_map(|cross| {
        let branch = attribute(cross, "data-cross")?;
        let own = |e: &&&str| attribute(e, "data-number") == Some(branch) && attribute(e, "data-end").is_none();
        let numbers = with(&drawn, "data-number");
        let number = *numbers.iter().find(own)?;
        let run = with(&drawn, "data-branch").into_iter().find(|e| attribute(e, "data-branch") == Some(branch))?;
        let (ends, at) = (points(run), points(cross)[0]);
        let far = |p: &[f64; 2]| (p[0] - at[0]).hypot(p[1] - at[1]);
        let end = *ends.iter().max_by(|a, b| far(a).total_cmp(&far(b)))?;
        let [x, y] = [0, 1].map(|axis| at[axis] + (end[axis] - at[axis]) * 0.9);
        let place = |x: &str, y: &str| format!(" x=\"{x}\" y=\"{y}\"");
        let old = place(attribute(number, "x")?, attribute(number, "y")?);
        let new = place(&format!("{x:.2}"), &format!("{y:.2}"));
        (far(&end) > 40.0).then(|| drawn.replace(number, &number.replace(&old, &new)))
    });
    assert!(check(&along.unwrap()).contains("away from its place"));
    let label = with(&drawn, "data-mark").into_iter().find(|e| content(e).contains(", ")).unwrap();
    let said = check(&drawn.replace(label, &label.replace(", ", ", 9")));
    assert!(said.contains("hasn't the numbers of the circuits of its band"), "{said}");
}

/// Numbers that the export gives are in order in the index.
#[test]
fn the_index_is_in_the_order_of_its_numbers() {
    let folder = small("number,name,from,to,in_service\n12,L1,A,B,1\nK2,T1,B,C,1\n3,L2,A,B,0\nK10,L3,A,C,1\n");
    let (drawn, _) = sheet(&folder.0, &["--paper", "A3"]);
    let first = |e: &&str| attribute(e, "data-index").is_some_and(|key| key.ends_with(" 0"));
    let listed: Vec<String> = with(&drawn, "data-index").into_iter().filter(first).map(content).collect();
    assert_eq!(listed, ["3", "12", "K2", "K10"]);
}

#[test]
fn a_small_index_stands_on_the_sheet() {
    let folder = small("name,from,to,in_service\nL1,A,B,1\nT1,B,C,1\nL2,A,B,0\n");
    let (drawn, pages) = sheet(&folder.0, &["--paper", "A3"]);
    assert_eq!((pages.len(), cells(&[&drawn], "data-index").len()), (0, 27));
    numbered(&drawn);
}

#[test]
fn given_numbers_are_used() {
    let folder = small("number,name,from,to,in_service\nF7,L1,A,B,1\nK-2,T1,B,C,0\n");
    let (drawn, _) = sheet(&folder.0, &["--paper", "A3"]);
    let shown: HashSet<String> = with(&drawn, "data-number").into_iter().map(content).collect();
    assert_eq!(shown, HashSet::from(["F7".to_string(), "K-2".to_string()]));
    for (rows, expected) in [
        ("F7,L1,A,B,1\nF7,L2,A,B,1\n", "3:1: expected a name that no other row has; 'F7' stands in line 2 too"),
        (",L1,A,B,1\n", "2:1: expected a branch's number, found nothing"),
        ("1234567,L1,A,B,1\n", "2:1: expected a number of at most 6 letters, digits and signs, found '1234567'"),
        ("1 2,L1,A,B,1\n", "2:1: expected a number of at most 6 letters, digits and signs, found '1 2'"),
    ] {
        folder.write("branches.csv", format!("number,name,from,to,in_service\n{rows}").as_bytes());
        let output = wall_in(&folder.0, &["draw", ".", "-o", "sheet.svg"]);
        assert_eq!((status(&output), text(&output.stderr)), (2, format!("wall: ./branches.csv:{expected}\n")));
    }
}

/// Pages of an earlier index that aren't the sheet's are said, and a page of the index on a paper of its own.
#[test]
fn pages_of_the_index() {
    let folder = made(40);
    folder.write("sheet-index-9.svg", b"old");
    let draw =
        |paper: &str| text(&wall_in(&folder.0, &["draw", ".", "-o", "sheet.svg", "--index-paper", paper]).stderr);
    draw("A4");
    let pages = folder.files().iter().filter(|name| name.starts_with("sheet-index")).count();
    assert!(pages > 5, "{pages}");
    assert!(draw("A0").contains("note: sheet-index-2.svg is there from an earlier run and isn't part of this sheet\n"));
}
