//! Labels tell apart what they name; names that can't be told apart are said.
mod help;
use help::svg::{attribute, content, with};
use help::{made, root, sheet, status, text, wall_in, Folder};
use std::collections::{HashMap, HashSet};
use std::fs;

const BRANCHES: &[u8] = b"name,from,to,in_service\n";

fn folder(buses: &str) -> Folder {
    let folder = Folder::new("names");
    folder.write("buses.csv", format!("name,substation,kv,x,y\n{buses}").as_bytes());
    folder.write("branches.csv", BRANCHES);
    folder
}

/// No box has two bars with one text.
fn told_apart(sheet: &str) {
    let mut seen = HashSet::new();
    for label in with(sheet, "data-label") {
        assert!(seen.insert((attribute(label, "data-of").unwrap(), content(label))), "{label}");
    }
    assert!(!seen.is_empty());
}

#[test]
fn bars_of_a_box_never_have_one_text() {
    told_apart(&sheet(&made(40).0, &[]).0);
    told_apart(&sheet(&made(400).0, &["--paper", "A0", "--fill", "1.2"]).0);
    told_apart(&sheet(&root().join("examples/forty"), &[]).0);
    let three = folder("Busbar-A-1,S,66,0,0\nBusbar-B-1,S,66,0,0\nBusbar-C-1,S,66,0,0\nX,T,66,9,9\n");
    told_apart(&sheet(&three.0, &["--paper", "A4", "--fill", "0.3", "--allow-empty"]).0);
}

/// What isn't shown in full stands in the index with its full name.
#[test]
fn short_names_are_listed_in_full() {
    let network = made(40);
    let names: Vec<String> = fs::read_to_string(network.0.join("buses.csv"))
        .unwrap()
        .lines()
        .skip(1)
        .map(|line| line.split(',').next().unwrap().to_string())
        .collect();
    let (sheet, pages) = sheet(&network.0, &["--paper", "A2"]);
    let mut rows: HashMap<&str, Vec<String>> = HashMap::new();
    for element in pages.iter().flat_map(|page| with(page, "data-full")) {
        let (row, column) = attribute(element, "data-full").unwrap().split_once(' ').unwrap();
        let cells = rows.entry(row).or_insert_with(|| vec![String::new(); 4]);
        let cell = &mut cells[column.parse::<usize>().unwrap()];
        *cell = format!("{cell} {}", content(element)).trim().to_string();
    }
    let labels: HashMap<&str, String> =
        with(&sheet, "data-label").into_iter().map(|e| (attribute(e, "data-label").unwrap(), content(e))).collect();
    let mut short = 0;
    for (i, name) in names.iter().enumerate() {
        let (key, label) = (format!("b{i}"), labels.get(i.to_string().as_str()));
        if label.is_some_and(|label| !label.contains('…') && !label.starts_with('#')) {
            continue;
        }
        short += 1;
        assert_eq!((&rows[key.as_str()][1], &rows[key.as_str()][2]), (label.unwrap_or(&"left out".to_string()), name));
    }
    assert!(short > 20, "{short}");
}

#[test]
fn names_that_are_printed_the_same_are_refused() {
    for (a, b, shown) in [
        ("Bay 1", "Bay  1", "'Bay  1'"),
        ("Bay 1", "Bay\u{A0}1", "'Bay<U+00A0>1'"),
        ("Bay1", "Bay\u{200B}1", "'Bay<U+200B>1'"),
        ("Bay12", "Bay\u{202E}12", "'Bay<U+202E>12'"),
    ] {
        let folder = folder(&format!("{a},S,66,0,0\n{b},S,66,0,0\n"));
        let output = wall_in(&folder.0, &["draw", ".", "-o", "sheet.svg"]);
        let said = format!("wall: ./buses.csv:3:1: expected names that look different: buses '{a}', ./buses.csv:2, and {shown}, ./buses.csv:3\n");
        assert_eq!((status(&output), text(&output.stderr)), (2, said));
    }
    let stations = folder("A,North Yard,66,0,0\nB,North\u{2009}Yard,66,0,0\n");
    let output = wall_in(&stations.0, &["audit", "."]);
    assert!(text(&output.stderr)
        .contains("substations 'North Yard', ./buses.csv:2, and 'North<U+2009>Yard', ./buses.csv:3"));
    let branches = folder("A,S,66,0,0\nB,T,66,9,9\n");
    branches.write("branches.csv", b"name,from,to,in_service\nL 1,A,B,1\nL  1,A,B,1\n");
    assert_eq!(status(&wall_in(&branches.0, &["audit", "."])), 2);
}

#[test]
fn names_that_are_easily_misread_are_said() {
    for (a, b) in [("Bay a", "Bay A"), ("Bay 0", "Bay O"), ("\u{5D0}12", "12\u{5D0}"), ("A1", "\u{410}1")] {
        let folder = folder(&format!("{a},S,66,0,0\n{b},S,66,0,0\n"));
        let output = wall_in(&folder.0, &["audit", ".", "--allow-empty"]);
        let alike = format!("wall: note: names look alike: buses '{a}', ./buses.csv:2, and '{b}', ./buses.csv:3\n");
        let said = format!("{alike}wall: note: buses without a branch: 2: '{a}', '{b}'\n");
        assert_eq!((status(&output), text(&output.stderr)), (0, said));
    }
}

/// Characters that turn the direction are nowhere on the sheet: not in labels, titles or the index.
#[test]
fn directions_are_shown_as_escapes() {
    let folder = folder("Bay\u{202E}1,Sub\u{2066}1,66,0,0\nB,T,66,9,9\n");
    folder.write("branches.csv", "name,from,to,in_service\nL\u{200F}1,Bay\u{202E}1,B,1\n".as_bytes());
    let (sheet, _) = sheet(&folder.0, &["--paper", "A3", "--title", "Plan \u{202D}B"]);
    for shown in ["Bay&lt;U+202E&gt;1", "Sub&lt;U+2066&gt;1", "L&lt;U+200F&gt;1", "Plan &lt;U+202D&gt;B"] {
        assert!(sheet.contains(shown), "{shown}");
    }
    assert!(!sheet.contains(['\u{202E}', '\u{2066}', '\u{200F}', '\u{202D}']));
}
