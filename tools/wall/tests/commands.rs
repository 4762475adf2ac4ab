//! The three commands, their exit statuses and what they print.
mod help;
use help::{root, status, text, wall, wall_in, Folder, HERE};
use std::fs;
use std::io::Write;
use std::path::Path;
use std::process::{Command, Stdio};

/// Two substations on one point: without a search their boxes overlap.
const BUSES: &[u8] = b"name,substation,kv,x,y\nA,S,66,0,0\nB,T,66,0,0\n";
const BRANCHES: &[u8] = b"name,from,to,in_service\nL,A,B,1\n";

fn overlapping(name: &str) -> Folder {
    let folder = Folder::new(name);
    folder.write("buses.csv", BUSES);
    folder.write("branches.csv", BRANCHES);
    folder
}

#[test]
fn help_and_version() {
    for words in [&["--help"][..], &["-h"], &["help"], &["draw", "--help"], &["audit", "x", "-h"]] {
        let output = wall(words);
        assert_eq!(status(&output), 0);
        assert!(text(&output.stdout).contains("wall draw NETWORK -o FILE"));
    }
    assert_eq!(text(&wall(&["--version"]).stdout), format!("wall {}\n", env!("CARGO_PKG_VERSION")));
    let output = wall(&[]);
    assert_eq!(
        (status(&output), text(&output.stderr)),
        (2, "wall: expected a command: draw, audit, list, compare or check\nTry 'wall --help'.\n".to_string())
    );
}

#[test]
fn list_is_what_drawlist_prints() {
    let want = fs::read_to_string(Path::new(HERE).join("tests/golden/works.list")).unwrap();
    assert_eq!(text(&wall(&["list", "examples/works.txt"]).stdout), want);
    let mut child = Command::new(env!("CARGO_BIN_EXE_wall"))
        .args(["list", "-"])
        .stdin(Stdio::piped())
        .stdout(Stdio::piped())
        .spawn()
        .unwrap();
    child.stdin.take().unwrap().write_all(&fs::read(root().join("examples/works.txt")).unwrap()).unwrap();
    assert_eq!(text(&child.wait_with_output().unwrap().stdout), want);
}

#[test]
fn list_has_no_limit_of_64() {
    let output = wall(&["list", "examples/forty"]);
    let list = text(&output.stdout);
    let mut branches: Vec<&str> = list.lines().skip(1).map(|line| line.split(' ').next().unwrap()).collect();
    branches.sort();
    branches.dedup();
    assert_eq!((status(&output), branches.len()), (0, 300));
}

#[test]
fn list_prints_a_refusal_as_drawlist_does() {
    let folder = Folder::new("refusal");
    folder.write("net.txt", b"sub kv x y\n");
    let output = wall_in(&folder.0, &["list", "net.txt"]);
    assert_eq!((status(&output), text(&output.stdout)), (2, "refused 14\n".to_string()));
    folder.write("net.txt", b"sub kv x y\n5 0000000000000000 0000000000000000 0000000000000000\nfrom to live\n");
    let output = wall_in(&folder.0, &["list", "net.txt"]);
    assert_eq!((status(&output), text(&output.stdout)), (2, "refused 4\n".to_string()));
}

#[test]
fn strict_is_1_where_boxes_overlap() {
    let folder = overlapping("strict");
    for (words, expected) in [
        (&["audit", ".", "--search", "0"][..], 0),
        (&["audit", ".", "--search", "0", "--strict"], 1),
        (&["audit", ".", "--strict"], 0),
        (&["draw", ".", "-o", "sheet.svg", "--search", "0", "--strict"], 1),
    ] {
        assert_eq!(status(&wall_in(&folder.0, words)), expected, "{words:?}");
    }
    assert!(folder.files().contains(&"sheet.svg".to_string()), "drawn all the same");
    assert!(text(&wall_in(&folder.0, &["audit", ".", "--search", "0"]).stdout)
        .contains("Overlapping boxes              1\n"));
}

#[test]
fn audit_prints_its_figures() {
    let output = wall(&["audit", "examples/forty"]);
    let report = text(&output.stdout);
    for row in [
        "Network                        forty\n",
        "Substations                    40\n",
        "Branches                       300\n",
        "Open                           9\n",
        "Overlapping boxes              0\n",
    ] {
        assert!(report.contains(row), "{report}");
    }
    assert_eq!((status(&output), text(&output.stderr)), (0, String::new()));
}

#[test]
fn networks_without_much_in_them() {
    let folder = Folder::new("few");
    folder.write("branches.csv", b"name,from,to,in_service\n");
    for buses in ["", "A,S,66,5,5\n", "A,S,66,,\n", "A,S,66,0,0\nB,S,66,0,0\n", "A,S,66,0,0\nB,T,66,3,4\n"] {
        folder.write("buses.csv", format!("name,substation,kv,x,y\n{buses}").as_bytes());
        let words = ["draw", ".", "-o", "sheet.svg", "--paper", "A4", "--allow-empty", "--anyway"];
        assert_eq!(status(&wall_in(&folder.0, &words)), 0, "{buses:?}");
        assert!(fs::read_to_string(folder.0.join("sheet.svg")).unwrap().ends_with("</svg>\n"));
    }
}

#[test]
fn a_bus_without_coordinates_counts_as_at_the_origin() {
    let folder = Folder::new("empty");
    folder.write("branches.csv", BRANCHES);
    let listed = |buses: &str| {
        folder.write("buses.csv", format!("name,substation,kv,x,y\n{buses}").as_bytes());
        let output = wall_in(&folder.0, &["audit", "."]);
        assert_eq!(status(&output), 0);
        let report = text(&output.stdout);
        (report.lines().skip(3).collect::<Vec<_>>().join("\n"), text(&output.stderr))
    };
    let (given, silent) = listed("A,S,66,0,0\nB,T,66,50,40\n");
    let (empty, said) = listed("A,S,66,,7\nB,T,66,50,40\n");
    assert_eq!((given, silent), (empty, String::new()));
    assert_eq!(
        said,
        "wall: note: buses without coordinates, counted as at (0, 0): 1, the first is bus 'A', ./buses.csv:2\n"
    );
}

#[test]
fn y_up_turns_the_drawing_over() {
    let folder = overlapping("turned");
    folder.write("buses.csv", b"name,substation,kv,x,y\nA,S,66,0,0\nB,T,66,50,40\n");
    let down = wall_in(&folder.0, &["list", "."]).stdout;
    let up = wall_in(&folder.0, &["list", ".", "--y-up"]).stdout;
    folder.write("buses.csv", b"name,substation,kv,x,y\nA,S,66,0,0\nB,T,66,50,-40\n");
    assert_eq!(wall_in(&folder.0, &["list", "."]).stdout, up);
    assert_ne!(down, up);
}

#[test]
fn a_sheet_that_cannot_be_written() {
    let folder = overlapping("unwritten");
    fs::create_dir(folder.0.join("taken")).unwrap();
    for (target, said) in [
        ("taken", "wall: taken: expected a file to write, found a folder\n"),
        ("no/sheet.svg", "wall: no/sheet.svg: No such file or directory (os error 2)\n"),
    ] {
        let output = wall_in(&folder.0, &["draw", ".", "-o", target]);
        assert_eq!((status(&output), text(&output.stderr)), (2, said.to_string()));
    }
    assert_eq!(folder.files(), ["branches.csv", "buses.csv", "taken"]);
}
