//! A sheet of 4,000 substations: drawn, checked and compared, and one run in thousands is missed.
mod help;
use help::{status, text, wall_in, Folder};
use std::fmt::Write;
use std::fs;

const STATIONS: usize = 4000;
const COLUMNS: usize = 80;

/// A grid of substations with a line to the right and one downwards from each, every fortieth of them open.
fn network(folder: &Folder) {
    let mut buses = "name,substation,kv,x,y\n".to_string();
    let mut branches = "name,from,to,in_service\n".to_string();
    for i in 0..STATIONS {
        let (x, y) = (i % COLUMNS * 100 + i * 7919 % 50, i / COLUMNS * 100 + i * 104729 % 50);
        writeln!(buses, "Bus {i},Station {i},{},{x},{y}", [66, 33, 11][i % 3]).unwrap();
        let right = Some(i + 1).filter(|j| j % COLUMNS > 0);
        for j in [right, Some(i + COLUMNS)].into_iter().flatten().filter(|&j| j < STATIONS) {
            writeln!(branches, "Line {i} {j},Bus {i},Bus {j},{}", u8::from((i + j) % 40 > 0)).unwrap();
        }
    }
    folder.write("buses.csv", buses.as_bytes());
    folder.write("branches.csv", branches.as_bytes());
}

#[test]
fn four_thousand_substations() {
    let folder = Folder::new("large");
    network(&folder);
    let output = wall_in(&folder.0, &["draw", ".", "-o", "sheet.svg", "--paper", "A0"]);
    assert_eq!(status(&output), 0, "{}", text(&output.stderr));
    let output = wall_in(&folder.0, &["check", "sheet.svg", "."]);
    assert_eq!(status(&output), 0);
    let said = text(&output.stdout);
    let last = said.lines().last().unwrap();
    assert!(last.starts_with("ok: 4,000 boxes, 4,000 bars, 7,870 branches, "), "{last}");
    let doubts = said.lines().filter(|line| line.starts_with("sheet.svg: may be misread: ")).count();
    assert_eq!(doubts + 1, said.lines().count());
    assert!(last.replace(',', "").ends_with(&format!("may be misread: {doubts}")), "{last}");
    assert_eq!(status(&wall_in(&folder.0, &["compare", ".", "."])), 0);
    let sheet = fs::read_to_string(folder.0.join("sheet.svg")).unwrap();
    let lines: Vec<&str> = sheet.lines().filter(|line| !line.contains("id=\"branch-Line_1234_1235\"")).collect();
    folder.write("damaged.svg", lines.join("\n").as_bytes());
    let output = wall_in(&folder.0, &["check", "damaged.svg", "."]);
    let expected = text(&output.stdout);
    let wrong: Vec<&str> = expected.lines().filter(|line| !line.contains(": may be misread: ")).collect();
    assert!(status(&output) == 1 && (3..9).contains(&wrong.len()), "{wrong:?}");
    assert!(expected.contains("damaged.svg: branch 'Line 1234 1235', ./branches.csv:"), "{expected}");
}
