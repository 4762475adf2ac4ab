//! The example's sheet, damaged line by line, and what the check says of it.
use super::{status, text, wall, Folder};
use std::sync::OnceLock;

pub const FORTY: &str = "examples/forty";

/// The sheet of the example, as lines.
pub fn sheet() -> &'static [String] {
    static SHEET: OnceLock<Vec<String>> = OnceLock::new();
    SHEET.get_or_init(|| {
        let output = wall(&["draw", FORTY, "-o", "-"]);
        assert_eq!(status(&output), 0, "{}", text(&output.stderr));
        text(&output.stdout).lines().map(str::to_string).collect()
    })
}

/// What the check says of the example's sheet with other lines; its status has to be 1.
pub fn said(folder: &Folder, lines: &[String]) -> String {
    let path = folder.write("sheet.svg", lines.join("\n").as_bytes());
    let output = wall(&["check", path.to_str().unwrap(), FORTY]);
    assert_eq!(status(&output), 1, "{}{}", text(&output.stdout), text(&output.stderr));
    text(&output.stdout)
}

/// Where the line with a text stands.
pub fn at(part: &str) -> usize {
    sheet().iter().position(|line| line.contains(part)).unwrap_or_else(|| panic!("{part}"))
}

/// The value of an attribute in a line.
pub fn value<'a>(line: &'a str, name: &str) -> &'a str {
    let from = line.find(&format!(" {name}=\"")).unwrap() + name.len() + 3;
    line[from..].split('"').next().unwrap()
}

pub fn points(line: &str) -> Vec<[f64; 2]> {
    let one = |p: &str| {
        let (x, y) = p.split_once(' ').unwrap();
        [x.parse().unwrap(), y.parse().unwrap()]
    };
    value(line, "d").trim_start_matches('M').split(['L', 'M']).map(one).collect()
}

/// The line with other points.
pub fn with_points(line: &str, points: &[[f64; 2]]) -> String {
    let d: Vec<String> = points.iter().map(|[x, y]| format!("{x:.2} {y:.2}")).collect();
    line.replace(value(line, "d"), &format!("M{}", d.join("L")))
}

/// A branch inside a substation and a bar of the example.
pub const INNER: &str = "id=\"branch-KES_T1\"";
pub const BUS: &str = "id=\"bus-Kestrel_Moor_66_1\"";

/// The numbers of the lines with runs between substations, inside them, and open.
pub fn runs(group: &str) -> Vec<usize> {
    let start = at(&format!("<g id=\"{group}\""));
    let inside = (start + 1..).take_while(|&i| sheet()[i].trim() != "</g>");
    inside.filter(|&i| sheet()[i].contains(" data-branch=")).collect()
}

/// Changes one line, and looks for what is said.
pub fn changed(folder: &Folder, i: usize, line: String, expected: &str) {
    let mut lines = sheet().to_vec();
    assert_ne!(lines[i], line, "{expected}");
    lines[i] = line;
    let found = said(folder, &lines);
    assert!(found.contains(expected), "expected {expected:?} in:\n{found}");
}

/// Adds a line after another.
pub fn added(folder: &Folder, i: usize, line: String, expected: &str) {
    changed(folder, i, format!("{}\n{line}", sheet()[i]), expected);
}
