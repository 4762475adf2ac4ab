//! Parts of a network on sheets of their own: which, what they leave out, and that they are checked.
mod help;
use help::svg::{title, with};
use help::{root, status, text, wall_in, Folder};
use std::collections::BTreeSet;
use std::fs;

const BAYS: &str = "examples/bays";

fn run(folder: &Folder, words: &[&str]) -> (i32, String, String) {
    let output = wall_in(&folder.0, words);
    (status(&output), text(&output.stdout), text(&output.stderr))
}

/// Draws a part of the example; gives the sheet and what is said.
fn drawn(folder: &Folder, part: &[&str]) -> (String, String) {
    let bays = root().join(BAYS);
    let words = [&["draw", bays.to_str().unwrap(), "-o", "part.svg"], part].concat();
    let (code, _, said) = run(folder, &words);
    assert_eq!(code, 0, "{said}");
    let sheet = fs::read_to_string(folder.0.join("part.svg")).unwrap();
    let (code, found, said_too) = run(folder, &["check", "part.svg", bays.to_str().unwrap()]);
    assert_eq!(code, 0, "{found}");
    let note = said.lines().find(|line| line.contains("note: part: ")).unwrap();
    assert_eq!(said_too.lines().count(), 1, "{said_too}");
    (sheet, note.to_string())
}

fn titles(sheet: &str, name: &str) -> BTreeSet<String> {
    with(sheet, name).into_iter().map(title).collect()
}

#[test]
fn around_a_substation() {
    let folder = Folder::new("around");
    let (sheet, note) = drawn(&folder, &["--around", "Mill Hill", "--hops", "1"]);
    let wanted = ["Long Acre", "Mill Hill", "Quayside"].map(str::to_string);
    assert_eq!(titles(&sheet, "data-station"), BTreeSet::from(wanted));
    let words = "note: part: within 1 hop of Mill Hill: 3 of 6 substations, 13 of 33 branches; 7 lead out";
    assert!(note.ends_with(words), "{note}");
    // Numbers are those of the whole network, and what leads out stands in the index.
    assert!(titles(&sheet, "data-branch").contains("113 MIL 66 coupler") || sheet.contains(" MIL 66 coupler<"));
    let index: String = folder
        .files()
        .iter()
        .filter(|name| name.ends_with(".svg"))
        .fold(String::new(), |all, name| all + &fs::read_to_string(folder.0.join(name)).unwrap());
    assert!(
        index.contains(">Branches that lead out of this part, not drawn</text>")
            && index.contains(">FER QUA 11</text>")
    );
    let (_, note) = drawn(&folder, &["--around=Mill Hill", "--hops", "0"]);
    assert!(note.contains("1 of 6 substations, 3 of 33 branches; 4 lead out"), "{note}");
    let (_, note) = drawn(&folder, &["--around", "Mill Hill", "--hops", "9"]);
    assert!(note.contains("6 of 6 substations, 33 of 33 branches; none leads out"), "{note}");
}

#[test]
fn one_voltage_and_one_square() {
    let folder = Folder::new("voltage");
    let (sheet, note) = drawn(&folder, &["--voltage", "11 kV"]);
    assert!(note.contains("part: 11 kV: 6 of 6 substations, 1 of 33 branches; 12 lead out"), "{note}");
    assert!(titles(&sheet, "data-bus").iter().all(|name| name.contains(" 11/")));
    // A square of the whole sheet has what stands in it there.
    let bays = root().join(BAYS);
    assert_eq!(run(&folder, &["draw", bays.to_str().unwrap(), "-o", "whole.svg"]).0, 0);
    let files = folder.files().into_iter().filter(|name| name.starts_with("whole"));
    let whole: String = files.map(|name| fs::read_to_string(folder.0.join(name)).unwrap()).collect();
    let cell = |name: &str, column: usize| {
        let lines = with(&whole, "data-place").into_iter().filter(move |line| line.contains(&format!(" {column}\"")));
        let at = with(&whole, "data-place").into_iter().position(|line| help::svg::content(line) == name).unwrap();
        let key =
            help::svg::attribute(with(&whole, "data-place")[at], "data-place").unwrap().split(' ').next().unwrap();
        let found = lines.into_iter().find(|line| line.contains(&format!("data-place=\"{key} {column}\""))).unwrap();
        help::svg::content(found)
    };
    let square = cell("Kestrel", 1);
    let (sheet, note) = drawn(&folder, &["--square", &square.to_lowercase()]);
    assert!(titles(&sheet, "data-station").contains("Kestrel"), "{note}");
    assert!(note.contains(&format!("part: square {square}: ")), "{note}");
}

#[test]
fn parts_that_are_not_there() {
    let folder = Folder::new("nowhere");
    let bays = root().join(BAYS);
    let around = "--around: expected a substation of the network, found 'Mil Hill'; did you mean 'Mill Hill'?";
    for (part, expected) in [
        (&["--around", "Mil Hill"][..], around),
        (&["--hops", "2"], "--hops: expected --around STATION, the substation that they are counted from"),
        (&["--around", "Kestrel", "--hops", "x"], "--hops: expected a whole number from 0 to 100, found 'x'"),
        (
            &["--square", "Z9"],
            "--square: expected a square of the sheet with a substation in it, found 'Z9'; there are ",
        ),
        (&["--voltage", "high"], "--voltage: expected a voltage in kV above 0, found 'high'"),
        (&["--voltage", "33"], "expected a part with a bus in it, found none: 33 kV (voltages: 66 kV, 11 kV)"),
    ] {
        let (code, _, said) = run(&folder, &[&["draw", bays.to_str().unwrap(), "-o", "part.svg"], part].concat());
        assert!(code == 2 && said.contains(expected), "{said}");
        assert!(folder.files().is_empty());
    }
}

#[test]
fn parts_are_checked_as_parts() {
    let folder = Folder::new("checked-part");
    let (sheet, _) = drawn(&folder, &["--around", "Mill Hill", "--hops", "1"]);
    let bays = root().join(BAYS);
    let list = sheet.lines().find(|line| line.contains("part with the buses")).unwrap();
    let numbers = list.split("buses ").nth(1).unwrap().split('<').next().unwrap();
    let fewer = numbers.rsplit_once(' ').unwrap().0;
    for (old, new, code, expected) in [
        (numbers, fewer, 1, "has no "),
        (numbers, "0 1", 1, ""),
        (numbers, "3 3", 2, "expected a part of the network's 18 buses, in their order"),
        (numbers, "3 999", 2, "expected a part of the network's 18 buses, in their order"),
        (list, "", 1, ""),
        ("part: within", "all within", 1, "the title block doesn't say that the sheet shows a part of the network"),
    ] {
        folder.write("damaged.svg", sheet.replacen(old, new, 1).as_bytes());
        let (found, out, said) = run(&folder, &["check", "damaged.svg", bays.to_str().unwrap()]);
        assert!(found == code && (out + &said).contains(expected), "{new}: {said}");
    }
}
