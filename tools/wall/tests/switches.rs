//! Isolators, bays and kinds of branches: printed, indexed, compared, checked, and refused where they can't be read.
mod help;
use help::svg::{attribute, content, rect, with};
use help::{root, sheet, status, text, wall_in, Folder};
use std::collections::HashMap;
use std::fs;

const BAYS: &str = "examples/bays";

/// The rows of the example's branches, by their place from 0.
fn rows() -> Vec<HashMap<String, String>> {
    help::svg::rows(&fs::read_to_string(root().join(BAYS).join("branches.csv")).unwrap())
}

#[test]
fn isolators_are_printed_at_their_ends_and_indexed() {
    let (drawn, pages) = sheet(&root().join(BAYS), &[]);
    let rows = rows();
    let mut seen = 0;
    for element in with(&drawn, "data-switch") {
        let row = &rows[attribute(element, "data-switch").unwrap().parse::<usize>().unwrap()];
        let column = ["from_switch", "to_switch"][attribute(element, "data-end").unwrap().parse::<usize>().unwrap()];
        assert_eq!(content(element), format!("[{}]", row[column]));
        seen += 1;
    }
    assert!(seen + 2 > 2 * rows.len(), "A1 has room for nearly all isolators of the example: {seen}");
    let all = [vec![drawn], pages].concat().concat();
    for row in &rows {
        let isolators = format!(">{} – {}</text>", row["from_switch"], row["to_switch"]);
        assert!(all.contains(&isolators), "{isolators}");
        assert!(row["bay"].is_empty() || all.contains(&format!(">{}</text>", row["bay"])), "{row:?}");
    }
}

#[test]
fn kinds_have_their_signs() {
    let (drawn, _) = sheet(&root().join(BAYS), &[]);
    let mut signs: HashMap<usize, Vec<&str>> = HashMap::new();
    for element in with(&drawn, "data-kind") {
        let branch = attribute(element, "data-kind").unwrap().parse().unwrap();
        signs.entry(branch).or_default().push(element.trim_start()[1..].split(' ').next().unwrap());
    }
    for (branch, row) in rows().iter().enumerate() {
        let wanted = match row["kind"].as_str() {
            "transformer" => Some(vec!["circle"; 3]),
            "coupler" => Some(vec!["rect"]),
            _ => None,
        };
        assert_eq!(signs.remove(&branch), wanted, "{row:?}");
    }
}

/// Without the columns a sheet has none of this.
#[test]
fn sheets_without_the_columns() {
    let drawn = fs::read_to_string(root().join("examples/forty/sheet.svg")).unwrap();
    let pages = fs::read_to_string(root().join("examples/forty/sheet-index.svg")).unwrap();
    for word in ["id=\"switches\"", "id=\"kinds\"", "[isolator]", ">Isolators<", ">Bay<"] {
        assert!(!drawn.contains(word) && !pages.contains(word), "{word}");
    }
}

/// A small network with these rows of branches.
fn small(rows: &str) -> Folder {
    let folder = Folder::new("bays");
    let buses = "name,substation,kv,x,y\nA,Acre,66,0,0\nB,Barn,66,9000,0\nC,Barn,11,9000,0\n";
    folder.write("buses.csv", buses.as_bytes());
    let head = "name,from,to,in_service,from_switch,to_switch,bay,kind";
    folder.write("branches.csv", format!("{head}\n{rows}\n").as_bytes());
    folder
}

fn run(folder: &Folder, words: &[&str]) -> (i32, String, String) {
    let output = wall_in(&folder.0, words);
    (status(&output), text(&output.stdout), text(&output.stderr))
}

#[test]
fn malformed_columns() {
    let long = "x".repeat(41);
    for (row, expected) in [
        ("L,A,B,1,abcdefghijklm,,,", "2:9: expected an isolator of at most 12 characters, found 'abcdefghijklm'"),
        ("L,A,B,1,,H[2],,", "2:10: expected an isolator without brackets, found 'H[2]'"),
        ("L,A,B,1,,,,fuse", "2:12: expected transformer, coupler, line or nothing, found 'fuse'"),
        (&format!("L,A,B,1,,,{long},"), "2:11: expected a bay of at most 40 characters, found"),
    ] {
        let folder = small(row);
        let (code, _, said) = run(&folder, &["draw", ".", "-o", "sheet.svg"]);
        assert!(code == 2 && said.starts_with(&format!("wall: ./branches.csv:{expected}")), "{said}");
        assert_eq!(folder.files(), ["branches.csv", "buses.csv"]);
    }
}

#[test]
fn what_is_odd_is_said() {
    let folder = small("L,A,B,1,H1,H1,,Line\nT,B,C,1,H1,H2,,coupler\nU,A,C,1,,,,TRANSFORMER\nV,A,C,1,,,,line");
    let (code, _, said) = run(&folder, &["draw", ".", "-o", "sheet.svg", "--paper", "A4"]);
    assert_eq!(code, 0, "{said}");
    for note in [
        "note: isolator 'H1' stands twice at substation 'Barn': branch 'L', ./branches.csv:2, and branch 'T', \
         ./branches.csv:3\n",
        "note: a coupler goes between two substations or voltages, where two buses of one of each are usual: branch \
         'T', ./branches.csv:3\n",
        "note: a transformer goes from substation to substation, where two buses of one are usual: branch 'U', \
         ./branches.csv:4\n",
        "note: a line goes between two voltages, where one is usual: branch 'V', ./branches.csv:5\n",
    ] {
        assert!(said.contains(note), "{said}");
    }
}

#[test]
fn compare_says_isolators_bays_and_kinds() {
    let (old, new) = (small("L,A,B,1,H1,H2,b1,\nT,B,C,1,H3,H4,,"), small("L,B,A,1,H2,H9,b2,line\nT,B,C,1,,H4,,"));
    let (code, said, _) = run(&old, &["compare", ".", new.0.to_str().unwrap()]);
    let wanted = "branch L: turned round, now B to A; isolator H9 at Acre, was H1 at Acre; bay b2, was b1; kind line, \
                  was none\nbranch T: isolator none at Barn, was H3 at Barn\n";
    assert!(code == 1 && said.starts_with(wanted), "{said}");
}

#[test]
fn isolators_and_signs_are_checked() {
    let (drawn, _) = sheet(&root().join(BAYS), &[]);
    let folder = Folder::new("damaged-bays");
    let bays = root().join(BAYS);
    let said = |sheet: String| {
        folder.write("sheet.svg", sheet.as_bytes());
        run(&folder, &["check", "sheet.svg", bays.to_str().unwrap()])
    };
    let (code, whole, _) = said(drawn.clone());
    assert_eq!(code, 0, "{whole}");
    let text = with(&drawn, "data-switch")[0];
    let square = with(&drawn, "data-kind").into_iter().find(|line| line.contains("<rect")).unwrap();
    let circle = with(&drawn, "data-kind").into_iter().find(|line| line.contains("<circle")).unwrap();
    let x = attribute(text, "x").unwrap();
    let moved = format!("x=\"{:.2}\"", x.parse::<f64>().unwrap() + 60.0);
    let [left, top, ..] = rect(square);
    let far = square.replace(&format!(" y=\"{}\"", attribute(square, "y").unwrap()), &format!(" y=\"{}\"", top + 9.0));
    assert!(left > 0.0 && far != square);
    let circled = square.replace("<rect", "<circle cx=\"9\" cy=\"9\" r=\"2\"").replace("</rect", "</circle");
    for (old, new, expected) in [
        (text, text.replace(&format!("x=\"{x}\""), &moved), "away from its end"),
        (text, text.replace(">[", ">[X"), "which isn't its own"),
        (text, text.replace("data-end=\"0\"", "data-end=\"7\""), "of no end of a run"),
        (text, text.replace("data-switch=\"", "data-switch=\"9999"), "of no end of a run"),
        (text, format!("{text}\n{text}"), "has a second isolator at one end"),
        (text, text.replace("<text ", "<text fill=\"#ffffff\" "), "can't be seen"),
        (square, far, "has the sign of its kind away from its run"),
        (square, circled, "has the sign of a kind that isn't its own"),
        (square, square.replace("data-kind=\"", "data-kind=\"9999"), "the sign of a branch that has no run"),
        (square, square.replace("data-kind=\"", "data-sort=\""), "a rect that belongs to nothing on the sheet"),
        (circle, String::new(), "has the sign of a kind that isn't its own"),
        (text, text.replace("data-switch=\"", "data-swatch=\""), "that belongs to nothing on the sheet"),
    ] {
        assert!(drawn.contains(old));
        let (code, found, _) = said(drawn.replacen(old, &new, 1));
        assert!(code == 1 && found.contains(expected), "{expected}: {found}");
    }
}
