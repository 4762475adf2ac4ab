//! Date, revision, signatures and revisions in the title block, and the index's lists by name.
mod help;
use help::svg::{attribute, content, number, with};
use help::{root, sheet, status, text, wall, wall_in, Folder};
use std::fs;

const FORTY: &str = "examples/forty";

/// The fields of a sheet, each with its value.
fn fields(sheet: &str) -> Vec<(String, String)> {
    with(sheet, "data-field")
        .into_iter()
        .map(|line| (attribute(line, "data-field").unwrap().to_string(), content(line)))
        .collect()
}

#[test]
fn fields_are_as_said_and_no_date_is_taken() {
    let drawn = text(&wall(&["draw", FORTY, "-o", "-"]).stdout);
    assert!(fields(&drawn).is_empty() && !drawn.contains(">Checked by<") && !drawn.contains(">Date<"));
    let said = ["--date", "27 November 2026", "--drawn-by", "R. Ash"];
    for paper in ["A0", "A2", "A4"] {
        let output = wall(&[&["draw", FORTY, "-o", "-", "--paper", paper][..], &said].concat());
        assert_eq!(status(&output), 0, "{}", text(&output.stderr));
        let drawn = text(&output.stdout);
        let wanted = [("Date", "27 November 2026"), ("Drawn by", "R. Ash")];
        assert_eq!(fields(&drawn), wanted.map(|(name, value)| (name.to_string(), value.to_string())));
        for head in [">Date<", ">Revision<", ">Drawn by<", ">Checked by<"] {
            assert_eq!(drawn.matches(head).count(), 1, "{head}");
        }
    }
}

/// Texts of the title block stand in the page's frame, and the strip is below all others.
#[test]
fn the_last_three_revisions() {
    let folder = Folder::new("revisions");
    let rows = "revision,date,change,by\nA,2026-01-09,First issue,R. Ash\nB,2026-03-02,Quayside T2,R. Ash\n\
                C,2026-06-30,Mill Hill,M. Birch\nD,2026-11-27,\"Long Acre, second circuit\",R. Ash\n";
    folder.write("revisions.csv", rows.as_bytes());
    let network = root().join(FORTY);
    let draw = |more: &[&str]| {
        let words = ["draw", network.to_str().unwrap(), "-o", "s.svg", "--revisions", "revisions.csv"];
        let output = wall_in(&folder.0, &[&words[..], more].concat());
        (status(&output), text(&output.stderr))
    };
    assert_eq!(draw(&["--checked-by", "M. Birch"]).0, 0);
    let drawn = fs::read_to_string(folder.0.join("s.svg")).unwrap();
    let wanted = [("Date", "2026-11-27"), ("Revision", "D"), ("Checked by", "M. Birch")];
    assert_eq!(fields(&drawn), wanted.map(|(name, value)| (name.to_string(), value.to_string())));
    let block: Vec<&str> = drawn.split("id=\"title-block\"").nth(1).unwrap().lines().collect();
    let height = |text: &str| block.iter().find(|l| l.contains(&format!(">{text}</text>"))).map(|l| number(l, "y"));
    let [d, c, b] = ["Long Acre, second circuit", "Mill Hill", "Quayside T2"].map(|text| height(text).unwrap());
    assert!(d < c && c < b && b < 594.0 - 10.0, "{d} {c} {b}");
    assert!(height("Change (1 earlier)").is_some() && height("First issue").is_none());
    let lowest = block.iter().filter(|l| l.contains(">SHA-256") || l.contains(">Names ")).map(|l| number(l, "y"));
    assert!(lowest.fold(0.0, f64::max) < height("Change (1 earlier)").unwrap());
    let index = fs::read_to_string(folder.0.join("s-index.svg")).unwrap();
    assert!(index.contains("date 2026-11-27; revision D; "));
    let before = folder.files();
    let (code, said) = draw(&["--revision", "E"]);
    let expected = "--revisions: expected 'E', as --revision says, as the last revision of revisions.csv; found 'D'";
    assert!(code == 2 && said.contains(expected), "{said}");
    folder.write("revisions.csv", b"revision,date,change,by\n");
    let (code, said) = draw(&[]);
    assert!(code == 2 && said.contains("expected at least one revision below the header line"), "{said}");
    assert_eq!(folder.files(), before);
}

#[test]
fn malformed_fields() {
    for (option, value) in [("--date", ""), ("--revision", "1234567890123"), ("--drawn-by", "a\nb")] {
        let output = wall(&["draw", FORTY, "-o", "-", option, value]);
        assert_eq!((status(&output), output.stdout.len()), (2, 0));
        assert!(text(&output.stderr).contains(&format!("{option}: expected 1 to ")));
    }
    let output = wall(&["audit", FORTY, "--date", "x"]);
    assert!(text(&output.stderr).contains("--date isn't an option of audit"));
}

#[test]
fn fields_are_checked() {
    let folder = Folder::new("fields");
    let drawn = text(&wall(&["draw", FORTY, "-o", "-", "--date", "2026-11-27"]).stdout);
    let line = with(&drawn, "data-field")[0].to_string();
    for (new, expected) in [
        (format!("{line}\n{line}"), "a second field Date of the title block"),
        (line.replace("data-field=\"Date\"", "data-field=\"Time\""), "is no field of the title block"),
        (line.replace("<text ", "<text fill=\"#ffffff\" "), "is no field of the title block"),
    ] {
        let path = folder.write("s.svg", drawn.replace(&line, &new).as_bytes());
        let output = wall(&["check", path.to_str().unwrap(), FORTY]);
        assert!(status(&output) == 1 && text(&output.stdout).contains(expected), "{}", text(&output.stdout));
    }
}

/// All substations stand in the index in the order of their names, with the squares that their boxes are in; all branches
/// by name too.
#[test]
fn lists_by_name() {
    let (drawn, pages) = sheet(&root().join(FORTY), &[]);
    let all = [vec![drawn.clone()], pages].concat().concat();
    let cells = |name: &str, column: usize| -> Vec<String> {
        let end = format!(" {column}\"");
        with(&all, name).into_iter().filter(|l| l.contains(&format!("{end}"))).map(content).collect()
    };
    let stations = cells("data-place", 0);
    let mut sorted = stations.clone();
    sorted.sort_by_key(|name| name.to_lowercase());
    assert_eq!((stations.len(), &stations), (40, &sorted));
    assert_eq!(cells("data-name", 0).len(), 300);
    assert!(cells("data-place", 1).iter().all(|square| square.len() < 4));
}
