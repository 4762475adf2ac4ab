//! Two networks compared: what is printed, the rows, the marked sheet and the exit status.
mod help;
use help::{root, status, text, wall, wall_in, Folder};
use std::fs;

const FORTY: &str = "examples/forty";

/// The example with lines of its files changed, and each line closed by LF only.
fn changed(name: &str, edits: &[(&str, &str, &str)]) -> Folder {
    let folder = Folder::new(name);
    for file in ["buses.csv", "branches.csv"] {
        let mut content = fs::read_to_string(root().join(FORTY).join(file)).unwrap().replace('\r', "");
        for (_, old, new) in edits.iter().filter(|(of, ..)| *of == file) {
            assert!(content.contains(old), "{old}");
            content = content.replace(old, new);
        }
        folder.write(file, content.as_bytes());
    }
    folder
}

const EDITS: [(&str, &str, &str); 6] = [
    ("branches.csv", "KES 66 section 1-2,Kestrel Moor 66/1,Kestrel Moor 66/2,1\n", ""),
    (
        "branches.csv",
        "KES 66 section 2-3,Kestrel Moor 66/2,Kestrel Moor 66/3,1\n",
        "KES 66 section 2-3,Kestrel Moor 66/2,Kestrel Moor 66/3,0\n",
    ),
    (
        "branches.csv",
        "KES T1,Kestrel Moor 66/1,Kestrel Moor 11/1,1\n",
        "KES T1,Kestrel Moor 66/3,Kestrel Moor 11/1,1\n",
    ),
    ("branches.csv", "KES T2,", "Kestrel transformer 2,"),
    (
        "branches.csv",
        "name,from,to,in_service\n",
        "name,from,to,in_service\nNew tie,Kestrel Moor 66/1,Saltmarsh Point 66/1,1\n",
    ),
    ("buses.csv", "Kestrel Moor 11/1,Kestrel Moor,11,", "Kestrel Moor 11/1,Kestrel Moor,22,"),
];

const SAID: [&str; 6] = [
    "bus Kestrel Moor 11/1: voltage 22 kV, was 11 kV",
    "branch New tie: added (Kestrel Moor 66/1 to Saltmarsh Point 66/1, in service)",
    "branch KES 66 section 2-3: opened",
    "branch KES T1: moved from Kestrel Moor 66/1 to Kestrel Moor 66/3",
    "branch Kestrel transformer 2: renamed, was KES T2",
    "branch KES 66 section 1-2: removed (Kestrel Moor 66/1 to Kestrel Moor 66/2, in service)",
];

#[test]
fn what_differs_is_printed_and_marked() {
    let new = changed("differs", &EDITS);
    let path = |name: &str| new.0.join(name).to_str().unwrap().to_string();
    let output = wall(&["compare", FORTY, &path(""), "-o", &path("sheet.svg"), "--csv", &path("changes.csv")]);
    assert_eq!(status(&output), 1, "{}", text(&output.stderr));
    let printed = text(&output.stdout);
    let lines: Vec<&str> = printed.lines().collect();
    assert_eq!(lines[..6], SAID);
    let name = new.0.file_name().unwrap().to_string_lossy();
    assert_eq!(lines[6..], [format!("Different between forty and {name}: 0 substations, 1 buses, 5 branches.")]);
    let rows = fs::read_to_string(path("changes.csv")).unwrap();
    assert_eq!(rows.lines().count(), 7);
    assert!(rows.contains("branch,KES T1,moved,Kestrel Moor 66/1,Kestrel Moor 66/3,4,4\n"), "{rows}");
    let checked = wall(&["check", &path("sheet.svg"), &path("")]);
    assert_eq!(status(&checked), 0, "{}", text(&checked.stdout));
    let sheet = fs::read_to_string(path("sheet.svg")).unwrap();
    for mark in ["bus VOLTAGE", "1 NEW", "2 OPENED", "3 MOVED", "4 RENAMED"] {
        assert_eq!(sheet.matches(&format!(">{mark}</text>")).count(), 1, "{mark}");
    }
    let table: Vec<&str> = sheet.split("<g id=\"changes\"").nth(1).unwrap().lines().collect();
    let texts: String =
        table.iter().filter_map(|line| line.strip_suffix("</text>")?.rsplit('>').next()).collect::<Vec<_>>().join(" ");
    for line in SAID {
        assert!(texts.contains(line), "{line} in {texts}");
    }
    assert!(texts.contains("Removed, not on the drawing (was 1) branch KES 66 section 1-2: removed"));
    // Branches by the sheet's numbers, and each by its substations' squares.
    let square = |station: &str| {
        let checked = fs::read_to_string(path("sheet-index.svg")).unwrap();
        let row = checked.lines().position(|line| line.contains(&format!(">{station}</text>"))).unwrap();
        let cells: Vec<&str> =
            checked.lines().skip(row).take(8).filter_map(|l| l.strip_suffix("</text>")?.rsplit('>').next()).collect();
        cells.into_iter().find(|cell| cell.contains('–') && cell.len() < 12).unwrap().to_string()
    };
    let squares = square("New tie");
    assert!(texts.contains(&format!("1 {squares} branch New tie: added")), "{squares} in {texts}");
    let own = squares.split('–').next().unwrap();
    assert!(texts.contains(&format!(" {own} bus Kestrel Moor 11/1: voltage")), "{own} in {texts}");
    assert!(texts.contains(&format!("2 {own} branch KES 66 section 2-3: opened")), "{own} in {texts}");
    let place = |id: &str| sheet.find(&format!("<g id=\"{id}\"")).unwrap();
    assert!(place("boxes") < place("fives") && place("fives") < place("changed") && place("changed") < place("lines"));
}

/// The other way round, what was added is removed, and what was opened closed.
#[test]
fn the_other_way_round() {
    let new = changed("round", &EDITS);
    let output = wall(&["compare", new.0.to_str().unwrap(), FORTY]);
    let printed = text(&output.stdout);
    for line in [
        "bus Kestrel Moor 11/1: voltage 11 kV, was 22 kV\n",
        "branch KES 66 section 1-2: added (",
        "branch KES 66 section 2-3: closed\n",
        "branch KES T1: moved from Kestrel Moor 66/3 to Kestrel Moor 66/1\n",
        "branch KES T2: renamed, was Kestrel transformer 2\n",
        "branch New tie: removed (",
    ] {
        assert!(printed.contains(line), "{printed}");
    }
    assert_eq!(status(&output), 1);
}

#[test]
fn nothing_differs() {
    let same = changed("same", &[]);
    let path = |name: &str| same.0.join(name).to_str().unwrap().to_string();
    let output = wall(&["compare", FORTY, &path(""), "-o", &path("sheet.svg"), "--csv", &path("changes.csv")]);
    let name = same.0.file_name().unwrap().to_string_lossy();
    assert_eq!((status(&output), text(&output.stdout)), (0, format!("Nothing differs between forty and {name}.\n")));
    assert_eq!(fs::read_to_string(path("changes.csv")).unwrap().lines().count(), 1);
    assert_eq!(status(&wall(&["check", &path("sheet.svg"), FORTY])), 0);
}

#[test]
fn faults_are_2_and_write_nothing() {
    let folder =
        changed("faults", &[("buses.csv", "Kestrel Moor 66/1,Kestrel Moor,66,", "Kestrel Moor 66/1,Kestrel Moor,x,")]);
    let forty = root().join(FORTY);
    let forty = forty.to_str().unwrap();
    let before = folder.files();
    for words in [
        &["compare", forty, ".", "-o", "s.svg", "--csv", "c.csv"][..],
        &["compare", ".", forty, "-o", "s.svg", "--csv", "c.csv"],
        &["compare", forty, "nowhere", "-o", "s.svg"],
        &["compare", forty],
        &["compare", forty, forty, "-o", "-"],
        &["compare", forty, forty, "--csv", "/dev/stdout"],
        &["compare", forty, forty, "-o", "a", "--csv", "a"],
        &["compare", forty, forty, "--strict"],
        &["compare", forty, forty, "-o", "no/s.svg"],
        &["compare", forty, forty, "-o", "s.svg", "--csv", "no/c.csv"],
        &["compare", forty, forty, "-o", "no/s.svg", "--csv", "c.csv"],
    ] {
        let output = wall_in(&folder.0, words);
        assert_eq!((status(&output), text(&output.stdout)), (2, String::new()), "{words:?}");
        assert_eq!(folder.files(), before);
    }
}
