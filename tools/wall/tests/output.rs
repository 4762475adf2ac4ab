//! Nothing good is replaced by something empty: what is refused before a sheet is written, and how it takes its place.
mod help;
use help::{root, status, text, wall_in, Folder};
use std::fs;
use std::io::Read;
use std::os::unix::fs::{symlink, MetadataExt, PermissionsExt};
use std::process::{Command, Stdio};
use std::time::Duration;

const BUSES: &str = "name,substation,kv,x,y\nA,S,66,0,0\nB,T,66,50,40\n";
const BRANCHES: &str = "name,from,to,in_service\nL,A,B,1\n";

fn network(name: &str) -> Folder {
    let folder = Folder::new(name);
    folder.write("buses.csv", BUSES.as_bytes());
    folder.write("branches.csv", BRANCHES.as_bytes());
    folder
}

/// What is said where a drawing is refused: the sheet that is there stays.
fn refused(folder: &Folder, words: &[&str]) -> String {
    folder.write("old.svg", b"the old sheet");
    let before = folder.files();
    let output = wall_in(&folder.0, &[&["draw", ".", "-o", "old.svg"], words].concat());
    assert_eq!((status(&output), folder.files()), (2, before), "{}", text(&output.stderr));
    assert_eq!(fs::read(folder.0.join("old.svg")).unwrap(), b"the old sheet");
    text(&output.stderr)
}

/// Draws in a folder; gives what is said on standard error.
fn drawn(folder: &Folder, words: &[&str]) -> String {
    let output = wall_in(&folder.0, &[&["draw", "."], words].concat());
    assert_eq!(status(&output), 0, "{}", text(&output.stderr));
    text(&output.stderr)
}

fn is_sheet(folder: &Folder, name: &str) -> bool {
    fs::read_to_string(folder.0.join(name)).unwrap().ends_with("</svg>\n")
}

#[test]
fn exports_without_rows() {
    let folder = network("rows");
    folder.write("branches.csv", b"name,from,to,in_service\n");
    let wish = "found none; --allow-empty takes it so\n";
    assert_eq!(refused(&folder, &[]), format!("wall: ./branches.csv: expected at least one branch, {wish}"));
    folder.write("buses.csv", b"name,substation,kv,x,y\n");
    assert_eq!(refused(&folder, &[]), format!("wall: ./buses.csv: expected at least one bus, {wish}"));
    for words in [&["audit", "."][..], &["compare", ".", "."], &["check", "old.svg", "."]] {
        folder.write("old.svg", b"<svg width=\"1mm\" height=\"1mm\" viewBox=\"0 0 1 1\"/>");
        assert_eq!(status(&wall_in(&folder.0, words)), 2, "{words:?}");
        assert_eq!(status(&wall_in(&folder.0, &[words, &["--allow-empty"]].concat())), 0, "{words:?}");
    }
    drawn(&folder, &["-o", "empty.svg", "--allow-empty"]);
    assert!(is_sheet(&folder, "empty.svg"));
}

#[test]
fn stations_without_coordinates() {
    let folder = network("places");
    folder.write("buses.csv", format!("{BUSES}C,U,66,,\nD,U,66,3,\nE,V,11,,\n").as_bytes());
    assert_eq!(
        refused(&folder, &[]),
        "wall: substation 'U' has no coordinates: bus 'C', ./buses.csv:4, and 1 others; --anyway draws it at (0, 0)\n"
    );
    let said = drawn(&folder, &["-o", "sheet.svg", "--anyway"]);
    assert!(said.contains("buses without coordinates") && is_sheet(&folder, "sheet.svg"));
    let sheet = fs::read_to_string(folder.0.join("sheet.svg")).unwrap();
    let frames: Vec<&str> = sheet.lines().filter(|line| line.contains("data-placeless=")).collect();
    assert_eq!(frames.len(), 2);
    assert!(sheet.contains(">place not known</text>") && sheet.contains(">Substations whose place isn't known</text>"));
    for (new, expected) in [
        (String::new(), "substation 'U' has no coordinates, and no frame says so"),
        (
            frames[0].replace("data-placeless=\"2\"", "data-placeless=\"0\""),
            "a frame of a place that isn't known, at no",
        ),
        (frames[0].replace(" y=\"", " y=\"1"), "a frame of a place that isn't known, at no such box"),
    ] {
        folder.write("damaged.svg", sheet.replace(frames[0], &new).as_bytes());
        let output = wall_in(&folder.0, &["check", "damaged.svg", "."]);
        assert!(status(&output) == 1 && text(&output.stdout).contains(expected), "{}", text(&output.stdout));
    }
    folder.write("buses.csv", format!("{BUSES}C,T,66,,\n").as_bytes());
    assert!(drawn(&folder, &["-o", "sheet.svg"]).contains("buses without coordinates"), "its station has a place");
}

/// The example with a few stations at the end.
fn forty_and(folder: &Folder, rows: &str) {
    let read = |name: &str| fs::read_to_string(root().join("examples/forty").join(name)).unwrap();
    folder.write("buses.csv", format!("{}{rows}", read("buses.csv")).as_bytes());
    folder.write("branches.csv", read("branches.csv").as_bytes());
}

#[test]
fn a_station_far_off() {
    let folder = network("far");
    forty_and(&folder, "Far,Far,11,900000,5\n");
    let said = refused(&folder, &[]);
    assert!(said.starts_with("wall: bus 'Far', ./buses.csv:133 lies so far off that rows in boxes are "), "{said}");
    drawn(&folder, &["-o", "sheet.svg", "--anyway"]);
    assert!(is_sheet(&folder, "sheet.svg"));
    forty_and(&folder, "Far,Far,11,900000,5\nFarther,Farther,11,910000,5\n");
    let said = refused(&folder, &[]);
    assert!(said.starts_with("wall: the farthest of 2, bus 'Farther', ./buses.csv:134 lies so far off"), "{said}");
    forty_and(&folder, "Near,Near,11,15000,5\n");
    drawn(&folder, &["-o", "sheet.svg"]);
}

/// A sheet whose boxes are smaller than a hundredth of a millimetre fails its check, and isn't written.
#[test]
fn a_sheet_that_fails_its_check() {
    let folder = network("unchecked");
    forty_and(&folder, "");
    let tiers = ["--tier-radius", "1000", "--tier-counts", "0,0", "--tier-scales", "1/64,1/64"];
    let said = refused(&folder, &[&["--anyway", "--paper", "A4", "--fill", "0.001"], &tiers[..]].concat());
    assert!(said.starts_with("wall: the sheet isn't written, since the check of it has "), "{said}");
    assert!(
        said.contains("has a box that is no rectangle") && said.lines().last().unwrap().starts_with("and "),
        "{said}"
    );
}

/// A paper that is small for the whole network isn't one station's fault.
#[test]
fn a_small_paper() {
    let folder = network("small-paper");
    forty_and(&folder, "");
    drawn(&folder, &["-o", "sheet.svg", "--paper", "A4"]);
}

/// Sheets with other gaps pass their own check; a bar that leaves its box is noted.
#[test]
fn other_gaps() {
    let folder = network("gaps");
    forty_and(&folder, "");
    for gaps in [["3", "2", "4", "0.5"], ["0.5", "0.5", "0.5", "8"], ["8", "8", "8", "1"], ["1.7", "0.9", "3.3", "2"]] {
        let [gap, padding, shortest, buffer] = gaps;
        let words = ["--bar-gap", gap, "--padding", padding, "--shortest-bar", shortest, "--buffer", buffer];
        let said = drawn(&folder, &[&["-o", "sheet.svg", "--paper", "A0"], &words[..]].concat());
        assert!(!said.contains("leave their boxes"), "{said}");
        assert_eq!(status(&wall_in(&folder.0, &["check", "sheet.svg", "."])), 0);
    }
    let folder = network("long-bars");
    folder.write("buses.csv", b"name,substation,kv,x,y\nA,S,66,0,0\nB,T,66,100,0\n");
    folder.write("branches.csv", b"name,from,to,in_service\nL,A,B,1\n");
    let said = drawn(&folder, &["-o", "sheet.svg", "--shortest-bar", "8", "--padding", "0.5"]);
    let note = "wall: note: bars that leave their boxes, the shortest bar being long beside the padding: 2: 'A', 'B'\n";
    assert_eq!(said, note);
    assert_eq!(status(&wall_in(&folder.0, &["check", "sheet.svg", "."])), 0);
}

#[test]
fn what_is_noted_by_name() {
    let folder = network("notes");
    folder.write(
        "buses.csv",
        b"name,substation,kv,x,y\nA,S,66,0,0\nB,T,66,100,0\nC,U,66,50,0\nD,U,66,50,0\nE,V,66,0,90\n",
    );
    let said = drawn(&folder, &["-o", "sheet.svg", "--iterations", "0"]);
    assert_eq!(
        said,
        "wall: note: buses without a branch: 3: 'C', 'D', 'E'\nwall: note: lines through boxes: 1: 'L' through 'U'\n"
    );
    assert_eq!(text(&wall_in(&folder.0, &["audit", ".", "--iterations", "0"]).stderr), said);
}

#[test]
fn the_input_is_not_written_over() {
    let folder = network("input");
    symlink("buses.csv", folder.0.join("link.svg")).unwrap();
    fs::hard_link(folder.0.join("branches.csv"), folder.0.join("hard.svg")).unwrap();
    for (name, input) in
        [("buses.csv", "buses"), ("./branches.csv", "branches"), ("link.svg", "buses"), ("hard.svg", "branches")]
    {
        let output = wall_in(&folder.0, &["draw", ".", "-o", name]);
        let expected = format!("wall: {name}: expected another file to write than the input ./{input}.csv\n");
        assert_eq!((status(&output), text(&output.stderr)), (2, expected));
        for option in ["-o", "--csv"] {
            assert_eq!(status(&wall_in(&folder.0, &["compare", ".", ".", option, name])), 2);
        }
    }
    let net = "sub kv x y\n0 4059000000000000 0000000000000000 0000000000000000\n0 4059000000000000 0000000000000000 0000000000000000\nfrom to live\n0 1 1\n";
    let path = folder.write("net.txt", net.as_bytes());
    let output = Command::new(env!("CARGO_BIN_EXE_wall"))
        .args(["draw", "-", "-o", "net.txt"])
        .current_dir(&folder.0)
        .stdin(fs::File::open(&path).unwrap())
        .output()
        .unwrap();
    assert_eq!(status(&output), 2);
    assert_eq!(fs::read_to_string(&path).unwrap(), net);
    assert_eq!(fs::read_to_string(folder.0.join("buses.csv")).unwrap(), BUSES);
    assert_eq!(fs::read_to_string(folder.0.join("branches.csv")).unwrap(), BRANCHES);
}

#[test]
fn links_are_followed() {
    let folder = network("links");
    fs::create_dir(folder.0.join("kept")).unwrap();
    fs::write(folder.0.join("kept/sheet.svg"), "old").unwrap();
    symlink("kept/sheet.svg", folder.0.join("one.svg")).unwrap();
    symlink("one.svg", folder.0.join("two.svg")).unwrap();
    symlink("kept/new.svg", folder.0.join("dangling.svg")).unwrap();
    for (link, file) in [("two.svg", "kept/sheet.svg"), ("dangling.svg", "kept/new.svg")] {
        drawn(&folder, &["-o", link]);
        assert!(folder.0.join(link).symlink_metadata().unwrap().is_symlink(), "{link}");
        assert!(is_sheet(&folder, file));
    }
    symlink("round.svg", folder.0.join("round.svg")).unwrap();
    assert_eq!(status(&wall_in(&folder.0, &["draw", ".", "-o", "round.svg"])), 2);
}

#[test]
fn modes_are_kept() {
    let folder = network("modes");
    for mode in [0o600, 0o640, 0o664, 0o444] {
        let path = folder.write("sheet.svg", b"old");
        fs::set_permissions(&path, fs::Permissions::from_mode(mode)).unwrap();
        let before = path.metadata().unwrap().ino();
        drawn(&folder, &["-o", "sheet.svg"]);
        let after = path.metadata().unwrap();
        assert_eq!(after.permissions().mode() & 0o7777, mode);
        assert!(after.ino() != before && is_sheet(&folder, "sheet.svg"), "another file, moved there whole");
        fs::remove_file(&path).unwrap();
    }
    drawn(&folder, &["-o", "new.svg"]);
    let plain = folder.write("plain", b"");
    let mode = |name: &str| folder.0.join(name).metadata().unwrap().permissions().mode();
    assert_eq!(mode("new.svg"), plain.metadata().unwrap().permissions().mode());
    assert_eq!(folder.files(), ["branches.csv", "buses.csv", "new.svg", "plain"]);
}

#[test]
fn pipes_and_devices_are_written_straight() {
    let folder = network("pipes");
    assert!(Command::new("mkfifo").arg(folder.0.join("pipe")).status().unwrap().success());
    let wall = |target: &str| {
        let mut command = Command::new(env!("CARGO_BIN_EXE_wall"));
        command.args(["draw", ".", "-o", target]).current_dir(&folder.0);
        command
    };
    let mut child = wall("pipe").spawn().unwrap();
    let mut read = String::new();
    fs::File::open(folder.0.join("pipe")).unwrap().read_to_string(&mut read).unwrap();
    assert!(child.wait().unwrap().success() && read.ends_with("</svg>\n"));
    for target in ["/dev/stdout", "/dev/fd/1", "-"] {
        assert_eq!(text(&wall(target).output().unwrap().stdout), read, "{target}");
    }
    let into = folder.0.join("into.svg");
    assert!(wall("/dev/stdout").stdout(fs::File::create(&into).unwrap()).status().unwrap().success());
    assert_eq!(fs::read_to_string(&into).unwrap(), read);
    assert!(wall("/dev/null").status().unwrap().success());
    assert_eq!(status(&wall("/dev/full").output().unwrap()), 2);
    assert_eq!(folder.files(), ["branches.csv", "buses.csv", "into.svg", "pipe"]);
}

/// However early or late it is interrupted, the old sheet or the new one is there, and no other file.
#[test]
fn interrupted() {
    let folder = network("interrupted");
    forty_and(&folder, "");
    drawn(&folder, &["-o", "sheet.svg"]);
    let new = fs::read(folder.0.join("sheet.svg")).unwrap();
    let files = folder.files();
    let mut ended = 0;
    for turn in 0..120 {
        folder.write("sheet.svg", b"the old sheet");
        let mut child = Command::new(env!("CARGO_BIN_EXE_wall"))
            .args(["draw", ".", "-o", "sheet.svg"])
            .current_dir(&folder.0)
            .stderr(Stdio::null())
            .spawn()
            .unwrap();
        let signal = ["-INT", "-TERM", "-HUP"][turn % 3];
        // Every other time as soon as another file is seen, else after a while that grows.
        if turn % 2 == 0 {
            while child.try_wait().unwrap().is_none() && folder.files() == files {}
        } else {
            std::thread::sleep(Duration::from_millis(turn as u64));
        }
        let _ = Command::new("kill").args([signal, &child.id().to_string()]).stderr(Stdio::null()).status();
        ended += usize::from(child.wait().unwrap().code().is_none());
        assert_eq!(folder.files(), files, "{turn}");
        let there = fs::read(folder.0.join("sheet.svg")).unwrap();
        assert!(there == new || there == b"the old sheet", "{turn}");
    }
    assert!(ended > 0, "none was interrupted");
}
