//! What planning tools and spreadsheets really write: separators, encodings, decimal commas, empty rows, other words; all errors
//! at once; and exports that can be read and can hardly be meant.
mod help;
use help::{status, text, wall_in, Folder};

const BUSES: &str = "name,substation,kv,x,y\nA 1,Acre,66,0,0\nB 1,Barn,66,9000,0\nC 1,Croft,66,0,7000\n";
const BRANCHES: &str = "name,from,to,in_service\nL,A 1,B 1,1\nM,A 1,C 1,0\n";

/// What is printed of two files: the audit, and what is said beside it.
fn audit(buses: &[u8], branches: &[u8]) -> (i32, String, String) {
    let folder = Folder::new("planners");
    folder.write("buses.csv", buses);
    folder.write("branches.csv", branches);
    let output = wall_in(&folder.0, &["audit", "."]);
    (status(&output), text(&output.stdout), text(&output.stderr))
}

/// The audit's figures without the network's name and the files' sums.
fn figures(printed: &str) -> String {
    printed.lines().filter(|line| !line.starts_with("SHA-256") && !line.starts_with("Network")).collect()
}

#[test]
fn the_same_network_in_other_clothes() {
    let (_, plain, none) = audit(BUSES.as_bytes(), BRANCHES.as_bytes());
    assert_eq!(none, "");
    let semicolons = BUSES.replace(',', ";").replace("9000", "9000,0");
    let tabs = BRANCHES.replace(',', "\t");
    let utf16 = |text: &str, unit: fn(u16) -> [u8; 2], mark: [u8; 2]| {
        mark.into_iter().chain(text.encode_utf16().flat_map(unit)).collect::<Vec<u8>>()
    };
    let cases: Vec<(Vec<u8>, Vec<u8>, Vec<&str>)> = vec![
        (
            semicolons.clone().into_bytes(),
            tabs.clone().into_bytes(),
            vec![
                "note: ./buses.csv: fields are separated by semicolons\n",
                "note: ./buses.csv:3: numbers have decimal commas\n",
                "note: ./branches.csv: fields are separated by tabs\n",
            ],
        ),
        (
            format!("sep=;\r\n{}", semicolons.replace('\n', "\r\n")).into_bytes(),
            format!("SEP=|\n{}", BRANCHES.replace(',', "|")).into_bytes(),
            vec!["fields are separated by semicolons\n", "fields are separated by the character '|'\n"],
        ),
        (
            utf16(BUSES, u16::to_le_bytes, [0xFF, 0xFE]),
            utf16(&tabs, u16::to_be_bytes, [0xFE, 0xFF]),
            vec!["note: ./buses.csv: read as UTF-16, as its byte order mark says\n"],
        ),
        (
            format!("{BUSES},,,,\n\n , ,,,\n").into_bytes(),
            BRANCHES
                .replace("in_service", "in_service,")
                .replace(",1\n", ",1,,,\n")
                .replace(",0\n", ",0,\n")
                .into_bytes(),
            vec!["note: ./buses.csv: rows without anything in them, passed over: 2\n"],
        ),
        (BUSES.as_bytes().to_vec(), BRANCHES.replace(",1\n", ",Y\n").replace(",0\n", ",N\n").into_bytes(), vec![]),
        (
            BUSES.as_bytes().to_vec(),
            BRANCHES.replace(",1\n", ",Closed\n").replace(",0\n", ",Open\n").into_bytes(),
            vec![],
        ),
        (BUSES.as_bytes().to_vec(), BRANCHES.replace(",1\n", ",1.0\n").replace(",0\n", ",0.0\n").into_bytes(), vec![]),
    ];
    for (buses, branches, notes) in cases {
        let (code, printed, said) = audit(&buses, &branches);
        assert_eq!((code, figures(&printed)), (0, figures(&plain)), "{said}");
        assert!(notes.iter().all(|note| said.contains(note)) && (!notes.is_empty() || said.is_empty()), "{said}");
    }
}

#[test]
fn latin_1_is_read_and_said() {
    let buses = BUSES.replace("A 1", "S\u{FC}d 1").chars().map(|c| c as u8).collect::<Vec<u8>>();
    let folder = Folder::new("latin");
    folder.write("buses.csv", &buses);
    folder.write("branches.csv", BRANCHES.replace("A 1", "S\u{FC}d 1").as_bytes());
    let output = wall_in(&folder.0, &["draw", ".", "-o", "sheet.svg"]);
    let note =
        "note: ./buses.csv: read as Windows-1252 (Latin-1), since it isn't UTF-8: the byte FC at 2:2 is taken as \
                'ü'\n";
    assert!(status(&output) == 0 && text(&output.stderr).contains(note), "{}", text(&output.stderr));
    assert!(std::fs::read_to_string(folder.0.join("sheet.svg")).unwrap().contains("<title>Süd 1</title>"));
}

#[test]
fn numbers_of_two_kinds_are_refused() {
    let buses = "name;substation;kv;x;y\nA 1;Acre;66;0,5;0\nB 1;Barn;66;9000.5;0\nC 1;Croft;66;0;1.234,5\n";
    let (code, _, said) = audit(buses.as_bytes(), BRANCHES.as_bytes());
    let expected =
        "wall: ./buses.csv:3:13: expected a coordinate x, a decimal number or nothing, with a decimal comma as \
                    in line 2; found '9000.5'\n./buses.csv:4:16: expected a coordinate y, a decimal number or nothing, \
                    found '1.234,5'\n2 errors\n";
    assert_eq!((code, said.as_str()), (2, expected));
}

#[test]
fn all_errors_are_said_at_once() {
    let rows: String = (0..60).map(|i| format!("L{i},A 1,B 1,maybe\n")).collect();
    let (code, _, said) = audit(BUSES.as_bytes(), format!("name,from,to,in_service\n{rows}").as_bytes());
    assert_eq!((code, said.lines().count()), (2, 51));
    assert!(said.ends_with("60 errors, of which the first 50 are listed\n"), "{said}");
    let rows = "name,from,to,in_service\nL,A1,Bran 1,1\nL,A 1,C 1,opne\nM,Mill 7,C 1,0\n,A 1\n";
    let (_, _, said) = audit(BUSES.as_bytes(), rows.as_bytes());
    let bus = "expected the name of a bus of buses.csv, found";
    let service = "expected 1, true, yes or closed (in service), or 0, false, no or open (open); found 'opne'";
    let expected = format!(
        "wall: ./branches.csv:2:3: {bus} 'A1'; did you mean 'A 1'?\n./branches.csv:2:6: {bus} 'Bran 1'\n./branches.csv:3:1: expected a name that no other row has; 'L' stands in line 2 too\n\
         ./branches.csv:3:11: {service}; did you mean 'open'?\n./branches.csv:4:3: {bus} 'Mill 7'\n\
         ./branches.csv:5:1: expected 4 fields, as in the header line; found 2\n6 errors\n"
    );
    assert_eq!(said, expected);
}

#[test]
fn what_can_hardly_be_meant_is_said() {
    let said = |buses: &str| audit(buses.as_bytes(), BRANCHES.as_bytes()).2;
    let volts = said(&BUSES.replace("66", "66000"));
    let note =
        "note: voltages that look like volts, not kilovolts: 3, the first is 66000 kV, perhaps 66 kV: bus 'A 1', \
                ./buses.csv:2\n";
    assert!(volts.contains(note), "{volts}");
    let point = said(&BUSES.replace("9000", "0").replace("7000", "0"));
    assert!(point.contains("note: all substations stand on one point, (0, 0): the drawing has no map\n"), "{point}");
    let degrees = "name,substation,kv,x,y\nA 1,Acre,66,8.1,47.3\nB 1,Barn,66,8.7,47.9\nC 1,Croft,66,7.9,48.2\n";
    let north = said(degrees);
    assert!(north.contains("note: coordinates look like longitudes and latitudes"), "{degrees}{north}");
    let folder = Folder::new("north");
    folder.write("buses.csv", degrees.as_bytes());
    folder.write("branches.csv", BRANCHES.as_bytes());
    let output = wall_in(&folder.0, &["audit", ".", "--y-up"]);
    assert!(!text(&output.stderr).contains("longitudes"));
    let stray = said(&format!("{BUSES}A 2,Acre,66,10,0\nA 3,Acre,66,5,8000\n"));
    let note = "note: a bus stands far from the others of substation 'Acre': bus 'A 3', ./buses.csv:6\n";
    assert!(stray.contains(note) && stray.matches("stands far").count() == 1, "{stray}");
}

#[test]
fn a_workbook_is_named() {
    let folder = Folder::new("workbook");
    folder.write("buses.xlsx", b"PK\x03\x04");
    let output = wall_in(&folder.0, &["audit", "."]);
    let expected = "wall: ./buses.xlsx: expected buses.csv, found an Excel workbook: save its sheet as CSV (UTF-8), \
                    beside it as buses.csv\n";
    assert_eq!((status(&output), text(&output.stderr)), (2, expected.to_string()));
    folder.write("net.xlsx", b"PK\x03\x04");
    let output = wall_in(&folder.0, &["audit", "net.xlsx"]);
    let expected =
        "wall: net.xlsx: expected the folder with buses.csv and branches.csv, found an Excel workbook: save \
                    its sheets as these two files\n";
    assert_eq!((status(&output), text(&output.stderr)), (2, expected.to_string()));
}
