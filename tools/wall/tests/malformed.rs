//! Malformed exports and texts: each is said with its file, line, column and what was expected, and nothing is written.
mod help;
use help::{status, text, wall_in, Folder};

const BUSES: &[u8] = b"name,substation,kv,x,y\nA,S,66,0,0\nB,T,66,9,5\n";
const BRANCHES: &[u8] = b"name,from,to,in_service\nL,A,B,1\n";

/// The message for a folder whose file holds the given bytes, the other file being in order.
fn message(name: &str, content: &[u8]) -> String {
    let folder = Folder::new("export");
    folder.write("buses.csv", BUSES);
    folder.write("branches.csv", BRANCHES);
    folder.write(name, content);
    refused(&folder, ".")
}

/// The message for a text of `drawlist`.
fn text_message(content: &[u8]) -> String {
    let folder = Folder::new("text");
    folder.write("net.txt", content);
    refused(&folder, "net.txt")
}

/// What is said of a network; a sheet that was there stays, and no other file comes.
fn refused(folder: &Folder, network: &str) -> String {
    folder.write("sheet.svg", b"the old sheet");
    let before = folder.files();
    let output = wall_in(&folder.0, &["draw", network, "-o", "sheet.svg"]);
    assert_eq!(status(&output), 2);
    assert_eq!(text(&output.stdout), "");
    assert_eq!(folder.files(), before);
    assert_eq!(std::fs::read(folder.0.join("sheet.svg")).unwrap(), b"the old sheet");
    let said = text(&output.stderr);
    said.strip_prefix("wall: ").unwrap().trim_end().replace("./", "")
}

const BUS_HEADER: &str = "expected a header line with the columns name, substation, kv, x, y";
const BRANCH_HEADER: &str = "expected a header line with the columns name, from, to, in_service";
const KV: &str = "expected a voltage in kV, a decimal number above 0 (0 for an unknown one is not taken)";
const X: &str = "expected a coordinate x, a decimal number or nothing";
const SERVICE: &str = "expected 1, true, yes or closed (in service), or 0, false, no or open (open)";

#[test]
fn bus_files() {
    let header = "name,substation,kv,x,y\n";
    let after_header: &[(&str, &str)] = &[
        ("A,S,66,0\n", "2:1: expected 5 fields, as in the header line; found 4"),
        ("A,S,66,0,0,,7\n", "2:12: expected 5 fields, as in the header line; found 7"),
        ("A,S,66,0,0,7\n", "2:12: expected 5 fields, as in the header line; found 6"),
        ("A,S,,0,0\n", &format!("2:5: {KV}, found nothing")),
        ("A,S,66 kV,0,0\n", &format!("2:5: {KV}, found '66 kV'; did you mean '66'?")),
        ("A,S,-66,0,0\n", &format!("2:5: {KV}, found '-66'")),
        ("A,S,0,0,0\n", &format!("2:5: {KV}, found '0'")),
        ("A,S,-0,0,0\n", &format!("2:5: {KV}, found '-0'")),
        ("A,S,NaN,0,0\n", &format!("2:5: {KV}, found 'NaN'")),
        ("A,S,1e999,0,0\n", &format!("2:5: {KV}, found '1e999'")),
        ("A,S,66,east,0\n", &format!("2:8: {X}, found 'east'")),
        ("A,S,66,\"1,5\",0\n", &format!("2:8: {X}, found '1,5'")),
        ("A,S,66,inf,0\n", &format!("2:8: {X}, found 'inf'")),
        ("A,S,66,0,0x10\n", "2:10: expected a coordinate y, a decimal number or nothing, found '0x10'"),
        (",S,66,0,0\n", "2:1: expected a bus's name, found nothing"),
        ("A, ,66,0,0\n", "2:3: expected a substation's name, found nothing"),
        (
            "A,S,66,0,0\nB,S,66,0,0\nA,T,66,0,0\n",
            "4:1: expected a name that no other row has; 'A' stands in line 2 too",
        ),
        ("\"A,S,66,0,0\n", "2:1: expected a closing quote; the file ends inside the field that opens here"),
        ("\"A\"1,S,66,0,0\n", "2:4: expected a comma or the end of the line after the closing quote"),
        ("A\"1\",S,66,0,0\n", "2:2: expected a quote only where a field begins, or doubled inside a quoted field"),
        ("A,S,66,0,0\rB,S,66,0,0\n", "2:11: expected a line feed after the carriage return"),
        ("\"A\nB\",S,x,0,0\n", &format!("3:6: {KV}, found 'x'")),
        ("A\u{1},S,66,0,0\n", "2:2: expected text, found the control character U+0001"),
    ];
    for (rows, expected) in after_header {
        assert_eq!(
            message("buses.csv", format!("{header}{rows}").as_bytes()),
            format!("buses.csv:{expected}"),
            "{rows:?}"
        );
    }
}

#[test]
fn bus_headers_and_encodings() {
    let cases: &[(&[u8], &str)] = &[
        (b"", &format!("1:1: {BUS_HEADER}; the file is empty")),
        (b"\r\n\r\n", &format!("1:1: {BUS_HEADER}; the file is empty")),
        (
            b"name,substation,x,y\n",
            &format!("1:1: {BUS_HEADER}; 'kv' isn't there, found 'name', 'substation', 'x', 'y'"),
        ),
        (b"A,S,66,0,0\n", &format!("1:1: {BUS_HEADER}; 'name' isn't there, found 'A', 'S', '66', '0', '0'")),
        (
            b"name;sub station 1;kv;x;y\n",
            &format!(
                "1:1: {BUS_HEADER}; 'substation' isn't there, found 'name', 'sub station 1', 'kv', 'x', 'y'; is it \
                 'sub station 1'?"
            ),
        ),
        (
            b"name|substation|kv|x|y\n",
            &format!("1:1: {BUS_HEADER}; 'name' isn't there, found 'name|substation|kv|x|y'"),
        ),
        (b"PK\x03\x04rest", " expected comma-separated text, found an Excel workbook: save its sheet as CSV (UTF-8)"),
        (b"name,substation,kv,x,y,KV\n", "1:24: expected one column 'kv', found a second"),
        (b"\xFF\xFEn\0a\0m", "1:3: expected UTF-16 text, found half a character"),
        (b"name,substation,kv,x,y\nS\x81d,S,66,0,0\n", "2:2: expected text, found the control character U+0081"),
        (b"name,substation,kv,x,y\nA,S\0,66,0,0\n", "2:4: expected text, found the control character U+0000"),
    ];
    for (content, expected) in cases {
        assert_eq!(message("buses.csv", content), format!("buses.csv:{expected}"));
    }
}

#[test]
fn branch_files() {
    let header = "name,from,to,in_service\n";
    let cases: &[(&str, &str)] = &[
        ("L,A,C,1\n", "2:5: expected the name of a bus of buses.csv, found 'C'"),
        ("L,a,B,1\n", "2:3: expected the name of a bus of buses.csv, found 'a'; did you mean 'A'?"),
        ("L,,B,1\n", "2:3: expected the name of a bus, found nothing"),
        ("L,A,B,\n", &format!("2:7: {SERVICE}; found nothing")),
        ("L,A,B,2\n", &format!("2:7: {SERVICE}; found '2'")),
        ("L,A,B,clsoed\n", &format!("2:7: {SERVICE}; found 'clsoed'; did you mean 'closed'?")),
        ("L,A,B,1\nL,B,A,1\n", "3:1: expected a name that no other row has; 'L' stands in line 2 too"),
        (",A,B,1\n", "2:1: expected a branch's name, found nothing"),
        ("L,A,B\n", "2:1: expected 4 fields, as in the header line; found 3"),
        ("L;A;B;1\n", "2:1: expected 4 fields, as in the header line; found 1"),
    ];
    for (rows, expected) in cases {
        assert_eq!(
            message("branches.csv", format!("{header}{rows}").as_bytes()),
            format!("branches.csv:{expected}"),
            "{rows:?}"
        );
    }
    assert_eq!(
        message("branches.csv", b"name,from,to\n"),
        format!("branches.csv:1:1: {BRANCH_HEADER}; 'in_service' isn't there, found 'name', 'from', 'to'")
    );
}

/// A name has to fit a row of the index.
#[test]
fn long_names() {
    let long = "n".repeat(201);
    let start = "n".repeat(40);
    let expected = format!("expected a name of at most 200 characters, found '{start}…'");
    let header = "name,substation,kv,x,y\n";
    assert_eq!(
        message("buses.csv", format!("{header}{long},S,66,0,0\n").as_bytes()),
        format!("buses.csv:2:1: {expected}")
    );
    assert_eq!(
        message("buses.csv", format!("{header}A,{long},66,0,0\n").as_bytes()),
        format!("buses.csv:2:3: {expected}")
    );
    let branches = format!("name,from,to,in_service\n{long},A,B,1\n");
    assert_eq!(message("branches.csv", branches.as_bytes()), format!("branches.csv:2:1: {expected}"));
}

const ZERO: &str = "0000000000000000";

/// A text with one bus and these lines of branches.
fn with_branches(lines: &str) -> String {
    format!("sub kv x y\n0 4059000000000000 {ZERO} {ZERO}\nfrom to live\n{lines}")
}

fn said_of_texts(cases: &[(String, &str)]) {
    for (content, expected) in cases {
        assert_eq!(text_message(content.as_bytes()), format!("net.txt:{expected}"), "{content:?}");
    }
}

#[test]
fn lines_of_texts() {
    let names = "1:1: expected the line 'sub kv x y', found";
    said_of_texts(&[
        (String::new(), &format!("{names} the end of the file")),
        ("sub kv x\n".to_string(), &format!("{names} 'sub kv x'")),
        ("sub kv x y\r\nfrom to live\r\n".to_string(), &format!("{names} 'sub kv x y\u{FFFD}'")),
        ("\u{FEFF}sub kv x y\nfrom to live\n".to_string(), &format!("{names} a byte order mark before it")),
        ("sub kv x y\n".to_string(), "2:1: expected the line 'from to live', found the end of the file"),
        (with_branches("0 0 1"), "4:6: expected a line feed at the end of the last line"),
        (with_branches("0 0 1 1\n"), "4:1: expected 3 fields with one space between (a branch: from to live), found 4"),
    ]);
}

#[test]
fn buses_of_texts() {
    let bus = |line: &str| format!("sub kv x y\n{line}\nfrom to live\n");
    let float = "as the 16 capital hexadecimal digits of a 64-bit float, found";
    let sub = "2:1: expected a substation number, a whole number from 0 to 4294967295; found";
    let five = "2:1: expected 4 fields with one space between (a bus: sub kv x y), found 5";
    said_of_texts(&[
        (bus(&format!("0 {ZERO} {ZERO} {ZERO} ")), five),
        (bus(&format!("00 {ZERO} {ZERO} {ZERO}")), &format!("{sub} '00'")),
        (bus(&format!("4294967296 {ZERO} {ZERO} {ZERO}")), &format!("{sub} '4294967296'")),
        (bus(&format!("0 40590000 {ZERO} {ZERO}")), &format!("2:3: expected kv {float} '40590000'")),
        (bus(&format!("0 {ZERO} {ZERO} 405900000000000a")), &format!("2:37: expected y {float} '405900000000000a'")),
        (bus(&format!("0 {ZERO} +00000000000000A {ZERO}")), &format!("2:20: expected x {float} '+00000000000000A'")),
    ]);
}

#[test]
fn branches_of_texts() {
    let number = "expected a bus number, a whole number of 64 bits with a minus where it is below 0; found";
    said_of_texts(&[
        (with_branches("0 -0 1\n"), &format!("4:3: {number} '-0'")),
        (with_branches("9223372036854775808 0 1\n"), &format!("4:1: {number} '9223372036854775808'")),
        (with_branches("0  1\n"), &format!("4:3: {number} ''")),
        (with_branches("0 0 256\n"), "4:5: expected a service flag, a whole number from 0 to 255; found '256'"),
    ]);
}

#[test]
fn missing_files() {
    let folder = Folder::new("missing");
    assert_eq!(refused(&folder, "nowhere"), "nowhere: No such file or directory (os error 2)");
    folder.write("buses.csv", BUSES);
    assert_eq!(refused(&folder, "."), "branches.csv: No such file or directory (os error 2)");
    let one = "buses.csv: expected the folder with buses.csv and branches.csv, found one file of it";
    assert_eq!(refused(&folder, "buses.csv"), one);
}

#[test]
fn refusals_name_the_row() {
    let buses = |rows: &str| format!("name,substation,kv,x,y\n{rows}");
    let far = buses("A,S,66,0,0\nB,T,66,9,5\nC,T,66,-2e12,5\n");
    assert_eq!(
        message("buses.csv", far.as_bytes()),
        "refused 6: a bus with two finite coordinates has one above 10^12 in size; bus 'C', buses.csv:4 is at (-2e12, 5e0)"
    );
    let lone = buses("A,S,66,1e12,0\nB,S,66,1e12,0\n");
    let said = message("buses.csv", lone.as_bytes());
    assert!(
        said.starts_with("refused 8: ")
            && said.ends_with("the farthest from (0, 0) is bus 'A', buses.csv:2, at (1e12, 0e0)"),
        "{said}"
    );
    let many: String = (0..4097).map(|i| format!("N{i},S{i},11,{i},0\n")).collect();
    let branches = |rows: &str| format!("name,from,to,in_service\n{rows}");
    let folder = Folder::new("many");
    folder.write("buses.csv", buses(&many).as_bytes());
    folder.write("branches.csv", branches("L,N0,N1,1\n").as_bytes());
    assert_eq!(
        refused(&folder, "."),
        "refused 1: more than 4,096 buses or 8,192 branches; there are 4,097 buses, the first too many is bus 'N4096', buses.csv:4098"
    );
    let lines: String = (0..8193).map(|i| format!("L{i},A,B,1\n")).collect();
    assert_eq!(
        message("branches.csv", branches(&lines).as_bytes()),
        "refused 1: more than 4,096 buses or 8,192 branches; there are 8,193 branches, the first too many is branch 'L8192', branches.csv:8194"
    );
    assert_eq!(
        text_message(format!("sub kv x y\n0 {ZERO} {ZERO} {ZERO}\n7 {ZERO} {ZERO} {ZERO}\nfrom to live\n0 1 1\n").as_bytes()),
        "refused 4: a substation number is not below the bus count; bus '1', net.txt:3 has substation 7, and there are 2 buses"
    );
}
