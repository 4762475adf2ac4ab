//! Colours belong to voltages.
mod help;
use help::svg::{attribute, rows, with};
use help::{made, root, sheet, status, text, wall_in, Folder};
use std::collections::HashMap;
use std::fs;

/// The colour of each bar by its name.
fn bars(sheet: &str) -> HashMap<String, String> {
    with(sheet, "data-bus")
        .into_iter()
        .map(|e| (help::svg::title(e), attribute(e, "stroke").unwrap().to_string()))
        .collect()
}

#[test]
fn another_voltage_changes_no_colour() {
    let folder = Folder::new("colours");
    for name in ["buses.csv", "branches.csv"] {
        let text = fs::read_to_string(root().join("examples/forty").join(name)).unwrap();
        let more = if name == "buses.csv" { "Kestrel Moor 132,Kestrel Moor,132,7500,6500\n" } else { "" };
        folder.write(name, (text + more).as_bytes());
    }
    let (before, after) = (bars(&sheet(&root().join("examples/forty"), &[]).0), bars(&sheet(&folder.0, &[]).0));
    assert_eq!(after.len(), before.len() + 1);
    assert!(before.iter().all(|(name, colour)| after[name] == *colour));
}

#[test]
fn bars_and_lines_have_their_voltages_colours() {
    let network = made(40);
    let kv: HashMap<String, String> = rows(&fs::read_to_string(network.0.join("buses.csv")).unwrap())
        .into_iter()
        .map(|b| (b["name"].clone(), b["kv"].clone()))
        .collect();
    let table = HashMap::from([
        ("400", "#1d1a6b"),
        ("132", "#3a0a3f"),
        ("33", "#6f9a1c"),
        ("11", "#b45f06"),
        ("0.4", "#9a8f86"),
    ]);
    let (sheet, _) = sheet(&network.0, &[]);
    for (name, colour) in bars(&sheet) {
        assert_eq!(table[kv[&name].as_str()], colour, "{name}");
    }
    let branches = rows(&fs::read_to_string(network.0.join("branches.csv")).unwrap());
    for run in with(&sheet, "data-branch") {
        let branch = &branches[attribute(run, "data-branch").unwrap().parse::<usize>().unwrap()];
        let (a, b) = (&kv[&branch["from"]], &kv[&branch["to"]]);
        let expected = if a == b { table[a.as_str()] } else { "#1a1a1a" };
        assert_eq!(attribute(run, "stroke"), Some(expected), "{run}");
    }
}

#[test]
fn a_file_of_colours() {
    let folder = Folder::new("file");
    folder.write("own.csv", b"kv,colour,style\n66,#123456,double\nmixed,#abcdef,solid\n");
    let own = folder.0.join("own.csv");
    let drawn = sheet(&root().join("examples/forty"), &["--colours", own.to_str().unwrap()]).0;
    let used: Vec<&str> = with(&drawn, "data-bus").into_iter().filter_map(|e| attribute(e, "stroke")).collect();
    assert!(used.contains(&"#123456") && used.contains(&"#b45f06") && !used.contains(&"#17468f"));
    assert!(with(&drawn, "data-branch").iter().any(|e| attribute(e, "stroke") == Some("#abcdef")));
    folder.write("own.csv", b"kv,colour,style\n66,blue,double\n");
    let forty = root().join("examples/forty").canonicalize().unwrap();
    let output = wall_in(&folder.0, &["draw", forty.to_str().unwrap(), "-o", "s.svg", "--colours", "own.csv"]);
    assert_eq!(
        (status(&output), text(&output.stderr)),
        (2, "wall: own.csv:2:4: expected a colour as #rrggbb, found 'blue'\n".to_string())
    );
    assert_eq!(folder.files(), ["own.csv"]);
}

#[test]
fn voltages_that_look_alike_are_said() {
    let folder = Folder::new("alike");
    folder.write("buses.csv", b"name,substation,kv,x,y\nA,S,20,0,0\nB,T,10,9,9\n");
    folder.write("branches.csv", b"name,from,to,in_service\nL,A,B,1\n");
    let said = text(&wall_in(&folder.0, &["draw", ".", "-o", "s.svg"]).stderr);
    assert!(
        said.contains("note: 20 kV and 10 kV look alike without colour; --colours FILE gives each its own\n"),
        "{said}"
    );
}
