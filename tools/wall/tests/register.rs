//! Numbers that stay: kept from the last sheet, its list or export; said by `compare`, and verified by `check`.
mod help;
use help::{root, status, text, wall_in, Folder};
use std::collections::BTreeMap;
use std::fs;

const BUSES: &str =
    "name,substation,kv,x,y\nA 1,Acre,66,0,0\nB 1,Barn,66,9000,0\nC 1,Croft,66,0,7000\nC 2,Croft,66,0,7000\n";

/// A folder with the week's rows of branches.
fn week(folder: &Folder, name: &str, rows: &[&str]) {
    let path = folder.0.join(name);
    fs::create_dir_all(&path).unwrap();
    fs::write(path.join("buses.csv"), BUSES).unwrap();
    fs::write(path.join("branches.csv"), format!("name,from,to,in_service\n{}\n", rows.join("\n"))).unwrap();
}

const ROWS: [&str; 4] = ["Acre Barn,A 1,B 1,1", "Acre Croft,A 1,C 1,1", "Barn Croft,B 1,C 2,1", "Section,C 1,C 2,0"];

/// The first week has all rows; in the second one is gone, one is new and one renamed; in the third that one is back.
fn weeks() -> Folder {
    let folder = Folder::new("weeks");
    week(&folder, "one", &ROWS);
    week(&folder, "two", &["New,A 1,C 2,1", ROWS[1], "Barn to Croft,C 2,B 1,1", ROWS[3]]);
    week(&folder, "three", &[ROWS[0], "New,A 1,C 2,1", ROWS[3], ROWS[1]]);
    folder
}

fn run(folder: &Folder, line: &str) -> (i32, String, String) {
    let output = wall_in(&folder.0, &line.split(' ').collect::<Vec<_>>());
    (status(&output), text(&output.stdout), text(&output.stderr))
}

/// The number of each branch, by the titles of a sheet's runs.
fn numbers(folder: &Folder, sheet: &str) -> BTreeMap<String, String> {
    let sheet = fs::read_to_string(folder.0.join(sheet)).unwrap();
    let titles = help::svg::with(&sheet, "data-branch").into_iter().map(help::svg::title);
    let two = |title: String| title.split_once(' ').map(|(number, name)| (name.to_string(), number.to_string()));
    titles.map(|title| two(title).unwrap()).collect()
}

fn is(folder: &Folder, sheet: &str, wanted: &[(&str, &str)]) {
    let wanted = wanted.iter().map(|(name, number)| (name.to_string(), number.to_string())).collect();
    assert_eq!(numbers(folder, sheet), wanted);
}

#[test]
fn a_number_is_kept_and_none_comes_back() {
    let folder = weeks();
    assert_eq!(run(&folder, "draw one -o 1.svg").0, 0);
    let (code, _, said) = run(&folder, "draw two -o 2.svg --numbers-from 1.svg");
    let kept = "wall: note: numbers kept from 1.svg: 3\nwall: note: new numbers: 1: 5 'New'\n\
                wall: note: numbers retired: 1: 1 'Acre Barn'\n\
                wall: note: numbers kept by their buses, under new names: 1: 3 'Barn to Croft', was 'Barn Croft'\n";
    assert!(code == 0 && said.contains(kept), "{said}");
    is(&folder, "2.svg", &[("New", "5"), ("Acre Croft", "2"), ("Barn to Croft", "3"), ("Section", "4")]);
    let (code, _, said) = run(&folder, "draw three -o 3.svg --numbers-from 2.svg");
    let back = "note: branches with the names of retired ones, which got new numbers: 1: 6 'Acre Barn', was 1\n";
    assert!(code == 0 && said.contains(back), "{said}");
    is(&folder, "3.svg", &[("Acre Barn", "6"), ("New", "5"), ("Acre Croft", "2"), ("Section", "4")]);
    // The sheet may take the place of the last one.
    assert_eq!(run(&folder, "draw two -o 3.svg --numbers-from 3.svg").0, 0);
    is(&folder, "3.svg", &[("New", "5"), ("Acre Croft", "2"), ("Barn to Croft", "7"), ("Section", "4")]);
    for (sheet, network) in [("1.svg", "one"), ("2.svg", "two"), ("3.svg", "two")] {
        assert_eq!(run(&folder, &format!("check {sheet} {network}")).0, 0);
    }
}

#[test]
fn the_last_numbers_are_read_from_sheets_lists_and_exports() {
    let folder = weeks();
    assert_eq!(run(&folder, "draw one -o 1.svg").0, 0);
    assert_eq!(run(&folder, "draw one -o 1.pdf").0, 0);
    let list = "number,branch,from,to,state\n1,Acre Barn,A 1,B 1,used\n2,Acre Croft,A 1,C 1,used\n\
                3,Barn Croft,B 1,C 2,used\n4,Section,C 1,C 2,used\n9,Gone,A 1,B 1,retired\n";
    folder.write("list.csv", list.as_bytes());
    for (last, new) in [("1.svg", "5"), ("1.pdf", "5"), ("one", "5"), ("list.csv", "10")] {
        let (code, _, said) = run(&folder, &format!("draw two -o 2.svg --numbers-from {last}"));
        assert_eq!(code, 0, "{said}");
        is(&folder, "2.svg", &[("New", new), ("Acre Croft", "2"), ("Barn to Croft", "3"), ("Section", "4")]);
        let sheet = fs::read_to_string(folder.0.join("2.svg")).unwrap();
        assert!(sheet.contains("&#10;1,Acre Barn,A 1,B 1,retired&#10;"));
        assert_eq!(sheet.contains("&#10;9,Gone,A 1,B 1,retired&#10;"), last == "list.csv");
    }
}

#[test]
fn one_row_less_changes_no_number() {
    let folder = Folder::new("forty");
    let forty = root().join("examples/forty");
    let forty = forty.to_str().unwrap();
    let rows = fs::read_to_string(root().join("examples/forty/branches.csv")).unwrap();
    fs::create_dir(folder.0.join("next")).unwrap();
    let without: Vec<&str> = rows.lines().filter(|line| !line.starts_with("KES T1,")).collect();
    fs::write(folder.0.join("next/branches.csv"), without.join("\n")).unwrap();
    fs::copy(root().join("examples/forty/buses.csv"), folder.0.join("next/buses.csv")).unwrap();
    assert_eq!(run(&folder, &format!("draw {forty} -o 1.svg")).0, 0);
    assert_eq!(run(&folder, "draw next -o 2.svg --numbers-from 1.svg").0, 0);
    let (mut first, second) = (numbers(&folder, "1.svg"), numbers(&folder, "2.svg"));
    first.remove("KES T1");
    assert_eq!((second.len(), &second), (299, &first));
    assert_eq!(run(&folder, "check 2.svg next --numbers-from 1.svg").0, 0);
    let (code, said, _) = run(&folder, &format!("compare {forty} next --numbers-from 1.svg"));
    assert_eq!((code, said.lines().count()), (1, 2), "{said}");
    let (_, said, _) = run(&folder, &format!("compare {forty} next"));
    let last = "Other numbers on the sheet, since rows moved: 297 of 299 branches; --numbers-from keeps numbers.\n";
    assert!(said.ends_with(last) && said.contains("branch KES T2: number 3, was 4\n"), "{said}");
}

#[test]
fn compare_says_each_changed_number() {
    let folder = weeks();
    let rows = |numbers: [&str; 2]| {
        let [a, b] = numbers;
        format!("number,name,from,to,in_service\n{a},Acre Barn,A 1,B 1,1\n{b},Acre Croft,A 1,C 1,1\n")
    };
    folder.write("one/branches.csv", rows(["F1", "F2"]).as_bytes());
    folder.write("two/branches.csv", rows(["F2", "F1"]).as_bytes());
    let (code, said, _) = run(&folder, "compare one two -o sheet.svg --csv rows.csv");
    assert_eq!(code, 1);
    assert!(said.starts_with("branch Acre Barn: number F2, was F1\nbranch Acre Croft: number F1, was F2\n"), "{said}");
    assert!(fs::read_to_string(folder.0.join("sheet.svg")).unwrap().contains(">F2 NUMBER</text>"));
    let rows = fs::read_to_string(folder.0.join("rows.csv")).unwrap();
    assert!(rows.contains("branch,Acre Barn,number,F1,F2,2,2\n"), "{rows}");
}

#[test]
fn what_numbers_cannot_be_kept_from() {
    let folder = weeks();
    folder.write("other.svg", b"<svg xmlns='http://www.w3.org/2000/svg'/>");
    folder.write("other.pdf", b"%PDF-1.4\n");
    folder.write("other.csv", b"name,from\n");
    folder.write("strange.csv", b"number,branch,from,to,state\n1,X,Y,Z,used\n");
    folder.write("long.csv", b"number,branch,from,to,state\n999999,Acre Croft,A 1,C 1,used\n");
    let without = "expected a whole sheet with its list of numbers, found none: it isn't a sheet, or a part, or of an \
                   earlier wall";
    let header = "other.csv:1:1: expected a list of numbers with the header line number,branch,from,to,state";
    let strange = "strange.csv: expected the last sheet, list or export of this network; none of its branches is in \
                   this one";
    let long = "long.csv: expected a number of at most 6 digits for the new branch 'New', and 1000000 is longer";
    for (last, expected) in [
        ("nowhere", "nowhere: No such file or directory (os error 2)".to_string()),
        ("other.svg", format!("other.svg: {without}")),
        ("other.pdf", format!("other.pdf: {without}")),
        ("other.csv", header.to_string()),
        ("strange.csv", strange.to_string()),
        ("long.csv", long.to_string()),
    ] {
        let before = folder.files();
        let (code, _, said) = run(&folder, &format!("draw two -o 2.svg --numbers-from {last}"));
        assert_eq!((code, said), (2, format!("wall: {expected}\n")));
        assert_eq!(folder.files(), before);
    }
    let rows = "number,name,from,to,in_service\n7,Acre Barn,A 1,B 1,1\n";
    folder.write("two/branches.csv", rows.as_bytes());
    let (code, _, said) = run(&folder, "draw two -o 2.svg --numbers-from one");
    assert!(code == 2 && said.contains("expected no column number beside --numbers-from"), "{said}");
    let works = root().join("examples/works.txt");
    let (code, _, said) = run(&folder, &format!("audit {} --numbers-from one", works.to_str().unwrap()));
    assert!(code == 2 && said.contains("expected an export with names for --numbers-from"), "{said}");
}

#[test]
fn the_list_and_the_numbers_are_checked() {
    let folder = weeks();
    assert_eq!(run(&folder, "draw one -o 1.svg").0, 0);
    let sheet = fs::read_to_string(folder.0.join("1.svg")).unwrap();
    let list = sheet.lines().find(|line| line.contains("<metadata")).unwrap();
    for (old, new, expected) in [
        (list, "", "the sheet has 0 lists of its numbers, not one"),
        ("1,Acre Barn,A 1,B 1,used&#10;", "", "branch 'Acre Barn', one/branches.csv:2 isn't in the list of numbers"),
        ("1,Acre Barn,", "8,Acre Barn,", "has the number '8' in the list of numbers, and another on its run"),
        ("1,Acre Barn,A 1,B 1", "1,Acre Barn,A 1,C 1", "stands in the list of numbers with other buses"),
        ("1,Acre Barn,", "2,Acre Barn,", "the list of numbers has the number '2' twice"),
        ("1,Acre Barn,", "1,Acre Bran,", "the list of numbers has 'Acre Bran', which the network hasn't"),
        ("B 1,used", "B 1,usd", "the list of numbers has a state that is neither used nor retired"),
        ("number,branch", "no,branch", "the list of numbers hasn't the columns number, branch, from, to, state"),
        ("1,Acre Barn,", "\"1,Acre Barn,", "the list of numbers can't be read"),
    ] {
        assert!(sheet.contains(old), "{old}");
        let new = new.replace('"', "&quot;");
        folder.write("1.svg", sheet.replacen(old, &new, 1).as_bytes());
        let (code, said, _) = run(&folder, "check 1.svg one");
        assert!(code == 1 && said.contains(expected), "{said}");
    }
    // A sheet with numbers of its own is right by itself, and wrong where the numbers are known.
    week(&folder, "one", &[ROWS[1], ROWS[0], ROWS[2], ROWS[3]]);
    assert_eq!(run(&folder, "draw one -o 2.svg").0, 0);
    folder.write("1.svg", sheet.as_bytes());
    assert_eq!(run(&folder, "check 2.svg one").0, 0);
    let (code, said, _) = run(&folder, "check 2.svg one --numbers-from 1.svg");
    let wrong = "branch 'Acre Barn', one/branches.csv:3 has the number '2' on the sheet, and '1' is its own";
    assert!(code == 1 && said.contains(wrong), "{said}");
}
