//! Damaged bars, boxes, names and pages, and files that aren't the sheet of their network, are found by the check.
mod help;
use help::damage::{added, at, changed, points, said, sheet, value, with_points, BUS, FORTY};
use help::{root, status, text, wall, wall_in, Folder, HERE};
use std::fs;
use std::path::Path;

#[test]
fn bars_and_boxes() {
    let folder = Folder::new("bars");
    let bar = at(BUS);
    let [p, q] = points(&sheet()[bar])[..] else { panic!() };
    let other = &sheet()[at("id=\"station-Alderbrook\"")];
    let corner = [value(other, "x"), value(other, "y")].map(|v| v.parse::<f64>().unwrap());
    let moved = [[corner[0] + 3.0, corner[1] + 3.0], [corner[0] + 3.0, corner[1] + 3.0 + q[1] - p[1]]];
    changed(
        &folder,
        bar,
        with_points(&sheet()[bar], &moved),
        "has its bar outside the box of substation 'Kestrel Moor'",
    );
    let second = points(&sheet()[at("id=\"bus-Kestrel_Moor_66_2\"")]);
    changed(&folder, bar, with_points(&sheet()[bar], &second), "has its bar on that of 'Kestrel Moor 66/1'");
    changed(&folder, bar, with_points(&sheet()[bar], &[p, [q[0] + 1.0, q[1]]]), "isn't one upright line");
    changed(&folder, bar, String::new(), "bus 'Kestrel Moor 66/1', examples/forty/buses.csv:2 has no bar");
    changed(
        &folder,
        bar,
        sheet()[bar].replace("<title>Kestrel Moor 66/1", "<title>Kestrel Moor 66/9"),
        "is titled 'Kestrel Moor 66/9'",
    );
    let boxed = at("id=\"station-Kestrel_Moor\"");
    changed(&folder, boxed, String::new(), "substation 'Kestrel Moor' has no box");
    let wide = format!("width=\"{}\"", value(&sheet()[boxed], "width"));
    changed(&folder, boxed, sheet()[boxed].replace(&wide, "width=\"9\""), "has its bar outside the box");
    changed(&folder, boxed, sheet()[boxed].replace(&wide, "width=\"0\""), "has a box that is no rectangle");
    let high = format!("height=\"{}\"", value(&sheet()[boxed], "height"));
    let taller = format!("height=\"{}\"", value(&sheet()[boxed], "height").parse::<f64>().unwrap() + 9.0);
    changed(&folder, boxed, sheet()[boxed].replace(&high, &taller), "a box that isn't of its bars' and rows' size");
    let beside = [[p[0] + 4.0, p[1]], [q[0] + 4.0, q[1]]];
    changed(&folder, bar, with_points(&sheet()[bar], &beside), "has its bar between two columns of its box");
    let ink = format!("stroke=\"{}\"", value(&sheet()[bar], "stroke"));
    changed(
        &folder,
        bar,
        sheet()[bar].replace(&ink, "stroke=\"#fefefe\""),
        "the bar of bus 'Kestrel Moor 66/1', examples/forty/buses.csv:2 can't be seen",
    );
    let dot = at("<circle cx=\"");
    let dots = at("<g id=\"dots\"") + 1;
    assert!(dot < dots);
    changed(&folder, dots, String::new(), "has no dot at its end");
    added(&folder, dots, format!("<circle cx=\"{}\" cy=\"{}\" r=\"1\"/>", p[0], p[1]), "where no live branch ends");
}

#[test]
fn names() {
    let folder = Folder::new("names");
    let number = value(&sheet()[at(BUS)], "data-bus");
    let label = at(&format!("data-label=\"{number}\""));
    assert!(sheet()[label].ends_with(">66/1</text>"));
    changed(&folder, label, sheet()[label].replace(">66/1<", ">66/2<"), "is named '66/2'");
    changed(&folder, label, sheet()[label].replace(">66/1<", ">66/2<"), "of the same box are both named '66/2'");
    changed(&folder, label, sheet()[label].replace(">66/1<", "><"), "is named ''");
    changed(
        &folder,
        label,
        sheet()[label].replace(">66/1<", ">66…<"),
        "is named '66…', which 'Kestrel Moor 66/2' of the same box could be too",
    );
    changed(&folder, label, String::new(), "has no name on the sheet, and isn't marked as without");
    changed(
        &folder,
        label,
        sheet()[label].replace(" fill=", " opacity=\"0.1\" fill="),
        "the name '66/1' can't be seen",
    );
    let data = format!("data-label=\"{number}\"");
    changed(&folder, label, sheet()[label].replace(&data, "data-label=\"x\""), "the name '66/1' is that of no bus");
    changed(
        &folder,
        label,
        sheet()[label].replace(&data, "data-label=\"999\""),
        "a name of bus number 999, which has no bar",
    );
    added(&folder, label, sheet()[label].clone(), "has more than one name on the sheet");
    let bar = at(BUS);
    changed(&folder, bar, sheet()[bar].replace(" d=", " data-unnamed=\"1\" d="), "and is marked as without");
    let second = at("id=\"bus-Kestrel_Moor_66_2\"");
    let other = at(&format!("data-label=\"{}\"", value(&sheet()[second], "data-bus")));
    let mut swapped = sheet().to_vec();
    let place = |i: usize| format!(" x=\"{}\"", value(&sheet()[i], "x"));
    swapped[label] = sheet()[label].replace(&place(label), &place(other));
    swapped[other] = sheet()[other].replace(&place(other), &place(label));
    assert_eq!(said(&folder, &swapped).matches("has its name away from its bar").count(), 2);
    let station = value(&sheet()[at("id=\"station-Kestrel_Moor\"")], "data-station");
    let named =
        (at("<g id=\"station-names\"")..).find(|&i| sheet()[i].contains(&format!("data-of=\"{station}\""))).unwrap();
    changed(&folder, named, String::new(), "substation 'Kestrel Moor'");
    changed(&folder, named, sheet()[named].replace("Moor", "More"), "is named");
    let of = format!("data-of=\"{station}\"");
    changed(
        &folder,
        named,
        sheet()[named].replace(&of, "data-of=\"99\""),
        "a name of substation number 99, which has no box",
    );
    changed(&folder, named, sheet()[named].replace(&place(named), " x=\"20\""), "has its name away from its box");
}

#[test]
fn the_page() {
    let folder = Folder::new("page");
    let label = at("data-label=\"0\"");
    let size = format!("font-size=\"{}\"", value(&sheet()[label], "font-size"));
    changed(&folder, label, sheet()[label].replace(&size, "font-size=\"2.4\""), "is 2.40 mm, less than 2.5");
    let names = at("<g id=\"bus-names\"");
    changed(&folder, names, sheet()[names].replace("<g ", "<g transform=\"scale(0.5)\" "), "less than 2.5");
    let title = at("<g id=\"title-block\"");
    added(
        &folder,
        title,
        "<rect x=\"830\" y=\"10\" width=\"20\" height=\"5\"/>".to_string(),
        "reaches outside the page",
    );
    added(&folder, title, "<text x=\"-5\" y=\"10\" font-size=\"3\">a</text>".to_string(), "reaches outside the page");
    added(
        &folder,
        title,
        "<path d=\"M1 1L2 2\" transform=\"translate(900 0)\"/>".to_string(),
        "reaches outside the page",
    );
    for element in ["<script/>", "<image/>", "<use/>", "<style>g{display:none}</style>"] {
        added(&folder, title, element.to_string(), "which a sheet doesn't have");
    }
    added(&folder, title, "<path d=\"M1 1L2 2\" style=\"x:y\"/>".to_string(), "an attribute that can't be read");
    added(
        &folder,
        title,
        "<path d=\"M1 1L2 2\" transform=\"skewX(9)\"/>".to_string(),
        "an attribute that can't be read",
    );
    added(&folder, title, "<path d=\"M1 1A2 2 0 0 0 3 3\"/>".to_string(), "a path whose shape can't be read");
    added(&folder, title, "<text x=\"9\" y=\"9\">a</text>".to_string(), "a text whose shape can't be read");
    added(&folder, title, "<g id=\"dots\"/>".to_string(), "the id 'dots' is given twice");
}

/// A sheet of another network, and files that are no sheets.
#[test]
fn other_files() {
    let folder = Folder::new("other");
    let works = wall(&["draw", "examples/works.txt", "-o", "-"]);
    folder.write("works.svg", &works.stdout);
    folder.write("cut.svg", sheet()[..200].join("\n").as_bytes());
    folder.write("no.svg", b"<html></html>");
    let forty = root().join(FORTY);
    let check = |name: &str| wall_in(&folder.0, &["check", name, forty.to_str().unwrap()]);
    let output = check("works.svg");
    assert_eq!(status(&output), 1);
    assert!(text(&output.stderr).contains("doesn't say that it was drawn from this"));
    for (name, expected) in [
        ("cut.svg", "expected </g> before the end of the file"),
        ("no.svg", "no.svg:1:1: expected <svg> with a width and a height in mm and a viewBox"),
        ("gone.svg", "gone.svg: No such file or directory"),
    ] {
        let output = check(name);
        assert_eq!(status(&output), 2, "{name}");
        assert!(text(&output.stderr).contains(expected), "{}", text(&output.stderr));
    }
}

/// The reader shares no code with the writer.
#[test]
fn nothing_of_the_writer_is_in_the_check() {
    let folders = ["src/check", "src/misread"].map(|folder| Path::new(HERE).join(folder));
    let mut files = 0;
    for entry in folders.iter().flat_map(|folder| fs::read_dir(folder).unwrap()) {
        let source = fs::read_to_string(entry.unwrap().path()).unwrap();
        assert!(!source.contains("sheet::") && !source.contains("drawing::") && !source.contains("tansygate"));
        files += 1;
    }
    assert!(files >= 8);
}
