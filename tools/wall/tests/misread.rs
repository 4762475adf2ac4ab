//! What may be misread: nothing on sheets of the usual kinds of networks, and each kind of it is found where a sheet is made
//! to have it.
mod help;
use help::svg::{attribute, content, number, points, rect, with};
use help::{kind, kinds, made, root, sheet, status, text, wall, wall_in, Folder};
use std::path::Path;

/// The figures that an audit prints of what may be misread.
fn figures(network: &Path, options: &[&str]) -> Vec<(String, usize)> {
    let output = wall(&[&["audit", network.to_str().unwrap()], options].concat());
    let report = text(&output.stdout);
    let rows = report.lines().skip_while(|line| !line.starts_with("May be misread on")).skip(1);
    rows.map(|line| {
        let (name, count) = line.rsplit_once(' ').unwrap();
        (name.trim().to_string(), count.replace(',', "").parse().unwrap())
    })
    .collect()
}

/// What may be left on the sheets of the usual kinds on A1, and how much of it on each.
const MAY_BE_LEFT: [&str; 4] =
    ["Over other branches' dots", "Along edges of boxes", "Lines under names", "Rings of several branches"];

fn most_left(name: &str) -> usize {
    match name {
        "works" | "mesh" | "town" => 2,
        "many" | "star" => 3,
        "ieee118" => 9,
        _ => 0,
    }
}

/// On A1 next to nothing of what the audit looks for is left, and every end and cross has its number.
#[test]
fn sheets_of_the_usual_kinds() {
    for name in kinds::KINDS {
        let network = kind(name);
        let (drawn, _) = sheet(&network.0, &[]);
        let found = figures(&network.0, &[]);
        assert_eq!(found.len(), 17, "{found:?}");
        let left: Vec<&(String, usize)> = found.iter().filter(|(_, count)| *count > 0).collect();
        assert!(left.iter().all(|(kind, _)| MAY_BE_LEFT.contains(&kind.as_str())), "{name}: {left:?}");
        let count = left.iter().map(|(_, count)| count).sum::<usize>();
        assert!(count <= most_left(name), "{name}: {left:?}");
        assert!(with(&drawn, "data-counted").is_empty(), "{name}: a number is left out");
        assert_eq!(drawn.contains(">May be misread at: no place found</text>"), count == 0, "{name}");
        let strict = status(&wall(&["audit", network.0.to_str().unwrap(), "--strict"]));
        assert_eq!(strict, i32::from(count > 0), "{name}");
    }
}

/// Every end and cross has its number with up to 250 branches on A1; with up to 600 on A0 all but one, whose box is marked.
#[test]
fn numbers_of_larger_networks() {
    for (stations, paper, branches, without) in [(40, "A1", 243, 0), (80, "A0", 557, 1)] {
        let network = made(stations);
        let (drawn, _) = sheet(&network.0, &["--paper", paper]);
        assert_eq!(with(&drawn, "data-branch").len(), branches);
        assert!(with(&drawn, "data-counted").len() <= without, "{stations} on {paper}");
        let found = figures(&network.0, &["--paper", paper]);
        let left: Vec<&(String, usize)> = found.iter().filter(|(_, count)| *count > 0).collect();
        assert!(left.iter().all(|(kind, _)| MAY_BE_LEFT.contains(&kind.as_str())), "{stations} on {paper}: {left:?}");
        assert!(left.iter().map(|(_, count)| count).sum::<usize>() <= 4, "{stations} on {paper}: {left:?}");
    }
}

/// Of the drawings of a network the one is taken that has the least of it.
#[test]
fn the_best_is_taken() {
    let network = kind("works");
    let sum = |options: &[&str]| figures(&network.0, options).iter().map(|(_, count)| count).sum::<usize>();
    let (best, asked) = (sum(&[]), sum(&["--as-asked"]));
    assert!(best < asked, "{best} {asked}");
    let said = |options: &[&str]| sheet(&network.0, options).0;
    assert!(said(&[]).contains(", the best of 18, lines led clear</text>"));
    assert!(said(&["--as-asked"]).contains("fill 0.80, search 10, iterations 10, whole mesh, as asked</text>"));
    assert!(said(&["--fill", "0.6"]).contains("fill 0.60, "), "a fill that is given stays");
    let strict = |options: &[&str]| status(&wall_in(&network.0, &[&["audit", "."], options].concat()));
    assert_eq!((strict(&["--as-asked"]), strict(&["--as-asked", "--strict"])), (0, 1));
}

/// What the check says of a sheet of the example with some of its lines changed.
fn said(folder: &Folder, sheet: &str) -> String {
    folder.write("sheet.svg", sheet.as_bytes());
    let forty = root().join("examples/forty").canonicalize().unwrap();
    text(&wall_in(&folder.0, &["check", "sheet.svg", forty.to_str().unwrap()]).stdout)
}

fn path(points: &[[f64; 2]]) -> String {
    let steps: Vec<String> = points.iter().map(|[x, y]| format!("{x:.2} {y:.2}")).collect();
    format!("M{}", steps.join("L"))
}

/// A line that is led over a dot, a tip or a box, or back on itself, is found, and isn't marked.
#[test]
fn lines_led_wrong() {
    let folder = Folder::new("misread");
    let (drawn, _) = sheet(&root().join("examples/forty"), &[]);
    let lines: Vec<&str> = with(&drawn, "data-branch");
    let line = lines
        .iter()
        .find(|e| e.contains("branch-") && points(e).len() >= 4 && attribute(e, "stroke-dasharray").is_none())
        .unwrap();
    let (d, way) = (attribute(line, "d").unwrap(), points(line));
    let colour = attribute(line, "stroke").unwrap();
    let led = |more: &[[f64; 2]]| {
        let bent = [&way[..2], more, &way[2..]].concat();
        said(&folder, &drawn.replace(d, &path(&bent)))
    };
    let number = attribute(line, "data-branch").unwrap();
    let name = format!("examples/forty/branches.csv:{} ", number.parse::<usize>().unwrap() + 2);
    let spike = led(&[[way[1][0] + (way[1][0] - way[0][0]).signum() * 4.0, way[1][1]], [way[1][0], way[1][1] + 0.5]]);
    assert!(spike.contains(&format!("{name}runs back on itself")), "{spike}");
    let dot = with(&drawn, "cx")
        .into_iter()
        .filter(|e| attribute(e, "fill") == Some(colour))
        .map(|e| [self::number(e, "cx"), self::number(e, "cy")]);
    let far = dot.into_iter().find(|p| (p[0] - way[0][0]).abs() > 60.0).unwrap();
    let over = led(&[[far[0] - 3.0, far[1] - 3.0], [far[0] + 3.0, far[1] + 3.0]]);
    assert!(over.contains(&format!("{name}over another branch's dot")), "{over}");
    assert!(
        over.contains(&format!("{name}over another box")) && over.contains(": may be misread, and isn't marked"),
        "{over}"
    );
    let bar = with(&drawn, "data-bus")
        .into_iter()
        .find(|e| attribute(e, "stroke") == Some(colour) && (points(e)[0][0] - way[0][0]).abs() > 60.0)
        .unwrap();
    let [top, bottom] = points(bar)[..] else { panic!() };
    let tip = led(&[[top[0] - 9.0, top[1] - 9.0], [top[0], top[1] - 0.2], [top[0] + 9.0, top[1] - 9.0]]);
    assert!(tip.contains("at the tip of a bar, of bus '"), "{tip}");
    let middle = (top[1] + bottom[1]) / 2.0;
    let under = led(&[[top[0] - 2.0, middle - 0.3], [top[0] + 2.0, middle + 0.3]]);
    assert!(under.contains(&format!("{name}under a bar of its colour, of bus '")), "{under}");
}

/// An open branch that runs straight from bar to bar, a line under a name and one along the edge of a box are found.
#[test]
fn open_branches_names_and_edges() {
    let folder = Folder::new("edges");
    let (drawn, _) = sheet(&root().join("examples/forty"), &[]);
    let lines: Vec<&str> = with(&drawn, "data-branch");
    let is_open = |e: &&&str| attribute(e, "stroke-dasharray").is_some();
    let led = |line: &str, way: &[[f64; 2]]| {
        let d = attribute(line, "d").unwrap();
        said(&folder, &drawn.replace(d, &path(way)))
    };
    let open = lines.iter().find(|e| is_open(e) && points(e).len() >= 4).unwrap();
    let way = points(open);
    let straight = led(open, &[way[0], way[way.len() - 1]]);
    assert!(straight.contains(" across its own box, at substation '"), "{straight}");
    let live = lines.iter().find(|e| !is_open(e) && points(e).len() >= 4).unwrap();
    let number = attribute(live, "data-branch").unwrap();
    let name = format!("examples/forty/branches.csv:{} ", number.parse::<usize>().unwrap() + 2);
    for line in [open, live] {
        let way = points(line);
        let through = |more: &[[f64; 2]]| led(line, &[&way[..2], more, &way[2..]].concat());
        let far = |x: f64| (x - way[0][0]).abs() > 100.0;
        let text = with(&drawn, "data-of")
            .into_iter()
            .find(|e| attribute(e, "font-weight").is_some() && far(self::number(e, "x")))
            .unwrap();
        let [x, y] = ["x", "y"].map(|name| self::number(text, name));
        let under = through(&[[x - 2.0, y - 1.0], [x + 2.0, y - 1.0]]);
        assert!(under.contains(" under a name, at substation '"), "{under}");
        let boxed = with(&drawn, "data-station").into_iter().map(rect).find(|r| far(r[0])).unwrap();
        let [left, top, _, bottom] = boxed;
        let beside = through(&[[left - 0.2, top - 3.0], [left - 0.2, bottom + 3.0]]);
        assert!(beside.contains(" along the edge of a box, at substation '"), "{beside}");
    }
    assert!(!said(&folder, &drawn).contains(&name));
}

/// Thin lines lead from numbers to their own ends and crosses.
#[test]
fn leaders_that_lead_elsewhere() {
    let network = kind("mesh");
    let (drawn, _) = sheet(&network.0, &["--paper", "A3"]);
    let said = |text: &str| {
        let path = network.write("sheet.svg", text.as_bytes());
        self::text(&wall(&["check", path.to_str().unwrap(), network.0.to_str().unwrap()]).stdout)
    };
    let leader = with(&drawn, "data-leads-to")[0];
    let key = attribute(leader, "data-leads-to").unwrap();
    let [from, to] = points(leader)[..] else { panic!() };
    let longer = leader.replace(attribute(leader, "d").unwrap(), &path(&[from, [to[0] + 3.0, to[1] + 3.0]]));
    for wrong in [leader.replace(&format!("\"{key}\""), "\"0 0\""), longer] {
        let found = said(&drawn.replace(leader, &wrong));
        assert!(found.contains("a path that belongs to nothing on the sheet"), "{found}");
    }
}

/// What stands on the sheet and belongs to nothing is found, whichever group it hides in.
#[test]
fn foreign_strokes() {
    let folder = Folder::new("foreign");
    let (drawn, _) = sheet(&root().join("examples/forty"), &[]);
    assert!(said(&folder, &drawn).starts_with("ok: "));
    let stroke = "<path d=\"M100 100L400 300\" stroke=\"#17468f\" stroke-width=\"0.5\" fill=\"none\"/>";
    let text = "<text x=\"300\" y=\"300\" font-size=\"3\" fill=\"#111111\">206</text>";
    for group in [
        "boxes",
        "fives",
        "guides",
        "lines",
        "inside",
        "bars",
        "open",
        "rings",
        "dots",
        "crosses",
        "bus-names",
        "numbers",
        "station-names",
        "marks",
        "grid",
        "title-block",
    ] {
        let head = drawn.lines().find(|line| line.contains(&format!("<g id=\"{group}\""))).unwrap();
        for (ink, what) in [(stroke, "a path"), (text, "a text '206'")] {
            let found = said(&folder, &drawn.replace(head, &format!("{head}\n{ink}")));
            assert!(found.contains(&format!("{what} that belongs to nothing on the sheet")), "{group}: {found}");
        }
    }
    // An attribute of a text makes no stroke a part; nor does a thin stroke's colour, away from numbers and labels.
    let thin =
        |colour: &str| format!("<path d=\"M2 300L2 320\" stroke=\"{colour}\" stroke-width=\"0.22\" fill=\"none\"/>");
    for (group, ink) in [
        ("grid", stroke.replace("/>", " data-grid=\"100\"/>")),
        ("bus-names", stroke.replace("/>", " data-label=\"0\"/>")),
        ("numbers", stroke.replace("/>", " data-number=\"0\"/>")),
        ("numbers", stroke.replace("/>", " data-at-gap=\"0\"/>")),
        ("marks", stroke.replace("/>", " data-mark=\"0\"/>")),
        ("numbers", thin("#6b675e")),
        ("numbers", thin("#8f0068")),
        ("marks", thin("#6b675e")),
    ] {
        let head = drawn.lines().find(|line| line.contains(&format!("<g id=\"{group}\""))).unwrap();
        let found = said(&folder, &drawn.replace(head, &format!("{head}\n{ink}")));
        assert!(found.contains("a path that belongs to nothing on the sheet"), "{group} {ink}: {found}");
    }
    let changes = drawn.replace("</svg>", &format!("<g id=\"changes\">{text}</g>\n</svg>"));
    assert!(said(&folder, &changes).contains("a text '206' that belongs to nothing on the sheet"));
    let forged = changes.replace("<g id=\"changes\">", "<g id=\"changed\"></g>\n<g id=\"changes\">");
    assert!(said(&folder, &forged).contains("a text '206' that belongs to nothing on the sheet"));
    let last = drawn.replace("</svg>", &format!("{stroke}\n</svg>"));
    assert!(said(&folder, &last).contains("a path that belongs to nothing on the sheet"));
}

/// A name at another box, and marks and counts that don't agree with what is found.
#[test]
fn names_marks_and_counts() {
    let folder = Folder::new("marks");
    let (drawn, _) = sheet(&root().join("examples/forty"), &[]);
    let names: Vec<&str> =
        with(&drawn, "data-of").into_iter().filter(|e| attribute(e, "font-weight").is_some()).collect();
    let boxes = with(&drawn, "data-station");
    let rect_of =
        |name: &str| rect(boxes.iter().find(|e| attribute(e, "data-station") == attribute(name, "data-of")).unwrap());
    let below = |name: &&&str| number(name, "y") > rect_of(name)[3];
    let name = names.iter().find(|name| !below(name)).unwrap();
    let other = boxes.iter().map(|e| rect(e)).find(|r| (r[0] - rect_of(name)[0]).abs() > 100.0).unwrap();
    let moved =
        name.replace(&format!(" y=\"{}\"", attribute(name, "y").unwrap()), &format!(" y=\"{:.2}\"", other[1] - 1.0));
    let moved = moved.replace(
        &format!(" x=\"{}\"", attribute(name, "x").unwrap()),
        &format!(" x=\"{:.2}\"", (other[0] + other[2]) / 2.0),
    );
    let found = said(&folder, &drawn.replace(*name, &moved));
    assert!(found.contains("name nearer to another box, at substation '"), "{} {found}", content(name));
    let mark = "<g id=\"doubts\"";
    let head = drawn.lines().find(|line| line.contains(mark)).unwrap();
    let extra = drawn.replace(head, &format!("{head}\n<circle cx=\"50\" cy=\"50\" r=\"2.2\"/>"));
    assert!(said(&folder, &extra).contains("where nothing is found that may be misread"));
    let wrong = drawn.replace(">May be misread at: no place found<", ">May be misread at 3 places: A1<");
    assert!(said(&folder, &wrong).contains("the title block doesn't say 'May be misread at: no place found'"));
}

/// What is left is marked, counted, listed and said: on a sheet that is too small for its network.
#[test]
fn what_is_left_is_named() {
    let network = kind("works");
    let (drawn, pages) = sheet(&network.0, &["--as-asked"]);
    let path = network.write("sheet.svg", drawn.as_bytes());
    let output = wall(&["check", path.to_str().unwrap(), network.0.to_str().unwrap()]);
    let said = text(&output.stdout);
    let places: Vec<&str> = said.lines().filter(|line| line.contains("sheet.svg: may be misread: ")).collect();
    assert!(status(&output) == 0 && places.len() > 4, "{said}");
    assert!(places.iter().all(|line| line.contains(" at substation '") && line.contains(", in ")), "{said}");
    let strict = wall(&["check", path.to_str().unwrap(), network.0.to_str().unwrap(), "--strict"]);
    assert_eq!(status(&strict), 1);
    assert!(drawn.contains(&format!(">May be misread at {} places: ", places.len())));
    let listed = pages.iter().flat_map(|page| with(page, "data-doubted"));
    let rows = listed.filter(|e| attribute(e, "data-doubted").unwrap().ends_with(" 0"));
    assert_eq!(rows.count(), places.len());
    let unmarked: String = drawn
        .lines()
        .filter(|line| !line.contains("<circle ") || line.contains(" fill=") || !line.contains("r=\"2.2\""))
        .map(|line| format!("{line}\n"))
        .collect();
    network.write("sheet.svg", unmarked.as_bytes());
    let found = text(&wall(&["check", path.to_str().unwrap(), network.0.to_str().unwrap()]).stdout);
    assert_eq!(found.matches(": may be misread, and isn't marked").count(), places.len());
}
