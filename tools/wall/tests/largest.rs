//! The largest fill at which every box finds a free place, on a sheet.
mod help;
use help::{sheet, status, text, wall_in, Folder};

/// Substations at points, on one voltage, joined one to the next by lines.
fn network(name: &str, points: &[(f64, f64)]) -> Folder {
    let folder = Folder::new(name);
    let buses: String = points.iter().enumerate().map(|(i, (x, y))| format!("B{i},S{i},110,{x},{y}\n")).collect();
    let lines: String = (1..points.len()).map(|i| format!("L{i},B{},B{i},1\n", i - 1)).collect();
    folder.write("buses.csv", format!("name,substation,kv,x,y\n{buses}").as_bytes());
    folder.write("branches.csv", format!("name,from,to,in_service\n{lines}").as_bytes());
    folder
}

/// What the title block says of the drawing.
fn drawn_with(folder: &Folder, options: &[&str]) -> String {
    let drawn = sheet(&folder.0, options).0;
    let found = drawn.split('>').find(|part| part.starts_with("fill ")).expect("the way it is drawn");
    found.split('<').next().unwrap().to_string()
}

#[test]
fn the_title_block_names_the_fill() {
    let pair = network("pair", &[(0.0, 0.0), (0.0, 4.0)]);
    let still = ["--fill", "largest", "--search", "0"];
    assert!(drawn_with(&pair, &still).starts_with("fill 51/64, the largest, search 0, iterations "));
    assert!(drawn_with(&pair, &["--fill=largest"]).starts_with("fill 64/64, the largest, search 10, "));
    // The lines are routed as asked, and the boxes are those of the same fill given as a number.
    let asked = drawn_with(&pair, &[&still[..], &["--iterations", "7", "--as-asked"]].concat());
    assert_eq!(asked, "fill 51/64, the largest, search 0, iterations 7, whole mesh, as asked");
    let audit = |fill: &str| {
        let output = wall_in(&pair.0, &["audit", ".", "--search", "0", "--iterations", "3", "--as-asked", "--fill", fill]);
        assert_eq!(status(&output), 0);
        text(&output.stdout).lines().filter(|line| !line.starts_with("Drawn with")).collect::<Vec<_>>().join("\n")
    };
    assert_eq!(audit("largest"), audit("51/64"));
    assert_eq!(
        wall_in(&pair.0, &["list", ".", "--search", "0", "--fill", "largest"]).stdout,
        wall_in(&pair.0, &["list", ".", "--search", "0", "--fill", "51/64"]).stdout
    );
}

#[test]
fn where_no_fill_serves() {
    let pile = network("pile", &[(1.0, 1.0), (1.0, 1.0), (5.0, 1.0)]);
    let output = wall_in(&pile.0, &["draw", ".", "-o", "sheet.svg", "--fill", "largest", "--search", "0"]);
    assert_eq!(status(&output), 2);
    let said = text(&output.stderr);
    assert!(said.starts_with("wall: refused 18: no fill from 1/64 to 64/64 is drawn with a free place for every box; "), "{said}");
    assert!(said.contains("--search") && said.contains("--buffer") && said.contains("--fill with a number"), "{said}");
    assert_eq!(pile.files(), ["branches.csv", "buses.csv"]);
    let listed = wall_in(&pile.0, &["list", ".", "--fill", "largest", "--search", "0"]);
    assert_eq!((status(&listed), text(&listed.stdout)), (2, "refused 18\n".to_string()));
}
