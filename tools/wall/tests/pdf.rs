//! The PDF file: whole, with its fonts in it, the same shapes as the SVG, and tiles for an office printer.
mod help;
use help::svg::{attribute, content, with};
use help::{made, root, sheet, status, text, wall_in, Folder};
use std::fs;
use std::path::Path;

const POINTS: f64 = 72.0 / 25.4;

fn pdf(network: &Path, options: &[&str]) -> (Vec<u8>, String) {
    let folder = Folder::new("pdf");
    let full = network.canonicalize().unwrap();
    let words = [&["draw", full.to_str().unwrap(), "-o", "sheet.pdf"], options].concat();
    let output = wall_in(&folder.0, &words);
    assert_eq!(status(&output), 0, "{}", text(&output.stderr));
    assert_eq!(folder.files(), ["sheet.pdf"]);
    (fs::read(folder.0.join("sheet.pdf")).unwrap(), text(&output.stderr))
}

/// The file's text; the fonts' bytes are no text.
fn lossy(bytes: &[u8]) -> String {
    String::from_utf8_lossy(bytes).into_owned()
}

/// The widths and heights of the pages, in millimetres.
fn pages(file: &str) -> Vec<[f64; 2]> {
    let boxes = file.split("/MediaBox [0 0 ").skip(1).map(|rest| rest.split(']').next().unwrap());
    boxes
        .map(|two| {
            let (wide, high) = two.split_once(' ').unwrap();
            [wide, high].map(|side| (side.parse::<f64>().unwrap() / POINTS).round())
        })
        .collect()
}

#[test]
fn objects_stand_where_the_table_says() {
    let (bytes, _) = pdf(&root().join("examples/forty"), &[]);
    assert!(bytes.starts_with(b"%PDF-1.5\n") && bytes.ends_with(b"%%EOF\n"));
    let tail = lossy(&bytes[bytes.len() - 40..]);
    let start: usize = tail.split("startxref\n").nth(1).unwrap().lines().next().unwrap().parse().unwrap();
    let table = lossy(&bytes[start..]);
    let count: usize = table.lines().nth(1).unwrap().split(' ').nth(1).unwrap().parse().unwrap();
    for (i, line) in table.lines().skip(3).take(count - 1).enumerate() {
        assert_eq!(line.len() + 1, 20, "each entry has twenty bytes");
        let at: usize = line[..10].parse().unwrap();
        assert!(bytes[at..].starts_with(format!("{} 0 obj\n", i + 1).as_bytes()), "{line}");
    }
}

#[test]
fn fonts_are_in_the_file() {
    let file = lossy(&pdf(&root().join("examples/forty"), &[]).0);
    assert_eq!(file.matches("/FontFile2 ").count(), 2);
    assert_eq!(file.matches("/ToUnicode ").count(), 2);
    assert!(!file.contains("/Type1"));
}

/// Each path, circle, box and text of the SVG pages is drawn once, with the same numbers.
#[test]
fn the_same_shapes_as_the_svg() {
    let forty = root().join("examples/forty");
    let file = lossy(&pdf(&forty, &[]).0);
    let (sheet, index) = sheet(&forty, &[]);
    for run in with(&sheet, "data-branch") {
        let d = attribute(run, "d").unwrap();
        let steps: String = d
            .split('M')
            .filter(|part| !part.is_empty())
            .map(|part| part.replace('L', " l\n").replacen(" l\n", " m\n", 1) + " l\n")
            .collect();
        assert!(file.contains(&steps), "{run}");
    }
    let all: Vec<&str> = std::iter::once(&sheet).chain(&index).flat_map(|page| page.lines()).collect();
    let count = |mark: &str| all.iter().filter(|line| line.contains(mark)).count();
    assert_eq!(
        file.matches("\nh\n").count(),
        count("<circle ") + all.iter().filter(|line| line.contains(" rx=")).count()
    );
    let rims = with(&sheet, "data-of").len()
        + with(&sheet, "data-mark").len()
        + with(&sheet, "data-number").into_iter().filter(|e| attribute(e, "data-of").is_none()).count();
    assert_eq!(file.matches(" Tj ET\n").count(), count("<text ") + rims);
}

#[test]
fn pages_have_their_sizes() {
    let forty = root().join("examples/forty");
    assert_eq!(pages(&lossy(&pdf(&forty, &["--paper", "A2"]).0))[0], [594.0, 420.0]);
    let (bytes, _) = pdf(&forty, &["--tiles", "A4"]);
    let list = pages(&lossy(&bytes));
    assert!(list.len() >= 12 && list.iter().all(|p| *p == [297.0, 210.0] || *p == [210.0, 297.0]), "{list:?}");
    let (again, _) = pdf(&forty, &["--tiles", "A4"]);
    assert!(bytes == again, "the same bytes");
}

/// The tiles show all of the frame: their windows, set side by side, leave nothing out, and overlap.
#[test]
fn tiles_cover_the_sheet() {
    for paper in ["A0", "A1", "A2", "A3"] {
        let file = lossy(&pdf(&root().join("examples/forty"), &["--paper", paper, "--tiles", "A4"]).0);
        let mut windows: Vec<[f64; 4]> = Vec::new();
        for tile in file.split("q 8 8 ").skip(1) {
            let numbers: Vec<f64> = tile.split(' ').filter_map(|word| word.parse().ok()).take(8).collect();
            let [wide, high, x, y] = [numbers[0], numbers[1], numbers[6], numbers[7]];
            windows.push([8.0 - x, 8.0 - y, 8.0 - x + wide, 8.0 - y + high]);
        }
        let (long, short) = match paper {
            "A0" => (1189.0, 841.0),
            "A1" => (841.0, 594.0),
            "A2" => (594.0, 420.0),
            _ => (420.0, 297.0),
        };
        let mut x = 10.0;
        while x <= long - 10.0 {
            let mut y = 10.0;
            while y <= short - 10.0 {
                assert!(windows.iter().any(|w| w[0] <= x && x <= w[2] && w[1] <= y && y <= w[3]), "{paper} {x} {y}");
                y += 3.0;
            }
            x += 3.0;
        }
        let second = windows.iter().find(|w| w[0] > windows[0][0]).unwrap();
        assert!((windows[0][2] - second[0] - 8.0).abs() < 0.02, "they overlap by 8 mm");
    }
}

#[test]
fn what_the_font_lacks_is_said() {
    let folder = Folder::new("glyphs");
    folder.write("buses.csv", "name,substation,kv,x,y\nА,水,66,0,0\nB,Ķ,66,9,9\n".as_bytes());
    folder.write("branches.csv", b"name,from,to,in_service\n");
    let (_, said) = pdf(&folder.0, &["--paper", "A4", "--allow-empty"]);
    assert!(
        said.contains("note: characters that the PDF's font hasn't, shown as boxes: 1, the first is U+6C34\n"),
        "{said}"
    );
}

#[test]
fn texts_do_not_rely_on_a_width() {
    let (sheet, index) = sheet(&made(40).0, &[]);
    assert!(!sheet.contains("textLength") && !index.iter().any(|page| page.contains("textLength")));
    assert!(with(&sheet, "font-size").iter().all(|e| !content(e).is_empty()));
}

/// Signs at boxes are filled outlines: they are closed, and nothing else of the path's letters is left in the file.
#[test]
fn signs_are_filled() {
    let network = help::kind("town");
    let (file, drawn) = (lossy(&pdf(&network.0, &["--paper", "A4"]).0), sheet(&network.0, &["--paper", "A4"]).0);
    let signs = with(&drawn, "data-sign").len();
    assert!(signs > 20 && file.matches("l\nh\nf\n").count() >= signs, "{signs}");
    assert!(!file.contains("Z l\n") && !file.contains("Z\n"));
}
