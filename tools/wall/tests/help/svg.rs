//! Elements of a sheet, one a line, taken apart.

/// The value of an attribute in an element's text.
pub fn attribute<'a>(element: &'a str, name: &str) -> Option<&'a str> {
    let from = element.find(&format!(" {name}=\""))? + name.len() + 3;
    element[from..].split('"').next()
}

pub fn number(element: &str, name: &str) -> f64 {
    attribute(element, name).unwrap().parse().unwrap()
}

fn plain(text: &str) -> String {
    let text = text.replace("&lt;", "<").replace("&gt;", ">").replace("&quot;", "\"");
    text.replace("&#9;", "\t").replace("&#10;", "\n").replace("&#13;", "\r").replace("&amp;", "&")
}

pub fn title(element: &str) -> String {
    plain(element.split("<title>").nth(1).unwrap().split("</title>").next().unwrap())
}

/// The text of a text element.
pub fn content(element: &str) -> String {
    plain(element.split_once('>').unwrap().1.rsplit_once("</").unwrap().0)
}

/// The points of a path, part by part.
pub fn parts(element: &str) -> Vec<Vec<[f64; 2]>> {
    let one = |p: &str| {
        let (x, y) = p.split_once(' ').unwrap();
        [x.parse().unwrap(), y.parse().unwrap()]
    };
    let d = attribute(element, "d").unwrap();
    d.split('M').filter(|part| !part.is_empty()).map(|part| part.split('L').map(one).collect()).collect()
}

/// The points of a path.
pub fn points(element: &str) -> Vec<[f64; 2]> {
    parts(element).concat()
}

/// The elements that have an attribute.
pub fn with<'a>(sheet: &'a str, name: &str) -> Vec<&'a str> {
    let mark = format!(" {name}=\"");
    sheet.lines().filter(|line| line.contains(&mark)).collect()
}

/// Left, top, right and bottom of a rect element.
pub fn rect(element: &str) -> [f64; 4] {
    let [x, y, w, h] = ["x", "y", "width", "height"].map(|name| number(element, name));
    [x, y, x + w, y + h]
}

/// The distance from a point to a straight piece.
pub fn away(p: [f64; 2], a: [f64; 2], b: [f64; 2]) -> f64 {
    let (dx, dy) = (b[0] - a[0], b[1] - a[1]);
    let part = (((p[0] - a[0]) * dx + (p[1] - a[1]) * dy) / (dx * dx + dy * dy).max(1e-12)).clamp(0.0, 1.0);
    ((a[0] + part * dx - p[0]).powi(2) + (a[1] + part * dy - p[1]).powi(2)).sqrt()
}

/// The cells of a file's rows by the header's names; the files have no quotes.
pub fn rows(text: &str) -> Vec<std::collections::HashMap<String, String>> {
    let mut lines = text.lines();
    let header: Vec<&str> = lines.next().unwrap().split(',').collect();
    lines.map(|line| header.iter().map(|h| h.to_string()).zip(line.split(',').map(str::to_string)).collect()).collect()
}
