//! A PDF file of the sheet: the same shapes and texts as in its SVG pages, with the fonts in it.
mod content;
mod file;
mod fonts;
mod tiles;

use crate::paper::Paper;
use crate::sheet::{Leaf, Sheet};
use content::Content;
use file::File;
pub use file::ATTACHED;
use std::collections::BTreeSet;

/// Points in a millimetre.
const POINTS: f64 = 72.0 / 25.4;

/// A number of the file, to a ten thousandth.
fn number(x: f64) -> String {
    let text = format!("{x:.4}");
    let text = text.trim_end_matches('0').trim_end_matches('.');
    if text == "-0" { "0" } else { text }.to_string()
}

/// The file, and the characters that its fonts haven't. Pages larger than the tiles' paper are cut up.
pub fn written(sheet: &Sheet, tiles: Option<Paper>) -> (Vec<u8>, Vec<char>) {
    let mut file = File::new();
    let fonts = fonts::added(&mut file);
    let mut missing = BTreeSet::new();
    let title = sheet.leaves.first().map_or(String::new(), |leaf| title(leaf));
    let mut pages = Vec::new();
    for leaf in &sheet.leaves {
        let form = form(&mut file, leaf, fonts, &mut missing);
        match tiles.map(|paper| tiles::Tiling::new(paper, leaf)).filter(|tiling| tiling.count() > 1) {
            Some(tiling) => pages.extend(tiling.pages(&mut file, form, fonts)),
            None => pages.push(whole(&mut file, leaf, form, fonts)),
        }
    }
    let list = sheet.leaves.first().and_then(|leaf| held(leaf, "metadata"));
    if let Some(list) = list {
        file.attach("numbers.csv", list.as_bytes());
    }
    (file.finished(&pages, &title), missing.into_iter().collect())
}

fn title(leaf: &Leaf) -> String {
    held(leaf, "title").unwrap_or_default()
}

/// The text of an element that stands right in the root.
fn held(leaf: &Leaf, name: &str) -> Option<String> {
    use crate::sheet::svg::Content::{Nodes, Text};
    let Nodes(nodes) = &leaf.root.content else { return None };
    match nodes.iter().find(|node| node.name == name).map(|node| &node.content) {
        Some(Text(text)) => Some(text.clone()),
        _ => None,
    }
}

/// The names of the two fonts on a page.
fn resources(fonts: [usize; 2], form: Option<usize>) -> String {
    let form = form.map_or(String::new(), |form| format!(" /XObject << /S {form} 0 R >>"));
    format!("<< /Font << /F0 {} 0 R /F1 {} 0 R >>{form} >>", fonts[0], fonts[1])
}

/// What a leaf shows, once, in millimetres from its upper left corner.
fn form(file: &mut File, leaf: &Leaf, fonts: [usize; 2], missing: &mut BTreeSet<char>) -> usize {
    let mut content = Content::default();
    content.draw(&leaf.root);
    missing.extend(&content.missing);
    let [wide, high] = leaf.size.map(number);
    let head = format!("/Type /XObject /Subtype /Form /BBox [0 0 {wide} {high}] /Resources {}", resources(fonts, None));
    file.stream(&head, content.text.as_bytes())
}

/// A page that shows all of a leaf.
fn whole(file: &mut File, leaf: &Leaf, form: usize, fonts: [usize; 2]) -> usize {
    file.page(leaf.size, &resources(fonts, Some(form)), "/S Do\n")
}
