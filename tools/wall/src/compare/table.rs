//! The table of changes on the sheet: what is removed first, since the drawing can't show it; then what is marked.
use super::ink::{Ink, Words};
use super::words::line;
use super::{Item, Kind};
use crate::network::Network;
use crate::number::thousands;
use crate::paper::Paper;
use crate::report;
use crate::sheet::lettering::{width, SMALLEST};
use crate::sheet::shape::{Point, Rect};

/// A column's width and a line's height, in text sizes.
const COLUMN: f64 = 26.0;
const LINE: f64 = 1.4;

/// The most of the drawing's width that the table takes.
const MOST: f64 = 0.4;

const BLACK: &str = "#111111";

/// A line of the table: its text, and whether it is a heading.
struct Row {
    text: String,
    bold: bool,
    /// Whether it is the first of an entry.
    first: bool,
}

pub struct Table {
    /// The size of its text and of the marks'.
    pub size: f64,
    paper: Paper,
    rows: Vec<Row>,
}

impl Table {
    /// The table of all items: a branch by its number on the sheet, and each by the squares that the function gives.
    pub fn new(items: &[Item], [old, new]: [&Network; 2], paper: Paper, squares: &dyn Fn(&Item) -> String) -> Self {
        let size = (0.8 * paper.text()).max(SMALLEST);
        let mut table = Table { size, paper, rows: Vec::new() };
        table.entry(&format!("Changes against {}", old.name), true);
        for (name, sum) in report::files(old) {
            table.entry(&format!("{name}: SHA-256 {sum}…"), false);
        }
        let removed: Vec<&Item> = items.iter().filter(|item| item.is_removed()).collect();
        if !removed.is_empty() {
            table.entry("Removed, not on the drawing", true);
        }
        removed.iter().for_each(|item| table.entry(&(number(item, old, new) + &line(item)), false));
        let marked: Vec<&Item> = items.iter().filter(|item| !item.is_removed()).collect();
        if !marked.is_empty() {
            table.entry("Marked on the drawing", true);
        }
        for item in marked {
            table.entry(&format!("{}{} {}", number(item, old, new), squares(item), line(item)), false);
        }
        table
    }

    /// Adds an entry, broken into lines that fit; all but the first are set in.
    fn entry(&mut self, text: &str, bold: bool) {
        let room = (COLUMN - 1.5) * self.size;
        let mut current = String::new();
        let mut first = true;
        for word in text.split(' ').flat_map(|word| pieces(word, room - self.size, self.size)) {
            let longer = if current.is_empty() { word.clone() } else { format!("{current} {word}") };
            let inset = if first { 0.0 } else { self.size };
            if width(&longer, self.size, bold) <= room - inset {
                current = longer;
                continue;
            }
            self.rows.push(Row { text: std::mem::replace(&mut current, word), bold, first });
            first = false;
        }
        self.rows.push(Row { text: current, bold, first });
    }

    fn per_column(&self, height: f64) -> usize {
        ((height / self.size - 2.0) / LINE).max(1.0) as usize
    }

    /// How much of a page's width the table takes beside a drawing of this height.
    pub fn width(&self, height: f64) -> f64 {
        let (long, short) = self.paper.sides();
        let page = if height > short { short } else { long };
        let most = (MOST * page / (COLUMN * self.size)).max(1.0) as usize;
        (self.rows.len().div_ceil(self.per_column(height)).min(most) as f64 * COLUMN + 0.5) * self.size
    }

    /// Draws the table; where it has no room for all lines, the last one says how many are left.
    pub fn draw(&self, ink: &mut Ink, panel: &Rect) {
        let rows = self.per_column(panel.height());
        let columns = ((panel.width() / self.size - 0.5) / COLUMN).round().max(1.0) as usize;
        let shown = if self.rows.len() > rows * columns { rows * columns - 1 } else { self.rows.len() };
        ink.line(&[[panel.left, panel.top], [panel.left, panel.bottom]], BLACK, 0.35);
        for (i, row) in self.rows[..shown].iter().enumerate() {
            self.put(ink, &row.text, self.place(panel, i, if row.first { 0.0 } else { 1.0 }), row.bold);
        }
        if shown < self.rows.len() {
            let text = format!("and {} more lines: see the list", thousands(self.rows.len() - shown));
            self.put(ink, &text, self.place(panel, shown, 0.0), true);
        }
    }

    /// Where line i begins, set in by so many text sizes.
    fn place(&self, panel: &Rect, i: usize, inset: f64) -> Point {
        let rows = self.per_column(panel.height());
        let (column, row) = ((i / rows) as f64, (i % rows) as f64);
        let x = panel.left + (column * COLUMN + 1.0 + inset) * self.size;
        [x, panel.top + (row * LINE + 1.9) * self.size]
    }

    fn put(&self, ink: &mut Ink, text: &str, at: Point, bold: bool) {
        ink.words(&Words { text, at, size: self.size, bold, colour: BLACK });
    }
}

/// What the sheet calls a branch, and what it was called where that differs; nothing for others.
fn number(item: &Item, old: &Network, new: &Network) -> String {
    if item.kind != Kind::Branch {
        return String::new();
    }
    let was = item.old.map(|e| old.branches[e].number.as_str());
    match (item.new.map(|e| new.branches[e].number.as_str()), was) {
        (Some(now), Some(was)) if was != now => format!("{now} (was {was}) "),
        (Some(now), _) => format!("{now} "),
        (None, was) => format!("(was {}) ", was.unwrap_or("")),
    }
}

/// A word, or its pieces where it is wider than a line.
fn pieces(word: &str, room: f64, size: f64) -> Vec<String> {
    let mut list = vec![String::new()];
    for c in word.chars() {
        let last = list.len() - 1;
        if width(&format!("{}{c}", list[last]), size, true) > room {
            list.push(c.to_string());
        } else {
            list[last].push(c);
        }
    }
    list
}
