//! Tables that flow through columns: a heading, rows of cells, and the heading again where a column begins.
use super::lettering::{fitted, width, wrapped, Anchor, Line};
use super::shape::Point;
use super::svg::{mm, path, Svg};
use std::borrow::Cow;

pub struct Column {
    pub head: &'static str,
    /// Whether long cells may be broken into lines.
    pub breaks: bool,
}

pub struct Table {
    pub title: &'static str,
    /// The name of the data attribute of each row.
    pub key: &'static str,
    pub columns: Vec<Column>,
    /// The key of each row, and its cells.
    pub rows: Vec<(String, Vec<String>)>,
    /// Headings of groups of rows, each with its first row.
    pub groups: Vec<(usize, String)>,
    /// Which rows have a rule below them.
    pub ruled: Box<dyn Fn(usize) -> bool>,
}

/// The widest cell that isn't broken, in text sizes.
const WIDEST: f64 = 24.0;

/// Between two columns of cells, and between two rows, in text sizes.
const GAP: f64 = 0.5;
const STEP: f64 = 1.22;
const LEAD: f64 = 0.3;

/// Between two columns of tables.
pub const GUTTER: f64 = 2.0;

struct Laid<'a> {
    table: &'a Table,
    widths: Vec<f64>,
    /// How many lines each row takes.
    lines: Vec<usize>,
}

enum Item {
    Title(usize),
    Head(usize),
    Group(usize, usize),
    Row(usize, usize),
}

/// A column, as wide as the first table in it.
#[derive(Default)]
struct Strip {
    wide: f64,
    /// What stands in it, and how far down.
    items: Vec<(f64, Item)>,
    /// How far down it is filled.
    down: f64,
}

/// Tables laid out in columns of one height.
pub struct Flow<'a> {
    size: f64,
    laid: Vec<Laid<'a>>,
    columns: Vec<Strip>,
}

/// The widths of a table's cells in text of size 1, row by row.
struct Measured<'a> {
    table: &'a Table,
    cells: Vec<f64>,
}

impl<'a> Measured<'a> {
    fn new(table: &'a Table) -> Self {
        let cells = table.rows.iter().flat_map(|(_, cells)| cells).map(|cell| width(cell, 1.0, false)).collect();
        Measured { table, cells }
    }

    fn row(&self, row: usize) -> &[f64] {
        let count = self.table.columns.len();
        &self.cells[row * count..(row + 1) * count]
    }

    /// The widths of the columns. Where all of them would take more than the most, those that may be broken are as wide as
    /// most of their cells, so that few are; at the least, narrowed all alike.
    fn widths(&self, size: f64, most: f64) -> Vec<f64> {
        let columns = &self.table.columns;
        let mut natural: Vec<f64> = columns.iter().map(|column| width(column.head, size, true)).collect();
        for cells in self.cells.chunks(columns.len()) {
            natural.iter_mut().zip(cells).for_each(|(widest, cell)| *widest = widest.max(cell * size));
        }
        let breaking = natural.iter_mut().zip(columns).filter(|(_, column)| column.breaks);
        breaking.for_each(|(widest, _)| *widest = widest.min(WIDEST * size));
        let gaps = GAP * size * (natural.len() - 1) as f64;
        let sum = |widths: &[f64]| widths.iter().sum::<f64>() + gaps;
        if sum(&natural) <= most {
            return natural;
        }
        let narrowed: Vec<Vec<f64>> = self.narrowed(&natural, size);
        if let Some(widths) = narrowed.iter().find(|widths| sum(widths) <= most) {
            return widths.clone();
        }
        let narrowest = &narrowed[narrowed.len() - 1];
        let free: f64 = narrowest.iter().zip(columns).filter(|(_, column)| column.breaks).map(|(wide, _)| wide).sum();
        let part = ((most - sum(narrowest) + free) / free).max(0.1);
        narrowest.iter().zip(columns).map(|(wide, column)| if column.breaks { wide * part } else { *wide }).collect()
    }

    /// The columns' widths with those that may be broken as wide as ever fewer of their cells.
    fn narrowed(&self, natural: &[f64], size: f64) -> Vec<Vec<f64>> {
        let columns = &self.table.columns;
        let sorted = |i: usize| {
            let mut list: Vec<f64> = self.cells.iter().skip(i).step_by(columns.len()).map(|cell| cell * size).collect();
            list.sort_by(f64::total_cmp);
            list
        };
        let cells: Vec<Vec<f64>> =
            (0..columns.len()).map(|i| if columns[i].breaks { sorted(i) } else { Vec::new() }).collect();
        let wide = |i: usize, fewer: usize| {
            let Some(last) = cells[i].len().checked_sub(1) else { return natural[i] };
            let head = width(columns[i].head, size, true);
            cells[i][last - last * fewer / FEWER].max(head).min(natural[i])
        };
        (1..FEWER / 2).map(|fewer| (0..columns.len()).map(|i| wide(i, fewer)).collect()).collect()
    }

    fn laid(&self, size: f64, most: f64) -> Laid<'a> {
        let mut laid = Laid { table: self.table, widths: self.widths(size, most), lines: Vec::new() };
        let tallest = |row: usize| {
            let cells = self.row(row).iter().enumerate().filter(|(i, wide)| laid.breaks(*i, **wide * size));
            cells.map(|(i, _)| laid.cell(row, i, size).len()).max().unwrap_or(1)
        };
        laid.lines = (0..self.table.rows.len()).map(tallest).collect();
        laid
    }
}

/// In so many steps a column is narrowed from its widest cell to its narrowest; half of them are tried.
const FEWER: usize = 50;

/// A hair more room, so that a text of just its column's width isn't broken.
const HAIR: f64 = 1e-6;

impl Laid<'_> {
    /// How wide its rows are.
    fn width(&self, size: f64) -> f64 {
        self.widths.iter().sum::<f64>() + GAP * size * (self.widths.len() - 1) as f64
    }

    /// Whether a text of a width is broken in a column.
    fn breaks(&self, column: usize, wide: f64) -> bool {
        self.table.columns[column].breaks && wide > self.widths[column] + HAIR
    }

    /// The lines of a cell.
    fn cell(&self, row: usize, column: usize, size: f64) -> Vec<Cow<'_, str>> {
        let text = &self.table.rows[row].1[column];
        if !self.breaks(column, width(text, size, false)) {
            return vec![Cow::Borrowed(text)];
        }
        wrapped(text, size, self.widths[column] + HAIR).into_iter().map(Cow::Owned).collect()
    }

    /// How high a row is.
    fn tall(&self, row: usize, size: f64) -> f64 {
        (self.lines[row] as f64 * STEP + LEAD) * size
    }

    /// The group that a row stands in.
    fn group(&self, row: usize) -> Option<usize> {
        self.table.groups.partition_point(|(first, _)| *first <= row).checked_sub(1)
    }

    /// Whether a row is the first of its group.
    fn begins(&self, row: usize) -> bool {
        self.group(row).is_some_and(|group| self.table.groups[group].0 == row)
    }
}

/// Tables that have rows, measured.
pub struct Contents<'a>(Vec<Measured<'a>>);

impl<'a> Contents<'a> {
    pub fn new(tables: &'a [Table]) -> Self {
        Contents(tables.iter().filter(|table| !table.rows.is_empty()).map(Measured::new).collect())
    }
}

impl<'a> Flow<'a> {
    /// Tables in text of the given size, in columns at most so wide and so high.
    pub fn new(tables: &Contents<'a>, size: f64, most: f64, high: f64) -> Self {
        let laid = tables.0.iter().map(|table| table.laid(size, most)).collect();
        let mut flow = Flow { size, laid, columns: Vec::new() };
        for t in 0..flow.laid.len() {
            flow.flow(t, most, high);
        }
        flow
    }

    /// Adds a table: below the one before where that is at least as wide, else in a column of its own.
    fn flow(&mut self, t: usize, most: f64, high: f64) {
        let line = (STEP + LEAD) * self.size;
        let title = width(self.laid[t].table.title, self.size, true).min(most);
        let wide = self.laid[t].width(self.size).max(title);
        let mut fresh = true;
        for row in 0..self.laid[t].lines.len() {
            let step = self.laid[t].tall(row, self.size);
            let begins = self.laid[t].begins(row);
            let heading = if fresh { 3.0 * line } else { 0.0 } + if begins { line } else { 0.0 };
            let fits = |column: &Strip| column.down + heading + step <= high && wide <= column.wide + 1e-6;
            if !self.columns.last().is_some_and(fits) {
                self.columns.push(Strip { wide, ..Strip::default() });
                fresh = true;
            }
            if fresh {
                if self.columns.last().is_some_and(|column| column.down > 0.0) {
                    self.skip(line);
                }
                self.put(line, Item::Title(t));
                self.put(line, Item::Head(t));
            }
            if let Some(group) = self.laid[t].group(row).filter(|_| fresh || begins) {
                self.put(line, Item::Group(t, group));
            }
            fresh = false;
            self.put(step, Item::Row(t, row));
        }
    }

    fn skip(&mut self, by: f64) {
        if let Some(column) = self.columns.last_mut() {
            column.down += by;
        }
    }

    fn put(&mut self, step: f64, item: Item) {
        if let Some(column) = self.columns.last_mut() {
            column.items.push((column.down, item));
        }
        self.skip(step);
    }

    /// How many columns there are.
    pub fn count(&self) -> usize {
        self.columns.len()
    }

    /// From the left of a column to the left of the next.
    pub fn step(&self, column: usize) -> f64 {
        self.columns[column].wide + self.gap()
    }

    /// Between two columns.
    pub fn gap(&self) -> f64 {
        GUTTER * self.size
    }

    /// Draws one column.
    pub fn draw(&self, svg: &mut Svg, column: usize, [x, y]: Point) {
        for (down, item) in &self.columns[column].items {
            let top = y + down;
            match item {
                Item::Title(t) => self.line(svg, self.laid[*t].table.title, [x, top], true, None),
                Item::Head(t) => self.head(svg, *t, [x, top]),
                Item::Group(t, group) => {
                    let text = &self.laid[*t].table.groups[*group].1;
                    let short = fitted(text, self.size, true, self.columns[column].wide);
                    self.line(svg, &short.unwrap_or_default(), [x, top], true, None);
                }
                Item::Row(t, row) => self.row(svg, *t, *row, [x, top]),
            }
        }
    }

    fn line(&self, svg: &mut Svg, text: &str, [x, top]: Point, bold: bool, key: Option<(&'static str, String)>) {
        if text.is_empty() {
            return;
        }
        let line =
            Line { text: text.to_string(), x, y: top + 0.95 * self.size, size: self.size, bold, anchor: Anchor::Start };
        svg.line(&line, key.as_slice());
    }

    fn head(&self, svg: &mut Svg, t: usize, [mut x, top]: Point) {
        let laid = &self.laid[t];
        let y = top + (STEP + 0.12) * self.size;
        let rule = path(&[[x, y], [x + laid.width(self.size), y]]);
        svg.leaf("path", &[("d", rule), ("stroke", "#111111".to_string()), ("stroke-width", "0.2".to_string())]);
        for (column, wide) in laid.table.columns.iter().zip(&laid.widths) {
            self.line(svg, column.head, [x, top], true, None);
            x += wide + GAP * self.size;
        }
    }

    fn row(&self, svg: &mut Svg, t: usize, row: usize, [left, top]: Point) {
        let laid = &self.laid[t];
        let (mut x, high) = (left, laid.tall(row, self.size));
        if (laid.table.ruled)(row) {
            let y = top + high - 0.1 * self.size;
            let rule = path(&[[x, y], [x + laid.width(self.size), y]]);
            svg.leaf("path", &[("d", rule), ("stroke", "#b5b1a6".to_string()), ("stroke-width", mm(0.1))]);
        }
        for (column, wide) in laid.widths.iter().enumerate() {
            for (i, text) in laid.cell(row, column, self.size).iter().enumerate() {
                let key = (laid.table.key, format!("{} {column}", laid.table.rows[row].0));
                self.line(svg, text, [x, top + i as f64 * STEP * self.size], false, Some(key));
            }
            x += wide + GAP * self.size;
        }
    }
}

#[cfg(test)]
mod tests {
    use super::*;

    fn table(rows: usize, groups: &[usize]) -> Table {
        let columns = vec![Column { head: "No.", breaks: false }, Column { head: "Name", breaks: true }];
        let row = |i: usize| (i.to_string(), vec![i.to_string(), format!("Name {i} of a branch")]);
        let groups = groups.iter().map(|&first| (first, format!("From {first}"))).collect();
        Table {
            title: "Branches",
            key: "data-index",
            columns,
            rows: (0..rows).map(row).collect(),
            groups,
            ruled: Box::new(|_| false),
        }
    }

    #[test]
    fn every_row_stands_once_and_fits() {
        for (rows, high) in [(1, 50.0), (200, 50.0), (200, 400.0), (0, 50.0)] {
            let tables = [table(rows, &[]), table(3, &[])];
            let flow = Flow::new(&Contents::new(&tables), 2.5, 30.0, high);
            assert!(flow.columns.iter().all(|column| column.wide <= 30.0 + 1e-6));
            let items = || flow.columns.iter().flat_map(|column| &column.items);
            assert_eq!(items().filter(|(_, item)| matches!(item, Item::Row(..))).count(), rows + 3);
            for (down, item) in items() {
                if let Item::Row(t, row) = item {
                    assert!(down + flow.laid[*t].tall(*row, 2.5) <= high + 1e-6);
                }
            }
        }
    }

    /// A group's heading stands above its first row, again where a column begins, and never last.
    #[test]
    fn groups_have_their_headings() {
        let tables = [table(100, &[0, 30, 31, 60])];
        let flow = Flow::new(&Contents::new(&tables), 2.5, 60.0, 50.0);
        let mut seen = 0;
        for column in &flow.columns {
            let items: Vec<&Item> = column.items.iter().map(|(_, item)| item).collect();
            assert!(matches!(items[..3], [Item::Title(0), Item::Head(0), Item::Group(0, _)]));
            assert!(matches!(items[items.len() - 1], Item::Row(..)));
            for two in items.windows(2) {
                if let [Item::Group(0, group), Item::Row(0, row)] = two {
                    assert_eq!(flow.laid[0].group(*row), Some(*group));
                    seen += usize::from([0, 30, 31, 60].contains(row));
                }
            }
        }
        assert_eq!(seen, 4);
    }
}
