//! The title block: title and files, legend, and the audit's figures.
use super::legend::Present;
use super::lettering::{fitted, halves, width, Anchor, Line};
use super::page::{Page, PITCH, ROWS};
use super::palette::{stroke, Palette};
use super::svg::{path, Svg};
use crate::args::Settings;
use crate::drawing::Drawing;
use crate::help::VERSION;
use crate::network::Network;
use crate::number::thousands;
use crate::plain::one_line;
use crate::report;
use tansygate::TxLayoutOptions;

/// How many names the sheet shortens and leaves out, and at how many ends the number of a branch isn't there.
#[derive(Clone, Copy, Default)]
pub struct Lost {
    pub shortened: usize,
    pub left_out: usize,
    pub numbers: usize,
    pub marks: usize,
    pub kinds: usize,
    pub switches: usize,
}

pub struct Block<'a> {
    pub network: &'a Network,
    pub drawing: &'a Drawing,
    pub settings: &'a Settings,
    pub palette: &'a Palette,
    pub page: &'a Page,
    pub lost: Lost,
    /// Branches with a cross.
    pub open: Vec<usize>,
    /// Stretches where circuits run as one stroke.
    pub stretches: usize,
    /// How many places may be misread, and their squares.
    pub doubts: (String, Vec<String>),
    /// Which signs the sheet has.
    pub present: Present,
    /// Where the index is.
    pub index: String,
}

/// Widths of the legend's and the table's columns, in text sizes.
pub const VOLTAGES: f64 = 9.5;
pub const SIGNS: f64 = 19.0;
const COUNTS: f64 = 15.0;
const FIGURES: f64 = 20.5;

impl Block<'_> {
    pub fn draw(&self, svg: &mut Svg) {
        let (b, t) = (self.page.block, self.page.text);
        let mut edges = vec![b.right];
        for columns in [FIGURES, COUNTS, SIGNS, VOLTAGES * self.legend_columns() as f64] {
            let right = edges[edges.len() - 1];
            edges.push(right - columns * t);
        }
        svg.open("g", &[("id", "title-block".to_string()), ("fill", "#111111".to_string())]);
        self.rules(svg, &edges);
        self.approval(svg);
        let end = self.title(svg, edges[4]);
        self.open_branches(svg, end + 3.0 * t, edges[4]);
        self.voltages(svg, edges[4]);
        self.signs(svg, edges[3]);
        let mut counts = report::counts(self.network, self.drawing);
        counts.push(("Names left out", thousands(self.lost.left_out)));
        counts.push(("Numbers left out", thousands(self.lost.numbers)));
        self.table(svg, edges[2], COUNTS, "Network", &counts);
        let mut figures = report::figures(self.drawing);
        figures.push(("Stretches as one stroke", thousands(self.stretches)));
        figures.push(("Names shortened", thousands(self.lost.shortened)));
        self.table(svg, edges[1], FIGURES, "Audit of this drawing", &figures);
        svg.close();
    }

    fn rules(&self, svg: &mut Svg, edges: &[f64]) {
        let b = self.page.block;
        let mut d = path(&[[b.left, b.top], [b.right, b.top]]);
        let top = b.top + PITCH * self.page.banner * self.page.text;
        if top > b.top {
            d.push_str(&path(&[[b.left, top], [b.right, top]]));
        }
        let beside = Some(edges[4]).filter(|_| top == b.top);
        let bottom = b.bottom - PITCH * self.page.strip * self.page.text;
        for x in [edges[2]].into_iter().chain(beside) {
            d.push_str(&path(&[[x, top], [x, bottom]]));
        }
        svg.leaf("path", &stroke(d, "#111111", 0.35));
    }

    /// The baseline of a row of the tables.
    pub fn row(&self, row: f64) -> f64 {
        self.page.block.top + (PITCH * (row + self.page.banner) + 1.7) * self.page.text
    }

    /// A text at a place and row, shortened to a width; gives how wide it is.
    pub fn put(&self, svg: &mut Svg, text: &str, place: [f64; 2], size: f64, bold: bool, most: f64) -> f64 {
        self.put_field(svg, text, place, (size, bold), most, None)
    }

    /// The same with a size and whether it is bold, and the name of the field that it fills.
    pub fn put_field(
        &self,
        svg: &mut Svg,
        text: &str,
        [x, row]: [f64; 2],
        (size, bold): (f64, bool),
        most: f64,
        field: Option<&str>,
    ) -> f64 {
        let Some(text) = fitted(&one_line(text), size, bold, most) else { return 0.0 };
        let line = Line { text, x, y: self.row(row), size, bold, anchor: Anchor::Start };
        let key: Vec<_> = field.map(|field| ("data-field", field.to_string())).into_iter().collect();
        svg.line(&line, &key);
        line.width()
    }

    /// Draws the title and the rows below it; gives where the widest of them ends.
    fn title(&self, svg: &mut Svg, right: f64) -> f64 {
        if self.page.banner > 0.0 {
            self.banner(svg);
            return right;
        }
        let (t, left) = (self.page.text, self.page.block.left + self.page.text);
        let most = right - left - t;
        let title = one_line(self.settings.title.as_deref().unwrap_or(&self.network.name));
        let lines = halves(&title, t, true).map_or(vec![title.clone()], |two| two.to_vec());
        let fits = |text: &str, size: f64| width(text, size * t, true) <= most;
        let mut wide = 0.0_f64;
        if let Some(size) = [2.4, 2.0, 1.6].into_iter().find(|&size| fits(&title, size)) {
            wide = self.put(svg, &title, [left, 0.75], size * t, true, most);
        } else {
            let size = [1.3, 1.15].into_iter().find(|&size| lines.iter().all(|line| fits(line, size))).unwrap_or(1.0);
            for (i, line) in lines.iter().enumerate() {
                wide = wide.max(self.put(svg, line, [left, 0.2 + i as f64], size * t, true, most));
            }
        }
        let mut rows = self.rows();
        rows.push(self.doubted(most));
        for (i, text) in rows.iter().enumerate() {
            let row = (ROWS - rows.len() + i) as f64 - 0.25;
            wide = wide.max(self.put(svg, text, [left, row], t, false, most));
        }
        left + wide
    }

    /// Draws the title and the rows below it, in two columns, above the tables.
    fn banner(&self, svg: &mut Svg) {
        let (t, left) = (self.page.text, self.page.block.left + self.page.text);
        let (most, top) = (self.page.block.width() - 2.0 * t, -self.page.banner);
        let title = one_line(self.settings.title.as_deref().unwrap_or(&self.network.name));
        let fits = |size: &f64| width(&title, size * t, true) <= most;
        let size = [2.0, 1.6, 1.3].into_iter().find(fits).unwrap_or(1.0);
        self.put(svg, &title, [left, top + 0.2], size * t, true, most);
        let rows = self.rows();
        let (last, others) = rows.split_last().map_or(("", &[][..]), |(last, others)| (last.as_str(), others));
        for (i, text) in others.iter().enumerate() {
            let x = left + (i / 3) as f64 * most / 2.0;
            self.put(svg, text, [x, top + 1.45 + (i % 3) as f64], t, false, most / 2.0 - t);
        }
        self.put(svg, last, [left, top + 4.45], t, false, most / 2.0 - t);
        let beside = most / 2.0;
        self.put(svg, &self.doubted(beside), [left + beside, top + 4.45], t, false, beside);
    }

    /// What was drawn, and how; where the index is comes last.
    fn rows(&self) -> Vec<String> {
        let stations = self.drawing.quality.displacement.len();
        let part = self.network.part.as_ref().map(|part| part.said(stations, self.network.branches.len()));
        let part = part.map_or(String::new(), |part| format!(", {part}"));
        let mut rows = vec![format!("Network {}{part}", self.network.name)];
        rows.extend(report::files(self.network).iter().map(|(name, sum)| format!("{name}: SHA-256 {sum}…")));
        rows.push(self.drawn_with());
        rows.push(format!("{}, {}", self.page.name, VERSION.trim()));
        rows.push(self.index.clone());
        rows
    }

    /// How many places may be misread, and as many of their squares as have room.
    fn doubted(&self, most: f64) -> String {
        let (head, squares) = &self.doubts;
        let line = |shown: usize| {
            let more = squares.len() - shown;
            let rest = if more > 0 { format!(", and {} more squares", thousands(more)) } else { String::new() };
            format!("{head}{}{rest}", squares[..shown].join(", "))
        };
        let fits = |shown: &usize| width(&line(*shown), self.page.text, false) <= most;
        (0..=squares.len()).rev().find(fits).map_or_else(|| head.clone(), line)
    }

    /// The names of the open branches, where there is room for a column of them.
    fn open_branches(&self, svg: &mut Svg, left: f64, right: f64) {
        let t = self.page.text;
        let names: Vec<String> = self.open.iter().map(|&e| self.named(e)).collect();
        let widest = names.iter().map(|name| width(name, t, false)).fold(9.0 * t, f64::max).min(24.0 * t);
        let columns = ((right - left) / (widest + 1.5 * t)).max(0.0) as usize;
        if columns == 0 || names.is_empty() {
            return;
        }
        let room = columns * (ROWS - 1);
        let shown = if names.len() > room { room - 1 } else { names.len() };
        let rest = (shown < names.len()).then(|| format!("and {} more", thousands(names.len() - shown)));
        let used = names.len().min(room).div_ceil(ROWS - 1) as f64;
        let x = right - used * (widest + 1.5 * t);
        self.put(svg, "Open branches", [x, 0.0], t, true, widest);
        for (i, name) in names[..shown].iter().chain(&rest).enumerate() {
            let (column, row) = (i / (ROWS - 1), i % (ROWS - 1) + 1);
            self.put(svg, name, [x + column as f64 * (widest + 1.5 * t), row as f64], t, false, widest);
        }
    }

    /// A branch by its number and name.
    fn named(&self, e: usize) -> String {
        let branch = &self.network.branches[e];
        format!("{} {}", branch.number, one_line(&branch.name))
    }

    fn drawn_with(&self) -> String {
        let o = &self.settings.options;
        let turned = if self.settings.y_up { ", y upwards" } else { "" };
        let usual = TxLayoutOptions::default();
        let gaps = [
            ("bar gap", o.bar_gap, usual.bar_gap),
            ("padding", o.pad, usual.pad),
            ("shortest bar", o.min_bar, usual.min_bar),
            ("buffer", o.buffer, usual.buffer),
        ];
        let other = gaps.into_iter().filter(|(_, gap, usual)| gap != usual);
        let gaps: String = other.map(|(name, gap, _)| format!(", {name} {gap}")).collect();
        let (fill, drawn) = (self.settings.fill(), &self.settings.drawn);
        format!("fill {fill}, search {}, iterations {}{gaps}{turned}, {drawn}", o.search, o.route_iterations)
    }

    fn table(&self, svg: &mut Svg, left: f64, columns: f64, head: &str, rows: &[report::Row]) {
        let t = self.page.text;
        self.put(svg, head, [left + t, 0.0], t, true, (columns - 1.5) * t);
        for (i, (name, value)) in rows.iter().enumerate() {
            let row = (i + 1) as f64;
            let wide = width(value, t, false);
            let right = left + (columns - 0.8) * t;
            self.put(svg, name, [left + t, row], t, false, right - wide - left - 1.5 * t);
            let line = Line {
                text: value.clone(),
                x: right - wide,
                y: self.row(row),
                size: t,
                bold: false,
                anchor: Anchor::End,
            };
            svg.line(&line, &[]);
        }
    }
}
