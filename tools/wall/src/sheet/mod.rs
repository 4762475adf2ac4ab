//! The sheet: pages in millimetres, the same for the same network and settings.
mod approval;
mod block;
mod body;
mod bus_names;
mod crosses;
mod doubts;
mod ids;
mod index;
mod index_page;
mod kinds;
mod legend;
pub mod lettering;
mod marks;
mod measure;
mod near;
mod numbers;
mod outside;
mod page;
mod palette;
mod placeless;
mod placing;
mod rows;
mod scene;
mod seen;
pub mod shape;
mod short_names;
mod signs;
mod squares;
mod station_names;
pub mod svg;
mod switches;
pub mod tables;
mod taken;
mod together;
mod under;
mod widths;
mod writing;

use crate::args::Settings;
use crate::check;
use crate::colours::Colours;
use crate::drawing::Drawing;
use crate::misread::Place;
use crate::network::Network;
use crate::number::{thousands, voltage};
use crate::paper::Paper;
use crate::plain::{one_line, visible};
use crate::register;
pub use measure::{measured, roughly, Measure};

use block::{Block, Lost};
use body::Body;
use index::Contents;
use page::{Page, View};
use palette::Palette;
use placing::Placed;
use svg::{mm, Node, Svg};
use tables::{Flow, Table};
use tansygate::TxLayoutOptions;

/// One page: its outermost element and its size.
pub struct Leaf {
    pub root: Node,
    pub size: [f64; 2],
    /// What has to be printed: the page without its margins.
    pub frame: [f64; 4],
}

/// The sheet, the pages of its index where it doesn't stand on the sheet, and remarks.
pub struct Sheet {
    pub leaves: Vec<Leaf>,
    pub notes: Vec<String>,
    /// What on the sheet may be misread.
    pub doubts: Vec<Place>,
    /// The index.
    pub tables: Vec<Table>,
}

/// What a sheet is drawn from.
#[derive(Clone, Copy)]
pub struct Source<'a> {
    pub network: &'a Network,
    pub drawing: &'a Drawing,
    pub settings: &'a Settings,
    palette: &'a Palette,
}

impl Source<'_> {
    pub fn title(&self) -> String {
        one_line(self.settings.title.as_deref().unwrap_or(&self.network.name))
    }
}

/// The index stands on the sheet where that leaves the drawing at least this part of its scale.
const KEPT: f64 = 0.9;

/// The part of the page's width that it may take there.
const WIDEST: f64 = 0.35;

/// The size of the index's text, from that of the title block's.
fn index_size(text: f64) -> f64 {
    (0.7 * text).max(lettering::SMALLEST)
}

pub fn drawn(network: &Network, drawing: &Drawing, settings: &Settings, colours: &Colours) -> Sheet {
    let palette = Palette::new(network, colours);
    let source = Source { network, drawing, settings, palette: &palette };
    let bare = Composed::new(source, &|_| 0.0);
    let (composed, beside) = match bare.with_index(source) {
        Some(beside) => (beside, true),
        None => (bare, false),
    };
    let tables = composed.tables(network);
    let pages = if beside { Vec::new() } else { index_page::leaves(source, &tables) };
    let (lost, notes) = composed.notes(source);
    let words = index_words(pages.len(), lost, composed.placed.apart());
    let sheet = composed.leaf(source, lost, words, if beside { &tables } else { &[] });
    let leaves = std::iter::once(sheet).chain(pages).collect();
    Sheet { leaves, notes, doubts: composed.placed.doubts, tables }
}

/// The sheet with room kept free at its right, as much as the function takes for a height, and that room. Its index
/// has pages of its own.
pub fn drawn_beside(
    network: &Network,
    drawing: &Drawing,
    settings: &Settings,
    colours: &Colours,
    side: &dyn Fn(f64) -> f64,
) -> (Sheet, shape::Rect) {
    let palette = Palette::new(network, colours);
    let source = Source { network, drawing, settings, palette: &palette };
    let composed = Composed::new(source, side);
    let tables = composed.tables(network);
    let pages = index_page::leaves(source, &tables);
    let (lost, notes) = composed.notes(source);
    let words = index_words(pages.len(), lost, composed.placed.apart());
    let sheet = composed.leaf(source, lost, words, &[]);
    let page = &composed.page;
    let panel = shape::Rect::new(page.area.right, page.area.top, page.inner.right, page.area.bottom);
    let leaves = std::iter::once(sheet).chain(pages).collect();
    (Sheet { leaves, notes, doubts: composed.placed.doubts, tables }, panel)
}

/// The square in which each station's box stands, on a sheet of its own.
pub fn squares_of(
    network: &Network,
    drawing: &Drawing,
    settings: &Settings,
    colours: &Colours,
) -> Vec<(usize, String)> {
    let palette = Palette::new(network, colours);
    let source = Source { network, drawing, settings, palette: &palette };
    let bare = Composed::new(source, &|_| 0.0);
    let composed = bare.with_index(source).unwrap_or(bare);
    let stations = composed.placed.scene.stations.iter();
    stations.map(|station| (station.number, composed.page.squares.name(station.rect.middle()))).collect()
}

/// How many millimetres a unit of the drawing becomes, where this is what the drawing takes up.
pub fn scale(settings: &Settings, extent: [f64; 4], unit: f64) -> f64 {
    let [left, top, right, bottom] = extent;
    let strip = settings.approval.rows();
    Page::fitted(settings.paper, strip, &shape::Rect::new(left, top, right, bottom), unit, &|_| 0.0).1.scale
}

/// Rows that are closer, in millimetres, can't be counted on paper.
const COUNTABLE: f64 = 0.6;

/// Where the index is, by how many pages it has of its own, and what it is for; rows of boxes are so far apart.
fn index_words(pages: usize, lost: Lost, apart: f64) -> String {
    let place = match pages {
        0 => "Index at the right".to_string(),
        1 => "Index on a page of its own".to_string(),
        n => format!("Index on {} pages of their own", thousands(n)),
    };
    let way = match lost.numbers {
        0 => ": by number",
        _ if apart < COUNTABLE => ": by number; rows are too close to be counted",
        _ => ": by number, and by row for shaded boxes",
    };
    place + way
}

/// The drawing on its page, with everything placed.
struct Composed {
    page: Page,
    view: View,
    placed: Placed,
}

impl Composed {
    fn new(source: Source<'_>, side: &dyn Fn(f64) -> f64) -> Self {
        let layout = &source.drawing.layout;
        let strip = source.settings.approval.rows();
        let (page, view) = Page::fitted(source.settings.paper, strip, &scene::extent(layout), layout.unit, side);
        let placed = Placed::new(source.network, source.drawing, source.palette, &page, &view);
        Composed { page, view, placed }
    }

    fn tables(&self, network: &Network) -> Vec<Table> {
        Contents { network, squares: &self.page.squares, placed: &self.placed }.tables()
    }

    /// The columns of an index beside a drawing of the given height.
    fn flow<'a>(&self, tables: &'a [Table], high: f64) -> Flow<'a> {
        let most = WIDEST * self.page.whole.width();
        Flow::new(&tables::Contents::new(tables), index_size(self.page.text), most, high - 1.5 * self.page.text)
    }

    /// The same with room for the index, where it fits.
    fn with_index(&self, source: Source<'_>) -> Option<Composed> {
        let rows = WIDEST * self.page.whole.width() * self.page.area.height() / (100.0 * self.page.text);
        if source.network.branches.len() as f64 > rows {
            return None;
        }
        let tables = self.tables(source.network);
        let wide = |flow: &Flow<'_>| (0..flow.count()).map(|i| flow.step(i)).sum::<f64>() + 0.5 * flow.gap();
        let side = |high: f64| wide(&self.flow(&tables, high));
        if side(self.page.area.height()) > WIDEST * self.page.whole.width() {
            return None;
        }
        let beside = Composed::new(source, &side);
        let now = beside.tables(source.network);
        let room = beside.page.inner.right - beside.page.area.right;
        let fits = wide(&beside.flow(&now, beside.page.area.height())) <= room + 1e-6;
        (fits && beside.view.scale >= KEPT * self.view.scale).then_some(beside)
    }

    /// What found no place on the sheet, and remarks.
    fn notes(&self, source: Source<'_>) -> (Lost, Vec<String>) {
        let lost = self.placed.lost();
        let apart = self.placed.apart();
        let close = (lost.numbers > 0 && apart < COUNTABLE).then(|| {
            let (layout, paper) = (&source.drawing.layout, source.settings.paper);
            let larger = |paper: &Paper| {
                let strip = source.settings.approval.rows();
                let (_, view) = Page::fitted(*paper, strip, &scene::extent(layout), layout.unit, &|_| 0.0);
                apart * view.scale / self.view.scale >= COUNTABLE
            };
            let way = match Paper::ALL.iter().rev().find(|paper| larger(paper)) {
                Some(paper) => format!("{} has room to count them", paper.name()),
                None => "draw parts of the network on sheets of their own".to_string(),
            };
            format!("note: rows of boxes are {apart:.2} mm apart on {}, too close to be counted; {way}", paper.name())
        });
        let notes = lost_notes(lost).into_iter().chain(close).chain(self.doubted()).chain(alike_note(source.palette));
        let notes = notes.collect();
        (lost, notes)
    }

    /// A remark on what may be misread.
    fn doubted(&self) -> Option<String> {
        let tally = check::tally(&self.placed.doubts);
        let kinds: Vec<String> = tally.iter().map(|(kind, n)| format!("{} {}", thousands(*n), kind.words())).collect();
        let count = thousands(self.placed.doubts.len());
        let where_ = "marked on the sheet and listed in the index";
        (!kinds.is_empty())
            .then(|| format!("note: places that may be misread: {count}, {where_}: {}", kinds.join(", ")))
    }

    fn leaf(&self, source: Source<'_>, lost: Lost, index: String, beside: &[Table]) -> Leaf {
        let Source { network, drawing, settings, palette } = source;
        let (placed, page) = (&self.placed, &self.page);
        let body = Body { network, palette, placed };
        let open = placed.crosses.iter().map(|cross| placed.scene.runs[cross.run].branch).collect();
        let stretches = placed.stretches.len();
        let doubts = doubts::words(&placed.doubts, &page.squares);
        let present = placed.present();
        let block = Block { network, drawing, settings, palette, page, lost, open, stretches, doubts, present, index };
        leaf(source, page, &source.title(), &|svg| {
            if let Some(part) = &network.part {
                let buses: Vec<String> = part.buses.iter().map(usize::to_string).collect();
                svg.holding("desc", &[("id", "part".to_string())], &format!("part with the buses {}", buses.join(" ")));
            } else if !network.stations.is_empty() {
                let list = register::written(&register::of(network));
                svg.holding("metadata", &[("id", register::ID.to_string())], &list);
            }
            page.squares.draw(svg, page);
            body.draw(svg);
            block.draw(svg);
            if !beside.is_empty() {
                self.index(svg, beside);
            }
        })
    }

    /// The index at the right of the drawing.
    fn index(&self, svg: &mut Svg, tables: &[Table]) {
        let (page, flow) = (&self.page, self.flow(tables, self.page.area.height()));
        svg.open("g", &[("id", "index".to_string()), ("fill", "#111111".to_string())]);
        let x = page.area.right;
        let rule = svg::path(&[[x, page.area.top], [x, page.area.bottom]]);
        svg.leaf("path", &palette::stroke(rule, "#111111", 0.35));
        let mut left = x + 0.75 * flow.gap();
        for i in 0..flow.count() {
            flow.draw(svg, i, [left, page.area.top + 0.75 * page.text]);
            left += flow.step(i);
        }
        svg.close();
    }
}

/// A page in its frame, with what is drawn on it.
fn leaf(source: Source<'_>, page: &Page, title: &str, draw: &dyn Fn(&mut Svg)) -> Leaf {
    let mut svg = Svg::default();
    let size = |r: f64| format!("{}mm", mm(r));
    let text = |s: &str| s.to_string();
    let (right, bottom) = (page.whole.right, page.whole.bottom);
    let root = [
        ("xmlns", text("http://www.w3.org/2000/svg")),
        ("width", size(right)),
        ("height", size(bottom)),
        ("viewBox", format!("0 0 {} {}", mm(right), mm(bottom))),
        ("font-family", text("Liberation Sans, Arial, Helvetica, DejaVu Sans, sans-serif")),
    ];
    svg.holding("title", &[], &visible(title));
    for file in &source.network.sources {
        svg.holding("desc", &[], &format!("{} SHA-256 {}", visible(&file.name), file.sha256));
    }
    let gaps = |o: &TxLayoutOptions| [o.bar_gap, o.pad, o.min_bar, o.buffer];
    let [gap, padding, shortest, buffer] = gaps(&source.settings.options);
    if [gap, padding, shortest, buffer] != gaps(&TxLayoutOptions::default()) {
        let said = format!("bar gap {gap}, padding {padding}, shortest bar {shortest}, buffer {buffer}");
        svg.holding("desc", &[], &said);
    }
    let f = page.frame;
    svg.leaf("rect", &[("width", mm(right)), ("height", mm(bottom)), ("fill", text("#ffffff"))]);
    let frame = [("x", mm(f.left)), ("y", mm(f.top)), ("width", mm(f.width())), ("height", mm(f.height()))];
    let stroke = [("fill", text("none")), ("stroke", text("#111111")), ("stroke-width", text("0.5"))];
    svg.leaf("rect", &[&frame[..], &stroke[..]].concat());
    draw(&mut svg);
    let root = Node { name: "svg", attributes: root.to_vec(), content: svg::Content::Nodes(svg.finished()) };
    Leaf { root, size: [right, bottom], frame: [f.left, f.top, f.right, f.bottom] }
}

/// Remarks on what found no place on the sheet.
fn lost_notes(lost: Lost) -> Vec<String> {
    let note = |what: &str, count: usize, way: &str| {
        let count = Some(thousands(count)).filter(|_| count > 0)?;
        Some(format!("note: {what} left out for want of room: {count}; {way}, and a larger paper has more room"))
    };
    let list = [
        note("names", lost.left_out, "the index has them"),
        note("numbers of branches", lost.numbers, "the index has them by the rows of shaded boxes"),
        note("labels of circuits that run as one stroke", lost.marks, "the index has them"),
        note("signs of transformers and couplers", lost.kinds, "the index has them"),
        note("isolators", lost.switches, "the index has them"),
    ];
    list.into_iter().flatten().collect()
}

/// A remark on voltages that look the same in greyscale.
fn alike_note(palette: &Palette) -> Option<String> {
    let alike = palette.alike();
    let [a, b] = *alike.first()?;
    let more = if alike.len() > 1 { format!(", and {} more pairs", thousands(alike.len() - 1)) } else { String::new() };
    let [a, b] = [a, b].map(voltage);
    Some(format!("note: {a} and {b} look alike without colour{more}; --colours FILE gives each its own"))
}
