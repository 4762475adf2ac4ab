//! Pages of the index, in the sheet's style.
use super::lettering::{fitted, Anchor, Line, SMALLEST};
use super::page::{Page, PITCH};
use super::shape::Rect;
use super::svg::{path, Svg};
use super::tables::{Contents, Flow, Table, GUTTER};
use super::{leaf, palette, Leaf, Source};
use crate::number::thousands;
use crate::paper::Paper;
use crate::plain::one_line;
use crate::report;

/// Rows below the columns: the title, and which files and page it is.
const ROWS: usize = 2;

/// Pages with as many columns on each as it has room for.
struct Sides<'a> {
    page: Page,
    flow: Flow<'a>,
    /// The first column of each page, and where the last page ends.
    firsts: Vec<usize>,
}

/// Where the columns stand.
fn room(page: &Page) -> Rect {
    page.area.grown(-0.75 * page.text)
}

/// Columns may be narrowed to this part, where that makes fewer pages.
const NARROWED: f64 = 0.85;

impl<'a> Sides<'a> {
    /// Columns as wide as they are, or narrower where one more then fits beside them, whichever takes fewer pages.
    fn new(paper: Paper, tables: &Contents<'a>, upright: bool) -> Self {
        let page = || Page::new(paper, upright, [ROWS, 0], 0.0);
        let (room, gap) = (room(&page()).width(), GUTTER * SMALLEST);
        let plain = Sides::within(page(), tables, room);
        let wide = if plain.flow.count() > 0 { plain.flow.step(0) - gap } else { room };
        let more = ((room + gap) / (wide + gap)).floor() + 1.0;
        let narrow = (room + gap) / more - gap;
        if plain.count() < 2 || narrow < NARROWED * wide {
            return plain;
        }
        let narrowed = Sides::within(page(), tables, narrow);
        if narrowed.count() < plain.count() {
            narrowed
        } else {
            plain
        }
    }

    /// Columns at most so wide.
    fn within(page: Page, tables: &Contents<'a>, most: f64) -> Self {
        let room = room(&page);
        let flow = Flow::new(tables, SMALLEST, most, room.height());
        let (mut firsts, mut used) = (vec![0], 0.0);
        for column in 0..flow.count() {
            if used > 0.0 && used + flow.step(column) > room.width() + flow.gap() + 1e-6 {
                firsts.push(column);
                used = 0.0;
            }
            used += flow.step(column);
        }
        firsts.push(flow.count());
        Sides { page, flow, firsts }
    }

    fn count(&self) -> usize {
        self.firsts.len() - 1
    }
}

/// More pages than these are put on the sheet's own paper.
const MOST: usize = 16;

/// The pages, upright or across, whichever are fewer.
pub fn leaves(source: Source<'_>, tables: &[Table]) -> Vec<Leaf> {
    let tables = &Contents::new(tables);
    let on = |paper: Paper| {
        let [across, upright] = [false, true].map(|upright| Sides::new(paper, tables, upright));
        if upright.count() <= across.count() {
            upright
        } else {
            across
        }
    };
    let (wished, own) = (source.settings.index_paper, source.settings.paper);
    let sides = match wished {
        Some(paper) => on(paper),
        None => Some(on(own.at_hand())).filter(|sides| sides.count() <= MOST).unwrap_or_else(|| on(own)),
    };
    (0..sides.count()).map(|i| one(source, &sides, i)).collect()
}

fn one(source: Source<'_>, sides: &Sides<'_>, number: usize) -> Leaf {
    let (page, flow) = (&sides.page, &sides.flow);
    let place = room(page);
    let title = format!("Index of {}, page {} of {}", source.title(), thousands(number + 1), thousands(sides.count()));
    leaf(source, page, &title, &|svg| {
        svg.open("g", &[("id", "index".to_string()), ("fill", "#111111".to_string())]);
        let mut left = place.left;
        for column in sides.firsts[number]..sides.firsts[number + 1] {
            flow.draw(svg, column, [left, place.top]);
            left += flow.step(column);
        }
        foot(svg, source, page, &title);
        svg.close();
    })
}

/// The title, and the files that the sheet was drawn from.
fn foot(svg: &mut Svg, source: Source<'_>, page: &Page, title: &str) {
    let (b, t) = (page.block, page.text);
    svg.leaf("path", &palette::stroke(path(&[[b.left, b.top], [b.right, b.top]]), "#111111", 0.35));
    let files = report::files(source.network);
    let sums: Vec<String> = files.iter().map(|(name, sum)| format!("{} SHA-256 {sum}…", one_line(name))).collect();
    let (paper, name) = (source.settings.paper.name(), one_line(&source.network.name));
    let approval = source.settings.approval.fields().into_iter().take(2).filter(|(_, value)| !value.is_empty());
    let approval: String = approval.map(|(field, value)| format!("{} {value}; ", field.to_lowercase())).collect();
    let words = format!("To the sheet on {paper} of network {name}; {approval}{}", sums.join(", "));
    for (row, text, size) in [(0.0, title, 1.3), (1.15, words.as_str(), 1.0)] {
        let Some(text) = fitted(text, size * t, size > 1.0, b.width() - 2.0 * t) else { continue };
        let y = b.top + (PITCH * row + 1.75) * t;
        svg.line(&Line { text, x: b.left + t, y, size: size * t, bold: size > 1.0, anchor: Anchor::Start }, &[]);
    }
}
