//! The page: its frame, the area of the drawing, the room beside it and the title block below.
use super::shape::{Point, Rect};
use super::squares::Squares;
use crate::paper::Paper;

/// Paper left free outside the frame, and the band of the grid's letters inside it, on a large and on a small sheet.
const MARGINS: [f64; 2] = [10.0, 7.0];
const BANDS: [f64; 2] = [5.0, 4.0];

/// Rows of the title block.
pub const ROWS: usize = 10;

/// Rows above them for the title, where the page is too narrow to have it beside the tables, and what that takes, in text
/// sizes.
const BANNER: usize = 6;
const WIDE: f64 = 108.0;

/// From one of them to the next, in text sizes.
pub const PITCH: f64 = 1.4;

/// Room for names round the drawing, in text sizes.
const BESIDE: f64 = 1.6;
const ABOVE: f64 = 2.1;

/// The largest block, in text sizes: a network of few stations doesn't fill a large sheet.
const LARGEST_BLOCK: f64 = 3.6;

pub struct Page {
    pub whole: Rect,
    pub frame: Rect,
    /// What the band encloses.
    pub inner: Rect,
    pub area: Rect,
    pub block: Rect,
    /// Rows of the block above its tables, and below them.
    pub banner: f64,
    pub strip: f64,
    pub text: f64,
    pub name: String,
    pub squares: Squares,
}

/// How drawing units become millimetres.
#[derive(Clone, Copy)]
pub struct View {
    pub scale: f64,
    from: Point,
    to: Point,
}

impl Page {
    /// A page with so many rows in its block, those of its tables and those below them, and so much room right of its area.
    pub fn new(paper: Paper, upright: bool, [rows, strip]: [usize; 2], side: f64) -> Self {
        let (long, short) = paper.sides();
        let (width, height) = if upright { (short, long) } else { (long, short) };
        let text = paper.text();
        let small = usize::from(long < 500.0);
        let whole = Rect::new(0.0, 0.0, width, height);
        let frame = whole.grown(-MARGINS[small]);
        let inner = frame.grown(-BANDS[small]);
        let banner = if rows == ROWS && inner.width() < WIDE * text { BANNER } else { 0 };
        let edge = inner.bottom - ((rows + banner + strip) as f64 * PITCH + 1.2) * text;
        let area = Rect::new(inner.left, inner.top, inner.right - side, edge);
        Page {
            whole,
            frame,
            inner,
            area,
            block: Rect::new(inner.left, edge, inner.right, inner.bottom),
            banner: banner as f64,
            strip: strip as f64,
            text,
            name: format!("{} {}, {width} × {height} mm", paper.name(), if upright { "portrait" } else { "landscape" }),
            squares: Squares::new(area, upright),
        }
    }

    /// The page on which the drawing is larger, and how it stands there; room is kept at its side for columns of the
    /// given width: as many as the function takes for an area's height; and so many rows below the block's tables.
    pub fn fitted(paper: Paper, strip: usize, extent: &Rect, unit: f64, side: &dyn Fn(f64) -> f64) -> (Page, View) {
        let [across, upright] = [false, true].map(|upright| {
            let bare = Page::new(paper, upright, [ROWS, strip], 0.0);
            let page = Page::new(paper, upright, [ROWS, strip], side(bare.area.height()));
            let view = View::fitted(&page, extent, unit);
            (page, view)
        });
        if upright.1.scale > across.1.scale {
            upright
        } else {
            across
        }
    }
}

impl View {
    fn fitted(page: &Page, extent: &Rect, unit: f64) -> Self {
        let width = (page.area.width() - 2.0 * BESIDE * page.text).max(0.0);
        let height = page.area.height() - 2.0 * ABOVE * page.text;
        let scale = (width / extent.width()).min(height / extent.height()).min(LARGEST_BLOCK * page.text / unit);
        View { scale, from: extent.middle(), to: page.area.middle() }
    }

    pub fn point(&self, x: f64, y: f64) -> Point {
        [(x - self.from[0]) * self.scale + self.to[0], (y - self.from[1]) * self.scale + self.to[1]]
    }

    /// The rectangle of four numbers: left, top, right, bottom.
    pub fn rect(&self, four: &[f64]) -> Rect {
        let (p, q) = (self.point(four[0], four[1]), self.point(four[2], four[3]));
        Rect::new(p[0], p[1], q[0], q[1])
    }
}
