//! A sheet cut up for an office printer: pages that overlap, with marks to cut and join them by.
use super::content::Content;
use super::file::File;
use super::resources;
use crate::paper::Paper;
use crate::sheet::svg::mm;
use crate::sheet::Leaf;

/// Paper that office printers leave white, and how much of a tile its neighbour shows too, in millimetres.
const MARGIN: f64 = 8.0;
const OVERLAP: f64 = 8.0;

/// The bar that shows whether the printer kept the size.
const BAR: f64 = 100.0;

pub struct Tiling {
    paper: [f64; 2],
    name: &'static str,
    /// Where the printed part of the sheet begins, in its millimetres.
    start: [f64; 2],
    counts: [usize; 2],
}

fn window(paper: [f64; 2]) -> [f64; 2] {
    paper.map(|side| side - 2.0 * MARGIN)
}

fn row_name(row: usize) -> String {
    let letter = char::from(b'A' + (row % 26) as u8);
    if row < 26 {
        letter.to_string()
    } else {
        format!("{}{letter}", row_name(row / 26 - 1))
    }
}

impl Tiling {
    /// The fewest tiles, upright or across, that show all of the sheet's frame.
    pub fn new(paper: Paper, leaf: &Leaf) -> Self {
        let [left, top, right, bottom] = leaf.frame;
        let start = [left - 1.0, top - 1.0];
        let whole = [right - left + 2.0, bottom - top + 2.0];
        let (long, short) = paper.sides();
        let tiling = |paper: [f64; 2]| {
            let room = window(paper);
            let count = |axis: usize| {
                if leaf.size[axis] <= paper[axis] {
                    return 1;
                }
                ((whole[axis] - OVERLAP) / (room[axis] - OVERLAP)).ceil().max(1.0) as usize
            };
            [count(0), count(1)]
        };
        let [across, upright] = [[long, short], [short, long]].map(|paper| (paper, tiling(paper)));
        let fewer = |(_, c): &([f64; 2], [usize; 2])| c[0] * c[1];
        let (paper_size, counts) = if fewer(&upright) < fewer(&across) { upright } else { across };
        Tiling { paper: paper_size, name: paper.name(), start, counts }
    }

    pub fn count(&self) -> usize {
        self.counts[0] * self.counts[1]
    }

    /// A page for each tile, row by row.
    pub fn pages(&self, file: &mut File, form: usize, fonts: [usize; 2]) -> Vec<usize> {
        let mut list = Vec::new();
        for row in 0..self.counts[1] {
            for column in 0..self.counts[0] {
                let content = self.content(row, column);
                list.push(file.page(self.paper, &resources(fonts, Some(form)), &content));
            }
        }
        list
    }

    fn content(&self, row: usize, column: usize) -> String {
        let [wide, high] = window(self.paper);
        let from = |axis: usize, i: usize| self.start[axis] + i as f64 * ([wide, high][axis] - OVERLAP);
        let shift = [MARGIN - from(0, column), MARGIN - from(1, row)].map(mm);
        let clip = format!("{} {} {} {} re W n", mm(MARGIN), mm(MARGIN), mm(wide), mm(high));
        let mut content = Content::default();
        content.text = format!("q {clip} 1 0 0 1 {} {} cm /S Do Q\n0 G 0 g 0.2 w [] 0 d\n", shift[0], shift[1]);
        self.marks(&mut content.text, row, column);
        self.words(&mut content, row, column);
        content.text
    }

    /// Marks in the margins: at the corners, where to cut; at the overlap, where the next tile begins.
    fn marks(&self, text: &mut String, row: usize, column: usize) {
        let [wide, high] = window(self.paper);
        let mut line = |a: [f64; 2], b: [f64; 2]| {
            text.push_str(&format!("{} {} m {} {} l S\n", mm(a[0]), mm(a[1]), mm(b[0]), mm(b[1])));
        };
        let (right, bottom) = (MARGIN + wide, MARGIN + high);
        for x in [MARGIN, right] {
            line([x, MARGIN - 4.0], [x, MARGIN - 1.0]);
            line([x, bottom + 1.0], [x, bottom + 4.0]);
        }
        for y in [MARGIN, bottom] {
            line([MARGIN - 4.0, y], [MARGIN - 1.0, y]);
            line([right + 1.0, y], [right + 4.0, y]);
        }
        if column + 1 < self.counts[0] {
            line([right - OVERLAP, MARGIN - 2.0], [right - OVERLAP, MARGIN]);
            line([right - OVERLAP, bottom], [right - OVERLAP, bottom + 2.0]);
        }
        if row + 1 < self.counts[1] {
            line([MARGIN - 2.0, bottom - OVERLAP], [MARGIN, bottom - OVERLAP]);
            line([right, bottom - OVERLAP], [right + 2.0, bottom - OVERLAP]);
        }
        let y = bottom + 2.5;
        let end = right - 12.0;
        line([end - BAR, y], [end, y]);
        for x in [end - BAR, end] {
            line([x, y - 0.8], [x, y + 0.8]);
        }
    }

    fn words(&self, content: &mut Content, row: usize, column: usize) {
        let name = format!("{}{}", row_name(row), column + 1);
        let last = format!("{}{}", row_name(self.counts[1] - 1), self.counts[0]);
        let bottom = self.paper[1] - MARGIN;
        let text = format!("Tile {name} of A1 to {last}, {} at full size", self.name);
        content.put(&text, [MARGIN + 12.0, bottom + 3.4], 2.5);
        let mut joins = Vec::new();
        if column > 0 {
            joins.push(format!("left edge over {}{}", row_name(row), column));
        }
        if row > 0 {
            joins.push(format!("top edge over {}{}", row_name(row - 1), column + 1));
        }
        if !joins.is_empty() {
            let text = format!("Cut by the corner marks; lay the {}, up to its marks", joins.join(" and the "));
            content.put(&text, [MARGIN + 12.0, MARGIN - 1.6], 2.5);
        }
        let wide = self.paper[0] - 2.0 * MARGIN;
        content.put(&format!("{BAR} mm"), [MARGIN + wide - 10.0, bottom + 3.4], 2.5);
    }
}
