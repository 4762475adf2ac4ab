//! The lowest rows of the title block: the last revisions, the date, and who drew and checked the sheet.
use super::block::Block;
use super::lettering::width;
use super::page::PITCH;
use super::palette::stroke;
use super::svg::{path, Svg};
use crate::approval::{Approval, Revision, SHOWN};
use crate::number::thousands;

/// The widths of the columns of revisions, as parts of the room left of the fields; and that of a field, as a part of the
/// block.
const PARTS: [f64; 4] = [0.12, 0.2, 0.48, 0.2];
const FIELD: f64 = 0.125;

impl Block<'_> {
    /// Draws the strip, where there is one.
    pub fn approval(&self, svg: &mut Svg) {
        let (b, t, approval) = (self.page.block, self.page.text, &self.settings.approval);
        if !approval.is_said() {
            return;
        }
        let top = b.bottom - PITCH * self.page.strip * t;
        let fields = b.right - 4.0 * FIELD * b.width();
        let mut rules = path(&[[b.left, top], [b.right, top]]);
        for i in 0..4 {
            let x = fields + i as f64 * FIELD * b.width();
            rules.push_str(&path(&[[x, top], [x, b.bottom]]));
        }
        svg.leaf("path", &stroke(rules, "#111111", 0.35));
        for (i, (name, value)) in approval.fields().into_iter().enumerate() {
            let x = fields + i as f64 * FIELD * b.width() + 0.6 * t;
            self.field(svg, name, value, x, FIELD * b.width() - 1.2 * t);
        }
        self.revisions(svg, approval, fields - b.left);
    }

    /// The row of the strip, counted from 0, as a row of the tables.
    fn strip_row(&self, row: usize) -> f64 {
        let b = self.page.block;
        let top = (b.height() / self.page.text) / PITCH - self.page.strip - self.page.banner;
        top + row as f64 - 0.5
    }

    /// A field with its name above its value, as large as there is room for.
    fn field(&self, svg: &mut Svg, name: &str, value: &str, x: f64, most: f64) {
        let t = self.page.text;
        self.put(svg, name, [x, self.strip_row(0)], t, false, most);
        let fits = |size: &f64| width(value, size * t, true) <= most;
        let size = [1.3, 1.15].into_iter().find(fits).unwrap_or(1.0);
        if !value.is_empty() {
            self.put_field(svg, value, [x, self.strip_row(1)], (size * t, true), most, Some(name));
        }
    }

    /// The last revisions, the newest first, below the heads of their columns.
    fn revisions(&self, svg: &mut Svg, approval: &Approval, wide: f64) {
        let (left, t) = (self.page.block.left + self.page.text, self.page.text);
        if approval.revisions.is_empty() {
            return;
        }
        let earlier = approval.revisions.len().saturating_sub(SHOWN);
        let more = if earlier > 0 { format!("Change ({} earlier)", thousands(earlier)) } else { "Change".to_string() };
        let heads =
            Revision { revision: "Revision".to_string(), date: "Date".to_string(), change: more, by: "By".to_string() };
        let shown = approval.revisions.iter().rev().take(SHOWN);
        for (row, revision) in std::iter::once(&heads).chain(shown).enumerate() {
            let cells = [&revision.revision, &revision.date, &revision.change, &revision.by];
            let mut x = left;
            for (cell, part) in cells.into_iter().zip(PARTS) {
                let room = part * (wide - t);
                if !cell.is_empty() {
                    self.put(svg, cell, [x, self.strip_row(row)], t, row == 0, room - 0.6 * t);
                }
                x += room;
            }
        }
    }
}
