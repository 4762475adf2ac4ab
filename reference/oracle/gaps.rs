//! The formulas by which a box's interior is drawn, with the four gaps as options, each operation once and in its order
//! (docs/RULES.md, 'Sizes', 'Bars and row ends').
//! `reference/build` puts them in the places of the original's constants (target/reference/gapped.rs). There the four numbers
//! are those of the call that this thread makes.
use std::cell::Cell;

#[derive(Clone, Copy, Debug, PartialEq)]
pub struct Gaps {
    pub gap: f64,
    pub padding: f64,
    pub shortest: f64,
    pub buffer: f64,
}

/// The original's four numbers.
pub const OLD: Gaps = Gaps { gap: 2.0, padding: 1.0, shortest: 2.0, buffer: 1.0 };

impl Gaps {
    pub fn in_range(&self) -> bool {
        self.all().into_iter().all(|x| (0.5..=8.0).contains(&x))
    }

    pub fn all(&self) -> [f64; 4] {
        [self.gap, self.padding, self.shortest, self.buffer]
    }
}

thread_local! { static GAPS: Cell<Gaps> = const { Cell::new(OLD) } }

pub fn set(gaps: Gaps) {
    GAPS.with(|g| g.set(gaps));
}

fn gaps() -> Gaps {
    GAPS.with(|g| g.get())
}

/// gap × (buses − 1) + 2 × padding
pub fn width(buses: usize) -> f64 {
    let gaps = gaps();
    let others = if buses == 0 { 0 } else { buses - 1 };
    let bars = gaps.gap * others as f64;
    let sides = 2.0 * gaps.padding;
    bars + sides
}

/// max(rows, shortest bar) + 2 × padding
pub fn height(rows: usize) -> f64 {
    let gaps = gaps();
    let rows = rows as f64;
    let inside = if gaps.shortest > rows { gaps.shortest } else { rows };
    let sides = 2.0 * gaps.padding;
    inside + sides
}

/// left + (padding + gap × column) × f
pub fn bar_x(left: f64, column: usize, f: f64) -> f64 {
    let gaps = gaps();
    let bars = gaps.gap * column as f64;
    let blocks = gaps.padding + bars;
    left + blocks * f
}

/// top + (padding + row + 0.5) × f
pub fn row_y(top: f64, row: usize, f: f64) -> f64 {
    let above = gaps().padding + row as f64;
    let blocks = above + 0.5;
    top + blocks * f
}

/// A bar without rows: from top + padding × f to top + (padding + shortest bar) × f
pub fn bare(top: f64, f: f64) -> (f64, f64) {
    let gaps = gaps();
    let end = gaps.padding + gaps.shortest;
    (top + gaps.padding * f, top + end * f)
}

/// The least length: shortest bar × f
pub fn least(f: f64) -> f64 {
    gaps().shortest * f
}

/// On each side of a box: unit × scale × buffer
pub fn buffer(unit: f64, scale: f64) -> f64 {
    let f = unit * scale;
    f * gaps().buffer
}

/// At least twice the widest buffer: the original's grid of boxes has cells of this size and the largest box's together.
pub fn reach(unit: f64) -> f64 {
    2.0 * gaps().buffer * unit
}
