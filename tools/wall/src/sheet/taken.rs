//! Room on the sheet that is taken: boxes, texts and crosses that are placed.
use super::near::Near;
use super::page::Page;
use super::shape::Rect;

pub struct Taken {
    area: Rect,
    rects: Vec<Rect>,
    near: Near,
}

impl Taken {
    pub fn new(page: &Page) -> Self {
        Taken { area: page.area.grown(-1.0), rects: Vec::new(), near: Near::new(&page.whole) }
    }

    pub fn add(&mut self, rect: Rect) {
        self.near.insert(self.rects.len(), &rect);
        self.rects.push(rect);
    }

    pub fn free(&self, rect: &Rect) -> bool {
        self.area.holds(rect) && self.near.near(rect).into_iter().all(|i| !self.rects[i].overlaps(rect))
    }
}
