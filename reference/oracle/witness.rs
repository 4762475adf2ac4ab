//! What the wrapper has to know of a run and its result does not tell: how many crossings and detour points, whether all is
//! finite, and whether each station found a free place.
use std::cell::Cell;

#[derive(Clone, Copy)]
pub struct Seen {
    pub crossings: usize,
    pub detours: usize,
    pub finite: bool,
    pub all_free: bool,
}

const NOTHING: Seen = Seen { crossings: 0, detours: 0, finite: true, all_free: true };

thread_local! {
    static SEEN: Cell<Seen> = const { Cell::new(NOTHING) };
}

pub fn start() {
    SEEN.set(NOTHING);
}

pub fn seen() -> Seen {
    SEEN.get()
}

fn note(x: f64) {
    let s = SEEN.get();
    SEEN.set(Seen { finite: s.finite && x.is_finite(), ..s });
}

/// All crossing places of a run, those of cleared paths included.
pub fn places(all: impl Iterator<Item = f64>) {
    for t in all {
        note(t);
        let s = SEEN.get();
        SEEN.set(Seen { crossings: s.crossings + 1, ..s });
    }
}

/// A point that a detour puts in.
pub fn detour() {
    let s = SEEN.get();
    SEEN.set(Seen { detours: s.detours + 1, ..s });
}

/// Whether the search for a station's place found a free one.
pub fn placed(found: bool) {
    let s = SEEN.get();
    SEEN.set(Seen { all_free: s.all_free && found, ..s });
}

/// The counts of a run of the second implementation, which tells them.
pub fn counted(crossings: usize, detours: usize) {
    SEEN.set(Seen { crossings, detours, finite: true, all_free: true });
}

/// The points of one branch's run.
pub fn points(all: &[(f64, f64)]) {
    for p in all {
        note(p.0);
        note(p.1);
    }
}
