//! Who judges a call: the original, or the second implementation by one of its two rules for boxes in a line's way.
use std::sync::atomic::{AtomicU8, Ordering};

use crate::audit::{self, Drawing, Figures};
use crate::layout::{self, Lent};
use crate::network::{Mesh, Network, Options};
use crate::second::{self, Rule};
use crate::tx_schematic::{TxLayout, TX_LAYOUT_VERSION};
use crate::witness;

#[derive(Clone, Copy, PartialEq)]
pub enum Judge {
    /// The original.
    Original,
    /// The original where neither it nor `Nearest` finds a detour; in the audit the original with the count of pieces through
    /// boxes of `Nearest`.
    Undetoured,
    /// The second implementation, with the original's walk over cells.
    Second,
    /// The second implementation, with the rule of docs/RULES.md, 'The box entered first'.
    Nearest,
}

use Judge::*;

const ALL: [(&str, Judge); 4] =
    [("original", Original), ("undetoured", Undetoured), ("second", Second), ("nearest", Nearest)];

static CHOSEN: AtomicU8 = AtomicU8::new(0);

/// The judge of all later calls.
pub fn choose(word: &str) {
    let i = ALL.iter().position(|(name, _)| *name == word).unwrap_or_else(|| panic!("no judge {word}"));
    CHOSEN.store(i as u8, Ordering::Relaxed);
}

pub fn chosen() -> Judge {
    ALL[CHOSEN.load(Ordering::Relaxed) as usize].1
}

fn network(net: &Network) -> second::Network<'_> {
    second::Network { sub: &net.sub, kv: &net.kv, from: &net.from, to: &net.to, live: &net.live, xy: &net.xy }
}

fn options(o: &Options) -> second::Options {
    second::Options {
        fill: o.fill,
        tier_radius: o.radius,
        tier_counts: o.counts,
        tier_scales: o.scales,
        search: o.search,
        iterations: o.iterations,
        gap: o.gaps.gap,
        padding: o.gaps.padding,
        shortest: o.gaps.shortest,
        buffer: o.gaps.buffer,
    }
}

fn room(lent: &Lent) -> second::Room {
    second::Room {
        positions: lent.positions,
        bars: lent.bars,
        boxes: lent.boxes,
        scales: lent.scales,
        roles: lent.roles,
        pieces: lent.pieces,
        branches: lent.branches,
        crossings: lent.crossings,
        work_short: lent.work_short,
    }
}

/// The second implementation's drawing, as the original's type; crossings and detours are noted as the original's are.
pub fn second_layout(net: &Network, o: &Options, mesh: &Mesh, lent: &Lent, rule: Rule) -> Result<TxLayout, u32> {
    witness::start();
    let mesh = second::Mesh { corners: &mesh.corners, twins: &mesh.twins };
    let d = second::layout(&network(net), &options(o), &mesh, &room(lent), rule)?;
    witness::counted(d.crossings, d.detours);
    Ok(TxLayout {
        version: TX_LAYOUT_VERSION,
        positions: d.positions,
        busbars: d.bars,
        boxes: d.boxes,
        segments: d.pieces,
        segment_edge: d.branches,
        role: d.roles,
        unit: d.unit,
        scale: d.scales,
        bounds: d.bounds,
    })
}

pub fn second_audit(net: &Network, d: &Drawing, room: &audit::Room, rule: Rule) -> Result<Figures, u32> {
    let audited = second::Audited { boxes: &d.boxes, roles: &d.roles, pieces: &d.pieces, branches: &d.branches };
    let f = second::audit(&network(net), &audited, [room.displacement, room.spacing, room.lengths], rule)?;
    Ok(Figures {
        overlaps: f.overlaps,
        through: f.through,
        displacement: f.displacement,
        spacing: f.spacing,
        lengths: f.lengths,
    })
}

pub fn layout(net: &Network, options: &Options, mesh: &Mesh, lent: &Lent) -> Result<TxLayout, u32> {
    match chosen() {
        Original | Undetoured => layout::layout(net, options, mesh, lent),
        Second => second_layout(net, options, mesh, lent, Rule::Cells),
        Nearest => second_layout(net, options, mesh, lent, Rule::Nearest),
    }
}

pub fn audit(net: &Network, drawing: &Drawing, room: &audit::Room) -> Result<Figures, u32> {
    match chosen() {
        Original => audit::audit(net, drawing, room),
        Undetoured => {
            let figures = audit::audit(net, drawing, room)?;
            Ok(Figures { through: second_audit(net, drawing, room, Rule::Nearest)?.through, ..figures })
        }
        Second => second_audit(net, drawing, room, Rule::Cells),
        Nearest => second_audit(net, drawing, room, Rule::Nearest),
    }
}
