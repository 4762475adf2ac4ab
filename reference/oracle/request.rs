//! Layout and audit calls as text, many in one stream, each closed by a line `====`; their answers likewise.
//!
//! A line is a name and its words; floats are 16 capital hexadecimal digits, whole numbers decimal; an absent line is an empty list:
//!   options fill radius count0 count1 scale0 scale1 search iterations [gap padding shortest buffer]     (the defaults where absent)
//!   sub, kv, xy, from, to, live, corners, twins
//!   lent positions bars boxes scales roles pieces branches crossings short   (ample where absent; short: 1 a work list is too short)
//! and for the audit, beside the network:
//!   boxes, roles, pieces, branches
//!   room displacement spacing lengths                                     (ample where absent)
use std::collections::HashMap;

use crate::audit::{Drawing, Room};
use crate::calls::{AuditCall, Call};
use crate::fill;
use crate::gaps::{self, Gaps};
use crate::judge::{audit, layout};
use crate::layout::Lent;
use crate::network::{Mesh, Network, Options};
use crate::tx_schematic::TxLayout;
use crate::words::{bits, float, hex, line, whole};

pub const CLOSE: &str = "====";

#[derive(Default)]
pub struct Request<'a>(HashMap<&'a str, Vec<&'a str>>);

impl<'a> Request<'a> {
    pub fn read(text: &'a str) -> Self {
        let words = |l: &'a str| {
            let mut w = l.split(' ');
            (w.next().unwrap(), w.collect())
        };
        Self(text.lines().filter(|l| !l.is_empty()).map(words).collect())
    }

    fn words(&self, name: &str) -> &[&str] {
        self.0.get(name).map_or(&[], |w| w)
    }

    fn wholes(&self, name: &str) -> Vec<i64> {
        let value = |w: &&str| whole(w.as_bytes(), true, i64::MIN.into(), i64::MAX.into());
        let value = |w| value(w).unwrap_or_else(|| panic!("{name}: {w}")) as i64;
        self.words(name).iter().map(value).collect()
    }

    fn patterns(&self, name: &str) -> Vec<u64> {
        let value = |w: &&str| bits(w.as_bytes()).unwrap_or_else(|| panic!("{name}: {w}"));
        self.words(name).iter().map(value).collect()
    }

    fn floats(&self, name: &str) -> Vec<f64> {
        self.patterns(name).into_iter().map(f64::from_bits).collect()
    }

    fn narrow<T: TryFrom<i64>>(&self, name: &str) -> Vec<T> {
        let value = |v: i64| T::try_from(v).unwrap_or_else(|_| panic!("{name}: {v}"));
        self.wholes(name).into_iter().map(value).collect()
    }

    fn options(&self) -> Options {
        let words = self.words("options");
        if words.is_empty() {
            return Options::defaults();
        }
        let number = |i: usize| f64::from_bits(bits(words[i].as_bytes()).expect("options"));
        let count = |i: usize| words[i].parse().expect("options");
        let four = |i: usize| Gaps { gap: number(i), padding: number(i + 1), shortest: number(i + 2), buffer: number(i + 3) };
        Options {
            fill: number(0),
            radius: number(1),
            counts: [count(2), count(3)],
            scales: [number(4), number(5)],
            search: words[6].parse().expect("options"),
            iterations: words[7].parse().expect("options"),
            gaps: if words.len() > 8 { four(8) } else { gaps::OLD },
        }
    }

    fn network(&self) -> Network {
        Network {
            sub: self.narrow("sub"),
            kv: self.patterns("kv"),
            from: self.wholes("from"),
            to: self.wholes("to"),
            live: self.narrow("live"),
            xy: self.floats("xy"),
        }
    }

    fn lent(&self) -> Lent {
        match self.narrow::<usize>("lent")[..] {
            [] => Lent::ample(),
            [positions, bars, boxes, scales, roles, pieces, branches, crossings, short] => Lent {
                positions,
                bars,
                boxes,
                scales,
                roles,
                pieces,
                branches,
                crossings,
                work_short: short != 0,
            },
            _ => panic!("lent: nine numbers"),
        }
    }

    fn room(&self) -> Room {
        match self.narrow::<usize>("room")[..] {
            [] => Room { displacement: usize::MAX, spacing: usize::MAX, lengths: usize::MAX },
            [displacement, spacing, lengths] => Room { displacement, spacing, lengths },
            _ => panic!("room: three numbers"),
        }
    }

    fn mesh(&self) -> Mesh {
        Mesh { corners: self.narrow("corners"), twins: self.narrow("twins") }
    }

    pub fn layout(&self) -> String {
        match layout(&self.network(), &self.options(), &self.mesh(), &self.lent()) {
            Err(number) => format!("answer {number}\n"),
            Ok(drawing) => "answer 0\n".to_string() + &drawn(drawing),
        }
    }

    /// The largest fill, by the original.
    pub fn fill(&self) -> String {
        match fill::largest(&self.network(), &self.options(), &self.mesh(), &self.lent()) {
            Err(number) => format!("answer {number}\n"),
            Ok((k, drawing)) => format!("answer 0\nfill {k}\n") + &drawn(drawing),
        }
    }

    pub fn audit(&self) -> String {
        let drawing = Drawing {
            boxes: self.floats("boxes"),
            roles: self.narrow("roles"),
            pieces: self.floats("pieces"),
            branches: self.narrow("branches"),
        };
        match audit(&self.network(), &drawing, &self.room()) {
            Err(number) => format!("answer {number}\n"),
            Ok(f) => {
                "answer 0\n".to_string()
                    + &wholes("counts", [f.overlaps, f.through, f.displacement.len(), f.lengths.len()])
                    + &floats("displacement", &f.displacement)
                    + &floats("spacing", &f.spacing)
                    + &floats("lengths", &f.lengths)
            }
        }
    }
}

fn drawn(drawing: TxLayout) -> String {
    floats("unit", &[drawing.unit])
        + &floats("bounds", &drawing.bounds)
        + &wholes("count", [drawing.segment_edge.len()])
        + &floats("positions", &drawing.positions)
        + &floats("bars", &drawing.busbars)
        + &floats("boxes", &drawing.boxes)
        + &floats("scales", &drawing.scale)
        + &wholes("roles", drawing.role)
        + &floats("pieces", &drawing.segments)
        + &wholes("branches", drawing.segment_edge)
}

fn network(net: &Network) -> String {
    wholes("sub", &net.sub)
        + &line("kv", net.kv.iter().map(|&b| hex(b)))
        + &exact("xy", &net.xy)
        + &wholes("from", &net.from)
        + &wholes("to", &net.to)
        + &wholes("live", &net.live)
}

impl Call {
    pub fn text(&self) -> String {
        let (o, l) = (&self.options, &self.lent);
        let mut words = vec![hex(o.fill.to_bits()), hex(o.radius.to_bits())];
        words.extend(o.counts.map(|c| c.to_string()));
        words.extend(o.scales.map(|x| hex(x.to_bits())));
        words.extend([o.search.to_string(), o.iterations.to_string()]);
        if o.gaps != gaps::OLD {
            words.extend(o.gaps.all().map(|x| hex(x.to_bits())));
        }
        let lent = [l.positions, l.bars, l.boxes, l.scales, l.roles, l.pieces, l.branches, l.crossings, l.work_short.into()];
        line("options", words)
            + &network(&self.net)
            + &wholes("corners", &self.mesh.corners)
            + &wholes("twins", &self.mesh.twins)
            + &wholes("lent", lent)
    }
}

impl AuditCall {
    pub fn text(&self) -> String {
        network(&self.net)
            + &exact("boxes", &self.drawing.boxes)
            + &wholes("roles", &self.drawing.roles)
            + &exact("pieces", &self.drawing.pieces)
            + &wholes("branches", &self.drawing.branches)
            + &wholes("room", [self.room.displacement, self.room.spacing, self.room.lengths])
    }
}

/// Zeros are written as +0: results are compared as numbers (docs/RULES.md, 'Equality of results').
fn floats(name: &str, list: &[f64]) -> String {
    line(name, list.iter().map(|&x| float(x, true)))
}

fn exact(name: &str, list: &[f64]) -> String {
    line(name, list.iter().map(|x| hex(x.to_bits())))
}

fn wholes<T: ToString>(name: &str, list: impl IntoIterator<Item = T>) -> String {
    line(name, list.into_iter().map(|v| v.to_string()))
}
