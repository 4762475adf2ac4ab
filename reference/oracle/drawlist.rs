//! The program `drawlist` of 01: text in, text out, to the byte.
use crate::layout::{layout, Lent};
use crate::network::{Mesh, Network, Options};
use crate::words::{bits, float, line, whole};

/// The most buses, and the most branches, that the text may hold.
const MOST: usize = 64;

pub const BUS_NAMES: &str = "sub kv x y";
pub const BRANCH_NAMES: &str = "from to live";

fn bus(net: &mut Network, text: &[u8]) -> Option<()> {
    let words: Vec<&[u8]> = text.split(|&b| b == b' ').collect();
    let [sub, kv, x, y] = words[..] else { return None };
    net.sub.push(whole(sub, false, 0, u32::MAX.into())? as u32);
    net.kv.push(bits(kv)?);
    net.xy.push(f64::from_bits(bits(x)?));
    net.xy.push(f64::from_bits(bits(y)?));
    (net.sub.len() <= MOST).then_some(())
}

fn branch(net: &mut Network, text: &[u8]) -> Option<()> {
    let words: Vec<&[u8]> = text.split(|&b| b == b' ').collect();
    let [from, to, live] = words[..] else { return None };
    net.from.push(whole(from, true, i64::MIN.into(), i64::MAX.into())? as i64);
    net.to.push(whole(to, true, i64::MIN.into(), i64::MAX.into())? as i64);
    net.live.push(whole(live, false, 0, u8::MAX.into())? as u8);
    (net.from.len() <= MOST).then_some(())
}

fn read(input: &[u8]) -> Option<Network> {
    let text = input.strip_suffix(b"\n")?;
    let mut lines = text.split(|&b| b == b'\n');
    let mut net = Network::default();
    if lines.next()? != BUS_NAMES.as_bytes() {
        return None;
    }
    loop {
        let next = lines.next()?;
        if next == BRANCH_NAMES.as_bytes() {
            break;
        }
        bus(&mut net, next)?;
    }
    for next in lines {
        branch(&mut net, next)?;
    }
    Some(net)
}

pub fn drawlist(input: &[u8]) -> String {
    let Some(net) = read(input) else {
        return "refused 14\n".to_string();
    };
    let options = Options { fill: 0.5, iterations: 0, ..Options::defaults() };
    match layout(&net, &options, &Mesh::default(), &Lent::ample()) {
        Err(number) => format!("refused {number}\n"),
        Ok(drawing) => {
            let mut out = "branch role x0 y0 x1 y1\n".to_string();
            for (piece, &e) in drawing.segments.chunks(4).zip(&drawing.segment_edge) {
                let ends = piece.iter().map(|&x| float(x, true));
                out += &line(&format!("{e} {}", drawing.role[e as usize]), ends);
            }
            out
        }
    }
}
