//! How each voltage is drawn: colours and styles belong to voltages, whatever else a network has.
use super::svg::{mm, path, Attribute, Svg};
use crate::colours::{Colours, Paint, Style};
use crate::network::Network;

/// The red of the crosses.
pub const RED: &str = "#d40000";

pub struct Palette {
    /// The voltages, falling, by IEEE 754's total order.
    pub levels: Vec<f64>,
    paints: Vec<Paint>,
    mixed: Paint,
}

impl Palette {
    pub fn new(network: &Network, colours: &Colours) -> Self {
        let mut levels: Vec<f64> = network.buses.iter().map(|bus| bus.kv).collect();
        levels.sort_by(|a, b| b.total_cmp(a));
        levels.dedup_by_key(|kv| kv.to_bits());
        let paints = levels.iter().map(|&kv| colours.of(kv)).collect();
        Palette { levels, paints, mixed: colours.mixed }
    }

    pub fn level(&self, kv: f64) -> usize {
        self.levels.partition_point(|level| kv.total_cmp(level).is_lt())
    }

    /// How a level is drawn, or a branch between two.
    pub fn paint(&self, level: Option<usize>) -> Paint {
        level.map_or(self.mixed, |level| self.paints[level])
    }

    pub fn colour(&self, level: usize) -> String {
        self.paints[level].hex()
    }

    /// Pairs of the network's levels that can't be told apart without colour.
    pub fn alike(&self) -> Vec<[f64; 2]> {
        let count = self.levels.len();
        let pairs = (0..count).flat_map(|i| (0..i).map(move |j| (j, i)));
        pairs
            .filter(|&(j, i)| self.paints[i].looks_like(&self.paints[j]))
            .map(|(j, i)| [self.levels[j], self.levels[i]])
            .collect()
    }
}

impl Style {
    /// The dashes of the light core; none for a plain line.
    fn core(self) -> Option<&'static str> {
        match self {
            Style::Solid => None,
            Style::Double => Some(""),
            Style::Long => Some("4 2"),
            Style::Short => Some("1.2 2.4"),
        }
    }
}

/// The attributes of a stroke.
pub fn stroke(d: String, colour: &str, wide: f64) -> Vec<Attribute> {
    vec![("d", d), ("fill", "none".to_string()), ("stroke", colour.to_string()), ("stroke-width", mm(wide))]
}

/// The light core of a stroke, for styles that have one: a tint, so that it is seen as one line, not as two. The rims stay
/// whole: only an open branch is dashed.
pub fn core(svg: &mut Svg, paint: Paint, parts: &[Vec<[f64; 2]>], wide: f64) {
    if let Some(dashes) = paint.style.core() {
        let mut attributes = stroke(parts.iter().map(|part| path(part)).collect(), &paint.tint(), 0.45 * wide);
        if !dashes.is_empty() {
            attributes.push(("stroke-dasharray", dashes.to_string()));
        }
        svg.leaf("path", &attributes);
    }
}

#[cfg(test)]
mod tests {
    use super::*;

    #[test]
    fn levels_fall() {
        let paint = Colours::default().of(66.0);
        let palette = Palette { levels: vec![66.0, 11.0, 0.0], paints: vec![paint; 3], mixed: paint };
        assert_eq!([66.0, 11.0, 0.0].map(|kv| palette.level(kv)), [0, 1, 2]);
        assert_eq!(palette.alike().len(), 3);
    }
}
