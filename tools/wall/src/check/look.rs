//! What an element has from itself and from the groups that it stands in: its map to the page, stroke, text size, and
//! whether it is seen.
use super::plane::{number, Map};
use super::xml::Element;
use std::rc::Rc;

/// Less than this isn't seen: opacity, and the width of a stroke in millimetres.
const FAINT: f64 = 0.2;
const THIN: f64 = 0.05;

/// A colour whose parts are all above this is pale.
const BRIGHT: u32 = 0xD8;

#[derive(Clone)]
pub struct Look {
    /// From its own numbers to millimetres on the page.
    pub map: Map,
    pub stroke: Rc<str>,
    pub fill: Rc<str>,
    pub wide: f64,
    pub size: Option<f64>,
    pub dashed: bool,
    pub anchor: Rc<str>,
    /// Whether it or a group around it is hidden, clipped or has no ink.
    pub hidden: bool,
    /// Whether an attribute can't be read.
    pub unread: bool,
    /// The id of the group that it stands in.
    pub group: Rc<str>,
}

impl Look {
    /// The look of the page's root, whose own numbers become millimetres by this map.
    pub fn root(map: Map) -> Look {
        Look {
            map,
            stroke: "none".into(),
            fill: "#000000".into(),
            wide: 1.0,
            size: None,
            dashed: false,
            anchor: "start".into(),
            hidden: false,
            unread: false,
            group: "".into(),
        }
    }

    /// The look of an element inside another.
    pub fn inside(&self, element: &Element<'_>) -> Look {
        let mut look = self.clone();
        for (name, value) in &element.attributes {
            look.take(name, value);
        }
        look
    }

    fn take(&mut self, name: &str, value: &str) {
        let value = value.trim();
        let faint = || number(value).is_none_or(|x| x < FAINT);
        match name {
            "transform" => match Map::read(value) {
                Some(map) => self.map = self.map.after(&map),
                None => self.unread = true,
            },
            "stroke" => self.stroke = value.into(),
            "fill" => self.fill = value.into(),
            "stroke-width" => self.wide = self.length(value),
            "font-size" => self.size = Some(self.length(value)),
            "stroke-dasharray" => self.dashed = value != "none",
            "text-anchor" => self.anchor = value.into(),
            "style" => self.unread = true,
            "clip-path" | "mask" | "filter" => self.hidden |= value != "none",
            "display" => self.hidden |= value == "none",
            "visibility" => self.hidden |= value != "visible",
            "opacity" | "stroke-opacity" | "fill-opacity" => self.hidden |= faint(),
            _ => {}
        }
    }

    fn length(&mut self, value: &str) -> f64 {
        number(value).unwrap_or_else(|| {
            self.unread = true;
            0.0
        })
    }

    /// Whether its stroke is seen on white paper.
    pub fn inked(&self) -> bool {
        !self.hidden && self.wide * self.map.scale() >= THIN && !pale(&self.stroke)
    }

    /// Whether text of this look is seen on white paper.
    pub fn filled(&self) -> bool {
        !self.hidden && !pale(&self.fill)
    }
}

/// Whether a colour is none, white or nearly so.
fn pale(colour: &str) -> bool {
    let bright =
        |part: &str| u32::from_str_radix(part, 16).is_ok_and(|x| x * if part.len() == 1 { 17 } else { 1 } > BRIGHT);
    match (colour.strip_prefix('#'), colour.len()) {
        (Some(hex), 4) if hex.is_ascii() => (0..3).all(|i| bright(&hex[i..i + 1])),
        (Some(hex), 7) if hex.is_ascii() => (0..3).all(|i| bright(&hex[2 * i..2 * i + 2])),
        _ => matches!(colour, "none" | "white" | "transparent"),
    }
}

#[cfg(test)]
mod tests {
    use super::pale;

    #[test]
    fn pale_colours() {
        assert!(["none", "white", "#fff", "#ffffff", "#f6f5f1", "transparent"].iter().all(|c| pale(c)));
        assert!(["#111111", "#ffd400", "#888", "black", "#d40000"].iter().all(|c| !pale(c)));
    }
}
