//! Red frames round boxes whose substation has no coordinates: where they stand is invented.
use super::body::Body;
use super::palette::RED;
use super::svg::{mm, Svg};

/// How far the frame is from the box's edge, and how broad its line is, in millimetres.
const OFF: f64 = 0.3;
const WIDE: &str = "0.5";

impl Body<'_> {
    pub fn placeless(&self, svg: &mut Svg) {
        let placed = self.network.placed_stations();
        let list: Vec<_> = self.placed.scene.stations.iter().filter(|s| !placed[s.number]).collect();
        if list.is_empty() {
            return;
        }
        let look = [("fill", "none"), ("stroke", RED), ("stroke-width", WIDE)].map(|(name, v)| (name, v.to_string()));
        svg.open("g", &[&[("id", "placeless".to_string())], &look[..]].concat());
        for station in list {
            let r = station.rect.grown(OFF);
            let place = [("x", r.left), ("y", r.top), ("width", r.width()), ("height", r.height())];
            let mut attributes = vec![("data-placeless", station.number.to_string())];
            attributes.extend(place.map(|(name, value)| (name, mm(value))));
            svg.leaf("rect", &attributes);
        }
        svg.close();
    }
}
