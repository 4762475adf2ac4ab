//! The texts of the drawing: names of buses and stations, numbers of branches, labels of stretches.
use super::body::{Body, PAPER};
use super::numbers::TIGHT;
use super::palette::{self, RED};
use super::svg::{path, Attribute, Svg};

/// The colour of lines that lead from a text to what it belongs to.
const LEADER: &str = "#6b675e";

/// A group of texts with a rim in the colour behind them, so that they can be read over lines.
pub fn texts(id: &str, fill: &str, rim: &str, wide: &str) -> Vec<Attribute> {
    vec![
        ("id", id.to_string()),
        ("fill", fill.to_string()),
        ("stroke", rim.to_string()),
        ("stroke-width", wide.to_string()),
        ("stroke-linejoin", "round".to_string()),
        ("paint-order", "stroke".to_string()),
    ]
}

impl Body<'_> {
    pub fn names(&self, svg: &mut Svg) {
        svg.open("g", &texts("bus-names", "#111111", PAPER, "0.3"));
        for name in &self.placed.bus_names {
            let bar = &self.placed.scene.bars[name.bus];
            let more = [
                ("fill", self.palette.colour(bar.level)),
                ("data-of", bar.station.to_string()),
                ("data-label", name.bus.to_string()),
            ];
            name.line.iter().for_each(|line| svg.line(line, &more));
        }
        svg.close();
        self.numbers(svg);
        self.switches(svg);
        svg.open("g", &texts("station-names", "#111111", "#ffffff", "0.6"));
        for name in &self.placed.station_names {
            let more = [("data-of", name.station.to_string())];
            if let Some(leader) = name.leader {
                let key = ("data-leads", name.station.to_string());
                svg.leaf("path", &[palette::stroke(path(&leader), LEADER, 0.25), vec![key]].concat());
            }
            name.lines.iter().for_each(|line| svg.line(line, &more));
        }
        svg.close();
        svg.open("g", &texts("marks", "#111111", "#ffffff", "0.5"));
        for (i, mark) in self.placed.marks.iter().enumerate() {
            if let Some(guide) = mark.guide {
                let key = ("data-leads-from", i.to_string());
                svg.leaf("path", &[palette::stroke(path(&guide), LEADER, 0.18), vec![key]].concat());
            }
            mark.lines.iter().for_each(|line| svg.line(line, &[("data-mark", i.to_string())]));
        }
        svg.close();
    }

    /// The numbers of branches. A run is cut under a number that stands on it.
    fn numbers(&self, svg: &mut Svg) {
        svg.open("g", &texts("numbers", "#111111", PAPER, "0.4"));
        for number in &self.placed.numbers.list {
            if number.cuts {
                let r = number.line.narrowed(TIGHT);
                let y = r.middle()[1];
                let (colour, wide) = if number.outside { ("#ffffff", r.height()) } else { (PAPER, 1.0) };
                svg.leaf("path", &palette::stroke(path(&[[r.left, y], [r.right, y]]), colour, wide));
            }
            if let Some(leader) = number.leader {
                let end = number.end.map_or("cross".to_string(), |end| end.to_string());
                let key = ("data-leads-to", format!("{} {end}", number.branch));
                let dots = ("stroke-dasharray", "0.35 0.45".to_string());
                svg.leaf("path", &[palette::stroke(path(&leader), LEADER, 0.22), vec![dots, key]].concat());
            }
            let mut more = vec![("data-number", number.branch.to_string())];
            more.extend(number.end.map(|end| ("data-end", end.to_string())));
            more.extend(number.station.map(|station| ("data-of", station.to_string())));
            more.extend(number.open.then(|| ("fill", RED.to_string())));
            more.extend(number.outside.then(|| ("data-outside", "1".to_string())));
            svg.line(&number.line, &more);
        }
        for (branch, line) in &self.placed.numbers.at_gaps {
            let (r, y) = (line.narrowed(TIGHT), line.narrowed(TIGHT).middle()[1]);
            svg.leaf("path", &palette::stroke(path(&[[r.left, y], [r.right, y]]), "#ffffff", r.height()));
            svg.line(line, &[("data-at-gap", branch.to_string())]);
        }
        svg.close();
    }
}
