//! The drawing on the sheet: boxes, runs, bars, crosses, numbers and names, from the back to the front.
use super::doubts;
use super::ids::Ids;
use super::marks::BAND;
use super::palette::{core, Palette, RED};
use super::placing::Placed;
use super::scene::{Bar, Run, Scene};
use super::svg::{self, mm, path, Attribute, Svg};
use crate::colours::{Paint, Style};
use crate::network::Network;
use crate::plain::visible;
use std::collections::HashSet;
use tansygate::{TX_ROLE_INTERNAL, TX_ROLE_LINE, TX_ROLE_OPEN};

pub struct Body<'a> {
    pub network: &'a Network,
    pub palette: &'a Palette,
    pub placed: &'a Placed,
}

/// The colour inside boxes, that of bands of five rows there, and that of the bands under stretches.
pub const PAPER: &str = "#f6f5f1";
pub const FIVES: &str = "#dde2e6";
pub const SHARED: &str = "#e3ddc8";

/// The colours of the marks at what may be misread: inside, and their edge.
pub const DOUBTED: &str = "#fbdcec";
pub const DOUBT: &str = "#c2007a";

/// The length of a dash where circuits of two voltages run as one stroke.
const DASH: f64 = 3.0;

/// Widths of strokes, as parts of a block's side, and the least and the most millimetres that they have.
fn stroke(block: f64, part: f64, least: f64, most: f64) -> f64 {
    (part * block).clamp(least, most)
}

/// A line with a light core is wider, so that it has as much ink.
pub fn line_width(run: &Run, paint: Paint) -> f64 {
    let more = if paint.style == Style::Solid { 1.0 } else { 1.35 };
    more * stroke(run.block, 0.13, 0.18, 0.6)
}

pub fn bar_width(block: f64) -> f64 {
    stroke(block, 0.27, 0.4, 1.6)
}

/// The radius of a dot or ring on a bar.
pub fn dot(scene: &Scene, bar: &Bar) -> f64 {
    0.98 * bar_width(scene.station(bar.station).block)
}

fn group(id: &str) -> Vec<Attribute> {
    vec![("id", id.to_string()), ("fill", "none".to_string())]
}

/// A mark: of a box or bar whose name found no place, of a box whose rows have to be counted.
fn marked(name: &'static str, is: bool) -> Option<Attribute> {
    is.then(|| (name, "1".to_string()))
}

impl Body<'_> {
    pub fn draw(&self, svg: &mut Svg) {
        let mut ids = Ids::new();
        self.bands(svg);
        self.boxes(svg, &mut ids);
        self.placeless(svg);
        self.fives(svg);
        self.doubts(svg);
        self.guides(svg);
        self.runs(svg, &mut ids, TX_ROLE_LINE, "lines");
        self.alternating(svg);
        self.runs(svg, &mut ids, TX_ROLE_INTERNAL, "inside");
        self.runs(svg, &mut ids, TX_ROLE_OPEN, "open");
        self.bars(svg, &mut ids);
        self.rings(svg);
        self.dots(svg);
        self.crosses(svg);
        self.kinds(svg);
        self.signs(svg);
        self.names(svg);
        self.doubt_rings(svg);
    }

    /// A pale band under each stretch where circuits run as one stroke.
    fn bands(&self, svg: &mut Svg) {
        svg.open(
            "g",
            &[group("stretches"), vec![("stroke", SHARED.to_string()), ("stroke-linejoin", "round".to_string())]]
                .concat(),
        );
        for (i, stretch) in self.placed.stretches.iter().enumerate() {
            let branches: Vec<String> =
                stretch.runs.iter().map(|&run| self.placed.scene.runs[run].branch.to_string()).collect();
            let attributes = [
                ("data-stretch", i.to_string()),
                ("data-branches", branches.join(" ")),
                ("d", path(&stretch.points)),
                ("stroke-width", mm(2.0 * BAND)),
            ];
            svg.leaf("path", &attributes);
        }
        svg.close();
    }

    /// Where circuits of different voltages run as one stroke, dashes of each in turn.
    fn alternating(&self, svg: &mut Svg) {
        svg.open("g", &group("alternating"));
        for (i, stretch) in self.placed.stretches.iter().enumerate() {
            let mut levels: Vec<Option<usize>> =
                stretch.runs.iter().map(|&run| self.placed.scene.runs[run].level).collect();
            levels.sort_unstable();
            levels.dedup();
            if levels.len() < 2 {
                continue;
            }
            let of = |run: usize| {
                line_width(&self.placed.scene.runs[run], self.palette.paint(self.placed.scene.runs[run].level))
            };
            let widest = stretch.runs.iter().map(|&run| of(run)).fold(0.0, f64::max);
            for (j, &level) in levels.iter().enumerate() {
                let mut attributes = vec![
                    ("data-shared", i.to_string()),
                    ("d", path(&stretch.points)),
                    ("stroke", self.palette.paint(level).hex()),
                    ("stroke-width", mm(widest + 0.3)),
                ];
                if j > 0 {
                    attributes
                        .push(("stroke-dasharray", format!("{} {}", mm(DASH), mm(DASH * (levels.len() - 1) as f64))));
                    attributes.push(("stroke-dashoffset", mm(DASH * j as f64)));
                }
                svg.leaf("path", &attributes);
            }
        }
        svg.close();
    }

    fn boxes(&self, svg: &mut Svg, ids: &mut Ids) {
        let names = self.placed.station_names.iter();
        let without: HashSet<usize> = names.filter(|n| n.lines.is_empty()).map(|n| n.station).collect();
        svg.open("g", &[("id", "boxes".to_string()), ("fill", PAPER.to_string()), ("stroke", "#55524a".to_string())]);
        for (i, s) in self.placed.scene.stations.iter().enumerate() {
            let name = self.network.station_name(s.number);
            let mut attributes = vec![
                ("id", ids.take("station", &name)),
                ("data-station", s.number.to_string()),
                ("x", mm(s.rect.left)),
                ("y", mm(s.rect.top)),
                ("width", mm(s.rect.width())),
                ("height", mm(s.rect.height())),
                ("rx", mm(0.2 * s.block)),
                ("stroke-width", mm(stroke(s.block, 0.08, 0.15, 0.35))),
            ];
            attributes.extend(marked("data-unnamed", without.contains(&s.number)));
            attributes.extend(marked("data-counted", self.placed.rows.counted(i)));
            svg.titled("rect", &attributes, &visible(&name));
        }
        svg.close();
    }

    /// Bands of five rows in each box whose rows have to be counted.
    fn fives(&self, svg: &mut Svg) {
        let (scene, rows) = (&self.placed.scene, &self.placed.rows);
        svg.open("g", &[("id", "fives".to_string()), ("fill", FIVES.to_string())]);
        for (i, s) in scene.stations.iter().enumerate().filter(|(i, _)| rows.counted(*i)) {
            for band in rows.bands(scene, i) {
                let place = [("x", band.left), ("y", band.top), ("width", band.width()), ("height", band.height())];
                let mut attributes = vec![("data-five", s.number.to_string())];
                attributes.extend(place.map(|(name, value)| (name, mm(value))));
                svg.leaf("rect", &attributes);
            }
        }
        svg.close();
    }

    /// A disc under each place that may be misread.
    fn doubts(&self, svg: &mut Svg) {
        let look = [("fill", DOUBTED.to_string()), ("stroke", DOUBT.to_string()), ("stroke-width", "0.3".to_string())];
        svg.open("g", &[&[("id", "doubts".to_string())], &look[..]].concat());
        for at in doubts::marks(&self.placed.doubts) {
            svg.leaf("circle", &[("cx", mm(at[0])), ("cy", mm(at[1])), ("r", mm(doubts::RADIUS))]);
        }
        svg.close();
    }

    /// The edge of each mark once more, over names and numbers that may hide the disc.
    fn doubt_rings(&self, svg: &mut Svg) {
        let look = [("stroke", DOUBT.to_string()), ("stroke-width", "0.3".to_string())];
        svg.open("g", &[&group("doubt-rings")[..], &look[..]].concat());
        for at in doubts::marks(&self.placed.doubts) {
            svg.leaf("circle", &[("cx", mm(at[0])), ("cy", mm(at[1])), ("r", mm(doubts::RADIUS))]);
        }
        svg.close();
    }

    /// Signs that send the reader to the index.
    fn signs(&self, svg: &mut Svg) {
        svg.open("g", &[("id", "signs".to_string()), ("fill", "#111111".to_string())]);
        for sign in &self.placed.signs {
            let key = format!("{} {}", sign.what.word(), sign.station);
            svg.leaf("path", &[("data-sign", key), ("d", path(&sign.points) + "Z")]);
        }
        svg.close();
    }

    /// From a bus's name to its bar, where they are apart.
    fn guides(&self, svg: &mut Svg) {
        svg.open(
            "g",
            &[group("guides"), vec![("stroke", "#a8a49a".to_string()), ("stroke-width", "0.2".to_string())]].concat(),
        );
        for ends in self.placed.bus_names.iter().filter_map(|name| name.guide) {
            svg.leaf("path", &[("d", path(&ends)), ("stroke-dasharray", "0.3 0.7".to_string())]);
        }
        svg.close();
    }

    fn runs(&self, svg: &mut Svg, ids: &mut Ids, role: u8, id: &str) {
        svg.open("g", &[group(id), vec![("stroke-linejoin", "round".to_string())]].concat());
        for run in self.placed.scene.runs.iter().filter(|run| run.role == role) {
            let branch = &self.network.branches[run.branch];
            let paint = self.palette.paint(run.level);
            let wide = line_width(run, paint);
            let mut attributes = vec![
                ("id", ids.take("branch", &branch.name)),
                ("data-branch", run.branch.to_string()),
                ("d", run.shown.iter().map(|part| path(part)).collect()),
                ("stroke", paint.hex()),
                ("stroke-width", mm(wide)),
            ];
            if run.is_open() {
                let dash = stroke(run.block, 0.5, 0.8, 2.0);
                attributes.push(("stroke-dasharray", format!("{} {}", mm(dash), mm(0.6 * dash))));
            }
            svg.titled("path", &attributes, &format!("{} {}", branch.number, visible(&branch.name)));
            if !run.is_open() {
                core(svg, paint, &run.shown, wide);
            }
        }
        svg.close();
    }

    /// Bars have a white rim, so that a line that passes a bar is seen to pass under it.
    fn bars(&self, svg: &mut Svg, ids: &mut Ids) {
        let without: HashSet<usize> =
            self.placed.bus_names.iter().filter(|n| n.line.is_none()).map(|n| n.bus).collect();
        svg.open("g", &group("bars"));
        for (i, bar) in self.placed.scene.bars.iter().enumerate() {
            let points = [[bar.x, bar.top], [bar.x, bar.bottom]];
            let wide = bar_width(self.placed.scene.station(bar.station).block);
            let rim = [("d", path(&points)), ("stroke", "#ffffff".to_string()), ("stroke-width", mm(1.8 * wide))];
            svg.leaf("path", &rim);
            let name = &self.network.buses[i].name;
            let paint = self.palette.paint(Some(bar.level));
            let mut attributes = vec![
                ("id", ids.take("bus", name)),
                ("data-bus", i.to_string()),
                ("d", path(&points)),
                ("stroke", paint.hex()),
                ("stroke-width", mm(wide)),
            ];
            attributes.extend(marked("data-unnamed", without.contains(&i)));
            svg.titled("path", &attributes, &visible(name));
            core(svg, paint, &[points.to_vec()], wide);
        }
        svg.close();
    }

    /// A dot where a live run is joined to a bar.
    fn dots(&self, svg: &mut Svg) {
        svg.open("g", &[("id", "dots".to_string())]);
        for run in self.placed.scene.runs.iter().filter(|run| !run.is_open()) {
            self.ends(svg, run, |colour, _| vec![("fill", colour)]);
        }
        svg.close();
    }

    /// A ring where an open run ends at a bar, under the dots: what is joined there is seen first.
    fn rings(&self, svg: &mut Svg) {
        svg.open("g", &[("id", "rings".to_string()), ("fill", "#ffffff".to_string())]);
        for run in self.placed.scene.runs.iter().filter(|run| run.is_open()) {
            self.ends(svg, run, |colour, radius| vec![("stroke", colour), ("stroke-width", mm(0.35 * radius))]);
        }
        svg.close();
    }

    /// A circle at each end of a run, in its bar's colour.
    fn ends(&self, svg: &mut Svg, run: &Run, paint: fn(String, f64) -> Vec<Attribute>) {
        let row = &self.network.branches[run.branch];
        for (end, bus) in run.ends().into_iter().zip([row.from, row.to]) {
            let Some(bus) = self.network.known(bus) else { continue };
            let bar = &self.placed.scene.bars[bus];
            let radius = dot(&self.placed.scene, bar);
            let place = vec![("cx", mm(end[0])), ("cy", mm(end[1])), ("r", mm(radius))];
            svg.leaf("circle", &[place, paint(self.palette.colour(bar.level), radius)].concat());
        }
    }

    fn crosses(&self, out: &mut Svg) {
        out.open("g", &group("crosses"));
        for cross in &self.placed.crosses {
            let run = &self.placed.scene.runs[cross.run];
            let d = svg::cross(cross.at, cross.arm);
            let wide = 0.42 * cross.arm;
            out.leaf("path", &[("d", d.clone()), ("stroke", "#ffffff".to_string()), ("stroke-width", mm(2.2 * wide))]);
            let attributes = [
                ("data-cross", run.branch.to_string()),
                ("d", d),
                ("stroke", RED.to_string()),
                ("stroke-width", mm(wide)),
            ];
            out.titled("path", &attributes, &visible(&self.network.branches[run.branch].name));
        }
        out.close();
    }
}
