//! Everything that the sheet shows, each at its place: what is placed later keeps clear of what is there.
use super::block::Lost;
use super::body::line_width;
use super::bus_names::{self, BusName};
use super::crosses::{self, Cross};
use super::kinds::{self, KindSign};
use super::legend::Present;
use super::marks::{self, Mark};
use super::numbers::{self, Around, Numbers};
use super::page::{Page, View};
use super::palette::Palette;
use super::rows::Rows;
use super::scene::{Run, Scene};
use super::seen;
use super::signs::{self, Sign};
use super::station_names::{self, StationName};
use super::switches::{self, Switch};
use super::taken::Taken;
use super::together::{self, Stretch};
use super::under;
use crate::drawing::Drawing;
use crate::misread::{self, Place};
use crate::network::Network;

pub struct Placed {
    pub scene: Scene,
    pub stretches: Vec<Stretch>,
    /// A label for each stretch.
    pub marks: Vec<Mark>,
    pub crosses: Vec<Cross>,
    pub numbers: Numbers,
    pub kinds: Vec<KindSign>,
    pub switches: Vec<Switch>,
    /// Signs of kinds and isolators that found no room.
    pub unshown: [usize; 2],
    pub rows: Rows,
    pub bus_names: Vec<BusName>,
    pub station_names: Vec<StationName>,
    pub signs: Vec<Sign>,
    /// Whether a substation has no coordinates.
    pub placeless: bool,
    /// What may be misread of all this, by gravity.
    pub doubts: Vec<Place>,
}

impl Placed {
    pub fn new(network: &Network, drawing: &Drawing, palette: &Palette, page: &Page, view: &View) -> Self {
        let scene = cut(network, drawing, palette, page, view);
        let (boxes, bars, pieces) = (scene.boxes(&page.whole), scene.bars_near(&page.whole), scene.pieces(&page.whole));
        let crosses = crosses::placed(&scene, &pieces, &boxes, &bars, &page.whole);
        let bus_names = bus_names::placed(network, &scene, page.text);
        let mut taken = Taken::new(page);
        crosses.iter().for_each(|cross| taken.add(cross.rect()));
        bus_names.iter().filter_map(|name| name.line.as_ref()).for_each(|line| taken.add(line.rect()));
        let around = Around { network, scene: &scene, pieces: &pieces, bars: &bars, boxes: &boxes, largest: page.text };
        let mut numbers = numbers::placed(&around, &crosses, &mut taken);
        let (kinds, kinds_lost) = kinds::placed(&around, &mut taken);
        let (switches, switches_lost) = switches::placed(&around, &numbers, &mut taken);
        let unshown = [kinds_lost, switches_lost];
        scene.stations.iter().for_each(|s| taken.add(s.rect));
        numbers.list.iter().flat_map(|number| number.outer(&scene)).for_each(|rect| taken.add(rect));
        let station_names = station_names::placed(network, &scene, [&pieces, &boxes], 1.5 * page.text, &mut taken);
        around.outside(&mut numbers, &mut taken);
        around.at_gaps(&mut numbers, &mut taken);
        // Dashes are seen beside another stroke that they touch.
        let width = |run: &Run| if run.is_open() { 0.0 } else { line_width(run, palette.paint(run.level)) };
        let widths: Vec<f64> = scene.runs.iter().map(width).collect();
        let stretches = together::found(&scene, &widths, &page.whole);
        let around = marks::Around { scene: &scene, pieces: &pieces, boxes: &boxes };
        let marks = marks::placed(network, &around, &stretches, &mut taken);
        let rows = rows(&scene, &numbers);
        let signs = {
            let unnamed = |place: usize| station_names[place].lines.is_empty();
            let uncounted = |place: usize| rows.counted(place) && rows.bands(&scene, place).is_empty();
            signs::placed(&scene, &unnamed, &uncounted, &mut taken)
        };
        let (doubts, known) = (Vec::new(), network.placed_stations());
        let placeless = scene.stations.iter().any(|station| !known[station.number]);
        let mut placed = Placed {
            scene,
            stretches,
            marks,
            crosses,
            numbers,
            kinds,
            switches,
            unshown,
            rows,
            bus_names,
            station_names,
            signs,
            placeless,
            doubts,
        };
        placed.doubts = misread::found(&seen::of(network, &placed, palette, &page.whole));
        placed
    }

    /// How far apart the rows of the boxes are that have to be counted, in the smallest of them.
    pub fn apart(&self) -> f64 {
        let counted = self.scene.stations.iter().enumerate().filter(|(place, _)| self.rows.counted(*place));
        counted.map(|(_, station)| station.block).fold(f64::INFINITY, f64::min)
    }

    /// Which signs the legend explains.
    pub fn present(&self) -> Present {
        let (scene, stations) = (&self.scene, 0..self.scene.stations.len());
        Present {
            under: scene.runs.iter().any(|run| run.shown.len() > 1),
            shared: !self.stretches.is_empty(),
            fives: stations.into_iter().any(|i| self.rows.counted(i) && !self.rows.bands(scene, i).is_empty()),
            doubts: !self.doubts.is_empty(),
            index: !self.signs.is_empty(),
            placeless: self.placeless,
            kinds: !self.kinds.is_empty(),
            switches: !self.switches.is_empty(),
        }
    }

    pub fn lost(&self) -> Lost {
        let buses = |test: fn(&BusName) -> bool| self.bus_names.iter().filter(|name| test(name)).count();
        let stations = |test: fn(&StationName) -> bool| self.station_names.iter().filter(|name| test(name)).count();
        Lost {
            shortened: buses(|name| name.shortened) + stations(|name| name.shortened),
            left_out: buses(|name| name.line.is_none()) + stations(|name| name.lines.is_empty()),
            numbers: self.numbers.left_out.len(),
            marks: self.marks.iter().filter(|mark| mark.lines.is_empty()).count(),
            kinds: self.unshown[0],
            switches: self.unshown[1],
        }
    }
}

/// Boxes, bars and runs, with the gaps that runs have at boxes which they pass under.
pub fn cut(network: &Network, drawing: &Drawing, palette: &Palette, page: &Page, view: &View) -> Scene {
    let mut scene = Scene::new(network, drawing, palette, view);
    let boxes = scene.boxes(&page.whole);
    under::cut(&mut scene, &boxes);
    scene
}

/// The rows of boxes; those in which a number found no room are to be counted. An open branch has its number at its cross:
/// where that isn't there, both its boxes are.
fn rows(scene: &Scene, numbers: &Numbers) -> Rows {
    let mut rows = Rows::new(scene);
    for &(run, end) in &numbers.left_out {
        let stations = scene.runs[run].stations;
        let ends = end.map_or(0..2, |end| end..end + 1);
        stations[ends].iter().for_each(|&station| rows.count(scene.place(station)));
    }
    rows
}
