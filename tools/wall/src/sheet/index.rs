//! The index: every branch by its number, circuits that run as one stroke, names that the sheet doesn't show in full, and
//! by row what ends in boxes where numbers found no room.
use super::bus_names::BusName;
use super::placing::Placed;
use super::rows::Row;
use super::squares::Squares;
use super::tables::{Column, Table};
use super::together::{middle, Stretch};
use super::{doubts, marks};
use crate::network::Network;
use crate::number::{list_key, short};
use crate::plain::one_line;
use std::collections::{BTreeMap, HashMap};

pub struct Contents<'a> {
    pub network: &'a Network,
    pub squares: &'a Squares,
    pub placed: &'a Placed,
}

/// A row's key and its cells.
type Cells = (String, Vec<String>);

/// A table by the heads of its columns, each with whether its cells may be broken; a rule stands below every fifth row.
fn table(title: &'static str, key: &'static str, heads: &[(&'static str, bool)], rows: Vec<Cells>) -> Table {
    let columns = heads.iter().map(|&(head, breaks)| Column { head, breaks }).collect();
    Table { title, key, columns, rows, groups: Vec::new(), ruled: Box::new(|row| row % 5 == 4) }
}

/// A voltage, or two.
fn kilovolts(a: f64, b: f64) -> String {
    let one = |kv: f64| if kv == 0.0 { "?".to_string() } else { kv.to_string() };
    if a == b {
        one(a)
    } else {
        format!("{}/{}", one(a), one(b))
    }
}

impl Contents<'_> {
    pub fn tables(&self) -> Vec<Table> {
        let lists = [self.branches(), self.doubts(), self.together(), self.boxes(), self.bars(), self.rows()];
        lists.into_iter().chain([self.out(), self.placeless(), self.substations(), self.branch_names()]).collect()
    }

    fn doubts(&self) -> Table {
        doubts::table(self.network, self.squares, self.placed)
    }

    fn square(&self, station: usize) -> String {
        self.squares.name(self.placed.scene.station(station).rect.middle())
    }

    fn branches(&self) -> Table {
        let mut runs = vec![None; self.network.branches.len()];
        self.placed.scene.runs.iter().enumerate().for_each(|(i, run)| runs[run.branch] = Some(i));
        let mut order: Vec<usize> = (0..runs.len()).collect();
        order.sort_by_cached_key(|&e| list_key(&self.network.branches[e].number));
        let rows = order.into_iter().map(|e| (e.to_string(), self.branch(e, runs[e]))).collect();
        let mut heads = vec![("No.", false), ("Branch", true), ("From bus", true), ("To bus", true), ("kV", false)];
        heads.extend([("Kind", false), ("State", false), ("Squares", false), ("Rows", false)]);
        heads.extend(self.network.has_switches().then_some(("Isolators", false)));
        heads.extend(self.network.has_bays().then_some(("Bay", true)));
        table("Branches", "data-index", &heads, rows)
    }

    /// Branches with one end in a part of a network.
    fn out(&self) -> Table {
        let list = self.network.part.as_ref().map_or(&[][..], |part| part.out.as_slice());
        let row = |(i, out): (usize, &crate::part::Out)| {
            let bus = &self.network.buses[out.bus];
            let cells = [out.number.clone(), one_line(&out.name), one_line(&bus.name), one_line(&out.other)];
            (i.to_string(), cells.into_iter().chain([self.square(bus.station as usize)]).collect())
        };
        let rows = list.iter().enumerate().map(row).collect();
        let heads = [("No.", false), ("Branch", true), ("Bus", true), ("Leads out to", true), ("Square", false)];
        table("Branches that lead out of this part, not drawn", "data-out", &heads, rows)
    }

    /// Substations that have no coordinates: where they are drawn is invented.
    fn placeless(&self) -> Table {
        let known = self.network.placed_stations();
        let number = |place: &usize| self.placed.scene.stations[*place].number;
        let without = self.by_name().into_iter().filter(|place| !known[number(place)]);
        let row = |place: usize| (number(&place).to_string(), vec![self.station(place), self.square(number(&place))]);
        let rows = without.map(row).collect();
        table("Substations whose place isn't known", "data-unplaced", &[("Substation", true), ("Square", false)], rows)
    }

    /// All substations in the order of their names, with their squares.
    fn substations(&self) -> Table {
        let row = |place: usize| {
            let station = &self.placed.scene.stations[place];
            let mut levels: Vec<f64> = station.buses.iter().map(|&bus| self.network.buses[bus].kv).collect();
            levels.sort_by(|a, b| b.total_cmp(a));
            levels.dedup();
            let levels: Vec<String> = levels.iter().map(|kv| kv.to_string()).collect();
            (station.number.to_string(), vec![self.station(place), self.square(station.number), levels.join(", ")])
        };
        let rows = self.by_name().into_iter().map(row).collect();
        table("Substations", "data-place", &[("Substation", true), ("Square", false), ("kV", true)], rows)
    }

    /// All branches in the order of their names, with their numbers, where that isn't the order of the numbers.
    fn branch_names(&self) -> Table {
        let name = |e: &usize| list_key(&one_line(&self.network.branches[*e].name));
        let mut order: Vec<usize> = (0..self.network.branches.len()).collect();
        order.sort_by_cached_key(|e| (list_key(&self.network.branches[*e].number), *e));
        let by_number = order.clone();
        order.sort_by_cached_key(|e| (name(e), *e));
        if order == by_number {
            order.clear();
        }
        let row = |e: usize| {
            let branch = &self.network.branches[e];
            (e.to_string(), vec![one_line(&branch.name), branch.number.clone()])
        };
        let rows = order.into_iter().map(row).collect();
        table("Branches by name", "data-name", &[("Branch", true), ("No.", false)], rows)
    }

    /// A branch, and its run where it has one.
    fn branch(&self, e: usize, run: Option<usize>) -> Vec<String> {
        let row = &self.network.branches[e];
        let [from, to] = [row.from, row.to].map(|bus| self.network.known(bus));
        let name = |bus: Option<usize>, number: i64| {
            bus.map_or_else(|| format!("{number} (unknown)"), |i| one_line(&self.network.buses[i].name))
        };
        let bus = |i: usize| &self.network.buses[i];
        let both = from.zip(to).map(|(a, b)| (bus(a), bus(b)));
        let [kv, kind, squares, rows] = both.map_or_else(Default::default, |(a, b)| {
            let (s, t) = (a.station as usize, b.station as usize);
            let kind = row.more.kind.map_or(if s == t { "inside" } else { "line" }, |kind| kind.word());
            let two = |one: String, other: String| if s == t { one } else { format!("{one}–{other}") };
            let row = |run: usize, end: usize| self.placed.rows.at(run, end).to_string();
            let joined =
                |one: String, other: String| if s == t && one == other { one } else { format!("{one}–{other}") };
            let rows = run.map_or_else(String::new, |run| joined(row(run, 0), row(run, 1)));
            [kilovolts(a.kv, b.kv), kind.to_string(), two(self.square(s), self.square(t)), rows]
        });
        let state = match run.map(|run| self.placed.scene.runs[run].is_open()) {
            Some(true) => "open",
            Some(false) => "live",
            None => "not drawn",
        };
        let cells = [row.number.clone(), one_line(&row.name), name(from, row.from), name(to, row.to), kv, kind];
        let switches = self.network.has_switches().then(|| isolators(&row.more.switches));
        let bay = self.network.has_bays().then(|| row.more.bay.clone());
        cells.into_iter().chain([state.to_string(), squares, rows]).chain(switches).chain(bay).collect()
    }

    /// What ends in each row of the boxes whose rows have to be counted, by substation.
    fn rows(&self) -> Table {
        let (scene, placed) = (&self.placed.scene, self.placed);
        let labels: HashMap<usize, &str> =
            placed.bus_names.iter().map(|name| (name.bus, name.label.as_str())).collect();
        let (mut rows, mut groups, mut ruled) = (Vec::new(), Vec::new(), Vec::new());
        for place in self.by_name().into_iter().filter(|&place| placed.rows.counted(place)) {
            groups.push((rows.len(), self.heading(place)));
            let number = scene.stations[place].number;
            for row in placed.rows.of(place) {
                let branch = scene.runs[row.run].branch;
                rows.push((format!("{number}:{branch}:{}", row.end), self.row(row, branch, &labels)));
                ruled.push(row.ends_five());
            }
        }
        let heads = [("Row", false), ("No.", false), ("Bus", true), ("To", true)];
        let table = table("Rows of shaded boxes, from the top", "data-row", &heads, rows);
        Table { groups, ruled: Box::new(move |row| ruled[row]), ..table }
    }

    fn row(&self, row: &Row, branch: usize, labels: &HashMap<usize, &str>) -> Vec<String> {
        let of = &self.network.branches[branch];
        let [own, other] =
            if row.end == 0 { [of.from, of.to] } else { [of.to, of.from] }.map(|bus| self.network.known(bus));
        let label =
            |bus: Option<usize>| bus.and_then(|bus| labels.get(&bus)).map_or_else(String::new, |s| s.to_string());
        let inside =
            own.zip(other).is_some_and(|(a, b)| self.network.buses[a].station == self.network.buses[b].station);
        let full = |bus: usize| one_line(&self.network.buses[bus].name);
        let to = if inside { label(other) } else { other.map_or_else(String::new, full) };
        vec![row.name.clone(), of.number.clone(), label(own), to]
    }

    fn together(&self) -> Table {
        let row = |(i, stretch): (usize, &Stretch)| {
            let numbers = marks::numbers(self.network, &self.placed.scene, stretch).join(", ");
            let long = stretch.points.windows(2).map(|two| super::shape::distance(two[0], two[1])).sum::<f64>();
            let square = self.squares.name(middle(&stretch.points));
            let label = if self.placed.marks[i].lines.is_empty() { "none" } else { "" };
            (i.to_string(), vec![numbers, square, format!("{} mm", short(long)), label.to_string()])
        };
        let rows = self.placed.stretches.iter().enumerate().map(row).collect();
        let heads = [("Branches", true), ("Square", false), ("Length", false), ("Label", false)];
        table("Circuits that run as one stroke", "data-together", &heads, rows)
    }

    /// The stations' places in the scene, in the order of their names.
    fn by_name(&self) -> Vec<usize> {
        let mut places: Vec<usize> = (0..self.placed.scene.stations.len()).collect();
        places.sort_by_cached_key(|&place| (list_key(&self.station(place)), place));
        places
    }

    /// The name of a station by its place in the scene.
    fn station(&self, place: usize) -> String {
        one_line(&self.network.station_name(self.placed.scene.stations[place].number))
    }

    /// Substations whose names are shortened or left out, by squares; boxes of a square are counted from the left.
    fn boxes(&self) -> Table {
        let stations = &self.placed.scene.stations;
        let mut squares: BTreeMap<(String, String), Vec<usize>> = BTreeMap::new();
        for place in 0..stations.len() {
            let square = self.square(stations[place].number);
            squares.entry((list_key(&square), square)).or_default().push(place);
        }
        let mut rows = Vec::new();
        for ((_, square), mut places) in squares {
            let middle = |place: &usize| stations[*place].rect.middle();
            places.sort_by(|a, b| middle(a)[0].total_cmp(&middle(b)[0]).then(middle(a)[1].total_cmp(&middle(b)[1])));
            for (i, &place) in places.iter().enumerate() {
                let name = &self.placed.station_names[place];
                if name.shortened || name.lines.is_empty() {
                    let text = name.lines.iter().map(|line| line.text.as_str()).collect::<Vec<_>>().join(" ");
                    let which = format!("{} of {}", i + 1, places.len());
                    let cells = vec![square.clone(), which, shown(&text), self.station(place)];
                    rows.push((format!("s{}", name.station), cells));
                }
            }
        }
        let heads = [("Square", false), ("From the left", false), ("On the sheet", false), ("Substation", true)];
        table("Substations' names shortened or left out", "data-full", &heads, rows)
    }

    /// Buses whose names are shortened or left out, by substation; bars of a box are counted from the left.
    fn bars(&self) -> Table {
        let names: HashMap<usize, &BusName> = self.placed.bus_names.iter().map(|name| (name.bus, name)).collect();
        let (mut rows, mut groups) = (Vec::new(), Vec::new());
        for place in self.by_name() {
            let (station, before) = (&self.placed.scene.stations[place], rows.len());
            for (i, bus) in station.buses.iter().enumerate() {
                let Some(name) = names.get(bus).filter(|name| name.shortened || name.line.is_none()) else { continue };
                let text = name.line.as_ref().map_or("", |line| &line.text);
                let which = format!("{} of {}", i + 1, station.buses.len());
                rows.push((format!("b{bus}"), vec![which, shown(text), one_line(&self.network.buses[*bus].name)]));
            }
            if rows.len() > before {
                groups.push((before, self.heading(place)));
            }
        }
        let heads = [("Bar", false), ("On the sheet", false), ("Bus", true)];
        Table {
            groups,
            ruled: Box::new(|_| false),
            ..table("Buses' names shortened or left out", "data-full", &heads, rows)
        }
    }

    /// A station's name and square.
    fn heading(&self, place: usize) -> String {
        format!("{}, {}", self.station(place), self.square(self.placed.scene.stations[place].number))
    }
}

/// The isolators of the first and of the second end.
fn isolators(two: &[String; 2]) -> String {
    match [two[0].is_empty(), two[1].is_empty()] {
        [true, true] => String::new(),
        _ => two.each_ref().map(|name| if name.is_empty() { "none" } else { name }).join(" – "),
    }
}

/// What the sheet shows of a name.
fn shown(text: &str) -> String {
    if text.is_empty() { "left out" } else { text }.to_string()
}
