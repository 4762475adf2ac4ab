//! A part of a network: its substations, buses and branches, with what is left out.
use crate::args::Settings;
use crate::choice;
use crate::colours::Colours;
use crate::export::hint;
use crate::fault::{shown, Fault};
use crate::network::{Branch, Bus, Network};
use crate::number::{thousands, voltage};
use crate::sheet;
use std::collections::{BTreeMap, BTreeSet, HashMap};

/// Which part is asked for: what is asked for together has to hold together.
#[derive(Clone, Debug, Default, PartialEq)]
pub struct Wanted {
    pub around: Option<String>,
    pub hops: Option<usize>,
    pub square: Option<String>,
    pub voltage: Option<f64>,
}

/// A branch with one end in the part.
#[derive(Clone, Debug)]
pub struct Out {
    pub number: String,
    pub name: String,
    /// Its bus in the part, and the name of the other.
    pub bus: usize,
    pub other: String,
}

/// What a network is a part of.
#[derive(Clone, Debug)]
pub struct Part {
    /// What was asked for, in words.
    pub words: String,
    /// Its buses, by their numbers in the whole network.
    pub buses: Vec<usize>,
    /// How many substations and branches the whole network has.
    pub whole: [usize; 2],
    pub out: Vec<Out>,
}

/// Hops where none are said.
const HOPS: usize = 2;

impl Wanted {
    pub fn is_said(&self) -> bool {
        *self != Wanted::default()
    }

    fn words(&self) -> String {
        let mut list = Vec::new();
        list.extend(self.around.as_ref().map(|station| {
            let hops = self.hops.unwrap_or(HOPS);
            format!("within {hops} {} of {station}", if hops == 1 { "hop" } else { "hops" })
        }));
        list.extend(self.square.as_ref().map(|square| format!("square {}", square.to_uppercase())));
        list.extend(self.voltage.map(voltage));
        list.join(", ")
    }
}

/// The part that the settings ask for.
pub fn asked(network: Network, settings: &Settings, colours: &Colours) -> Result<Network, Fault> {
    let wanted = &settings.part;
    if !wanted.is_said() {
        return Ok(network);
    }
    let mut kept = vec![true; network.buses.len()];
    if let Some(station) = &wanted.around {
        let near = near(&network, station, wanted.hops.unwrap_or(HOPS))?;
        keep(&network, &mut kept, |bus| near.contains(&bus.station));
    }
    if let Some(square) = &wanted.square {
        let inside = inside(&network, square, settings, colours)?;
        keep(&network, &mut kept, |bus| inside.contains(&bus.station));
    }
    if let Some(kv) = wanted.voltage {
        keep(&network, &mut kept, |bus| bus.kv == kv);
    }
    if !kept.contains(&true) {
        let mut levels: Vec<f64> = network.buses.iter().map(|bus| bus.kv).collect();
        levels.sort_by(|a, b| b.total_cmp(a));
        levels.dedup();
        let levels: Vec<String> = levels.into_iter().map(voltage).collect();
        let (words, levels) = (wanted.words(), levels.join(", "));
        return Err(Fault::Usage(format!(
            "expected a part with a bus in it, found none: {words} (voltages: {levels})"
        )));
    }
    let buses: Vec<usize> = (0..kept.len()).filter(|&bus| kept[bus]).collect();
    Ok(of(&network, &buses, wanted.words()))
}

fn keep(network: &Network, kept: &mut [bool], test: impl Fn(&Bus) -> bool) {
    kept.iter_mut().zip(&network.buses).for_each(|(kept, bus)| *kept &= test(bus));
}

/// The stations within so many hops of a station.
fn near(network: &Network, name: &str, hops: usize) -> Result<BTreeSet<u32>, Fault> {
    let named = |bus: &&Bus| network.station_name(bus.station as usize) == name;
    let Some(first) = network.buses.iter().find(named).map(|bus| bus.station) else {
        let names: Vec<String> = network.buses.iter().map(|bus| network.station_name(bus.station as usize)).collect();
        let meant = hint(name, names.iter().map(String::as_str));
        return Err(Fault::Usage(format!(
            "--around: expected a substation of the network, found {}{meant}",
            shown(name)
        )));
    };
    let mut beside: HashMap<u32, Vec<u32>> = HashMap::new();
    for branch in &network.branches {
        let Some((a, b)) = network.known(branch.from).zip(network.known(branch.to)) else { continue };
        let (a, b) = (network.buses[a].station, network.buses[b].station);
        beside.entry(a).or_default().push(b);
        beside.entry(b).or_default().push(a);
    }
    let mut found = BTreeSet::from([first]);
    let mut last = vec![first];
    for _ in 0..hops {
        let next: Vec<u32> = last.iter().filter_map(|station| beside.get(station)).flatten().copied().collect();
        last = next.into_iter().filter(|&station| found.insert(station)).collect();
    }
    Ok(found)
}

/// The stations whose boxes stand in a square of the whole network's sheet.
fn inside(network: &Network, square: &str, settings: &Settings, colours: &Colours) -> Result<Vec<u32>, Fault> {
    let choice::Chosen { drawing, settings: chosen } = choice::drawn(network, settings, colours)?;
    let squares = sheet::squares_of(network, &drawing, &chosen, colours);
    let wanted = square.to_uppercase();
    let list: Vec<u32> =
        squares.iter().filter(|(_, name)| *name == wanted).map(|(station, _)| *station as u32).collect();
    if list.is_empty() {
        let mut names: Vec<&String> = squares.iter().map(|(_, name)| name).collect();
        names.sort();
        names.dedup();
        let names: Vec<&str> = names.into_iter().map(String::as_str).take(40).collect();
        let expected =
            format!("--square: expected a square of the sheet with a substation in it, found {}", shown(square));
        return Err(Fault::Usage(format!("{expected}; there are {}", names.join(", "))));
    }
    Ok(list)
}

/// The part of a network that has these buses, in their order.
pub fn of(network: &Network, buses: &[usize], words: String) -> Network {
    let place: HashMap<usize, usize> = buses.iter().enumerate().map(|(new, &old)| (old, new)).collect();
    let within = |bus: i64| network.known(bus).and_then(|bus| place.get(&bus).copied());
    let mut numbers: BTreeMap<u32, u32> = buses.iter().map(|&bus| (network.buses[bus].station, 0)).collect();
    numbers.values_mut().zip(0..).for_each(|(number, new)| *number = new);
    let bus = |&bus: &usize| {
        let row = &network.buses[bus];
        Bus { name: row.name.clone(), station: numbers[&row.station], kv: row.kv, at: row.at, line: row.line }
    };
    let (mut branches, mut out) = (Vec::new(), Vec::new());
    for row in &network.branches {
        let (name, number, more) = (row.name.clone(), row.number.clone(), row.more.clone());
        match (within(row.from), within(row.to)) {
            (Some(from), Some(to)) => {
                let (from, to, service, line) = (from as i64, to as i64, row.service, row.line);
                branches.push(Branch { name, number, from, to, service, more, line });
            }
            (None, None) => {}
            (from, to) => {
                let far = if from.is_some() { row.to } else { row.from };
                let other = network.known(far).map_or(far.to_string(), |bus| network.buses[bus].name.clone());
                out.extend(from.or(to).map(|bus| Out { number, name, bus, other }));
            }
        }
    }
    let mut stations: Vec<u32> = network.buses.iter().map(|bus| bus.station).collect();
    stations.sort_unstable();
    stations.dedup();
    let whole = [stations.len(), network.branches.len()];
    let names: Vec<String> = numbers.keys().map(|&station| network.station_name(station as usize)).collect();
    let part = Part { words, buses: buses.to_vec(), whole, out };
    let mut notes = network.notes.clone();
    notes.push(part.note(names.len(), branches.len()));
    Network {
        name: network.name.clone(),
        sources: network.sources.clone(),
        stations: names,
        buses: buses.iter().map(bus).collect(),
        branches,
        numbering: network.numbering,
        retired: Vec::new(),
        part: Some(part),
        notes,
    }
}

impl Part {
    /// What the part is of the whole, in words.
    pub fn said(&self, stations: usize, branches: usize) -> String {
        let [all, rows] = self.whole.map(thousands);
        let (stations, branches) = (thousands(stations), thousands(branches));
        let out = match self.out.len() {
            0 => "none leads out".to_string(),
            n => format!("{} lead out", thousands(n)),
        };
        format!("part: {}: {stations} of {all} substations, {branches} of {rows} branches; {out}", self.words)
    }

    fn note(&self, stations: usize, branches: usize) -> String {
        format!("note: {}", self.said(stations, branches))
    }
}
