//! A network with its names, and where each bus and branch stands in its file.
use crate::fault::shown;
use crate::part::Part;
use crate::register::Entry;
use tansygate::TxLayoutInput;

pub struct Bus {
    pub name: String,
    pub station: u32,
    pub kv: f64,
    /// Its place, where it has one.
    pub at: Option<[f64; 2]>,
    pub line: usize,
}

/// What a branch is, where the export says it.
#[derive(Clone, Copy, Debug, PartialEq, Eq)]
pub enum Kind {
    Transformer,
    Coupler,
    Line,
}

impl Kind {
    pub const ALL: [Kind; 3] = [Kind::Transformer, Kind::Coupler, Kind::Line];

    pub fn word(self) -> &'static str {
        match self {
            Kind::Transformer => "transformer",
            Kind::Coupler => "coupler",
            Kind::Line => "line",
        }
    }

    /// Which buses such a branch is expected between.
    pub fn expected(self) -> &'static str {
        match self {
            Kind::Transformer => "from substation to substation, where two buses of one are usual",
            Kind::Coupler => "between two substations or voltages, where two buses of one of each are usual",
            Kind::Line => "between two voltages, where one is usual",
        }
    }
}

/// What an export may say of a branch beside its ends.
#[derive(Clone, Debug, Default, PartialEq, Eq)]
pub struct More {
    /// The isolators at its two ends; empty where none is said.
    pub switches: [String; 2],
    pub bay: String,
    pub kind: Option<Kind>,
}

pub struct Branch {
    pub name: String,
    /// What the sheet calls it: short, and no other's.
    pub number: String,
    pub from: i64,
    pub to: i64,
    pub service: u8,
    pub more: More,
    pub line: usize,
}

/// Where the numbers of branches are from.
#[derive(Clone, Copy, Debug, Default, PartialEq, Eq)]
pub enum Numbering {
    /// Each branch has that of its row.
    #[default]
    Rows,
    /// The export has them.
    Given,
    /// An earlier sheet has them.
    Kept,
}

/// A file that was read, by the name that the sheet shows and the one that messages show.
#[derive(Clone)]
pub struct Source {
    pub name: String,
    pub path: String,
    pub sha256: String,
}

/// Where the buses are `sources[0]` and the branches the last source.
pub struct Network {
    pub name: String,
    pub sources: Vec<Source>,
    /// Names by number; a station without one is called by its number.
    pub stations: Vec<String>,
    pub buses: Vec<Bus>,
    pub branches: Vec<Branch>,
    pub numbering: Numbering,
    /// Numbers that no branch gets again.
    pub retired: Vec<Entry>,
    /// Where it is a part, what of.
    pub part: Option<Part>,
    /// Remarks on names that are easily misread.
    pub notes: Vec<String>,
}

impl Network {
    pub fn station_name(&self, station: usize) -> String {
        self.stations.get(station).cloned().unwrap_or_else(|| station.to_string())
    }

    /// The bus with a number, if it is one of the network's.
    pub fn known(&self, number: i64) -> Option<usize> {
        usize::try_from(number).ok().filter(|&i| i < self.buses.len())
    }

    /// The columns that the library takes. A bus without a place has no finite coordinates.
    pub fn input(&self) -> TxLayoutInput {
        TxLayoutInput {
            bus_substation: self.buses.iter().map(|b| b.station).collect(),
            kv: self.buses.iter().map(|b| b.kv).collect(),
            from: self.branches.iter().map(|b| b.from).collect(),
            to: self.branches.iter().map(|b| b.to).collect(),
            in_service: self.branches.iter().map(|b| b.service).collect(),
            xy: self.buses.iter().flat_map(|b| b.at.unwrap_or([f64::NAN; 2])).collect(),
        }
    }

    /// Which stations have a bus with coordinates, by number.
    pub fn placed_stations(&self) -> Vec<bool> {
        let most = self.buses.iter().map(|bus| bus.station as usize + 1).max().unwrap_or(0);
        let mut placed = vec![false; most];
        self.buses.iter().filter(|bus| bus.at.is_some()).for_each(|bus| placed[bus.station as usize] = true);
        placed
    }

    /// The same network with y growing the other way.
    pub fn turn_over(&mut self) {
        for place in self.buses.iter_mut().filter_map(|bus| bus.at.as_mut()) {
            place[1] = -place[1];
        }
    }

    /// Whether a branch has an isolator, or a bay.
    pub fn has_switches(&self) -> bool {
        self.branches.iter().any(|branch| branch.more.switches.iter().any(|name| !name.is_empty()))
    }

    pub fn has_bays(&self) -> bool {
        self.branches.iter().any(|branch| !branch.more.bay.is_empty())
    }

    /// The row of a bus, as messages name it.
    pub fn bus_row(&self, bus: usize) -> String {
        let row = &self.buses[bus];
        format!("bus {}, {}:{}", shown(&row.name), self.sources[0].path, row.line)
    }

    /// The row of a branch, as messages name it.
    pub fn branch_row(&self, branch: usize) -> String {
        let row = &self.branches[branch];
        let path = self.sources.last().map_or("", |s| &s.path);
        format!("branch {}, {path}:{}", shown(&row.name), row.line)
    }
}
