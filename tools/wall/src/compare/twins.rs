//! Which substation, bus and branch of the old network is which of the new: by name, or where it is renamed and there
//! is one candidate only.
use crate::network::{Bus, Network};
use std::collections::HashMap;
use std::hash::Hash;

/// Numbers in the new network by those in the old, and the other way round.
#[derive(Default)]
pub struct Pairs {
    pub to_new: HashMap<usize, usize>,
    pub to_old: HashMap<usize, usize>,
}

pub struct Twins {
    pub stations: Pairs,
    pub buses: Pairs,
    pub branches: Pairs,
}

/// A bus at the end of a branch: one of the new network, one that only the old has, or none.
#[derive(Clone, Copy, Debug, PartialEq, Eq, Hash, PartialOrd, Ord)]
pub enum End {
    New(usize),
    Gone(usize),
    Unknown(i64),
}

impl Pairs {
    fn add(&mut self, old: usize, new: usize) {
        self.to_new.insert(old, new);
        self.to_old.insert(new, old);
    }

    /// Pairs what has the same key, where nothing else has it.
    fn add_unique<K: Eq + Hash>(
        &mut self,
        old: impl Iterator<Item = (K, usize)>,
        new: impl Iterator<Item = (K, usize)>,
    ) {
        let mut found: HashMap<K, (Vec<usize>, Vec<usize>)> = HashMap::new();
        old.for_each(|(key, i)| found.entry(key).or_default().0.push(i));
        new.for_each(|(key, i)| found.entry(key).or_default().1.push(i));
        for (olds, news) in found.into_values() {
            if let ([old], [new]) = (&olds[..], &news[..]) {
                self.add(*old, *new);
            }
        }
    }

    fn only_old(&self, count: usize) -> impl Iterator<Item = usize> + '_ {
        (0..count).filter(|i| !self.to_new.contains_key(i))
    }

    fn only_new(&self, count: usize) -> impl Iterator<Item = usize> + '_ {
        (0..count).filter(|i| !self.to_old.contains_key(i))
    }
}

/// The numbers of stations that have a bus, with the buses of each.
pub fn members(network: &Network) -> HashMap<usize, Vec<usize>> {
    let mut list: HashMap<usize, Vec<usize>> = HashMap::new();
    for (i, bus) in network.buses.iter().enumerate() {
        list.entry(bus.station as usize).or_default().push(i);
    }
    list
}

impl Twins {
    pub fn new(old: &Network, new: &Network) -> Self {
        let mut buses = Pairs::default();
        let named = |network: &Network| network.buses.iter().map(|bus| bus.name.clone()).collect();
        buses.add_unique(numbered(named(old)), numbered(named(new)));
        let mut branches = Pairs::default();
        let named = |network: &Network| network.branches.iter().map(|branch| branch.name.clone()).collect();
        branches.add_unique(numbered(named(old)), numbered(named(new)));
        let mut twins = Twins { stations: stations(old, new, &buses), buses, branches };
        twins.renamed_buses(old, new);
        twins.renamed_branches(old, new);
        twins
    }

    /// A bus is renamed where the one new bus of its substation and voltage has the same branches; one without any,
    /// where it has the same place.
    fn renamed_buses(&mut self, old: &Network, new: &Network) {
        let (at_old, at_new) = (incident(old), incident(new));
        let key = |bus: &Bus, station: Option<usize>, branches: &[&str]| {
            let place = bus.at.filter(|_| branches.is_empty()).map(|at| at.map(f64::to_bits));
            (station, bus.kv.to_bits(), branches.join("\0"), place)
        };
        let olds: Vec<_> = self.buses.only_old(old.buses.len()).collect();
        let news: Vec<_> = self.buses.only_new(new.buses.len()).collect();
        let of_old = |&i: &usize| {
            let station = self.stations.to_new.get(&(old.buses[i].station as usize)).copied();
            (key(&old.buses[i], station, &at_old[i]), i)
        };
        let of_new = |&i: &usize| (key(&new.buses[i], Some(new.buses[i].station as usize), &at_new[i]), i);
        let (olds, news): (Vec<_>, Vec<_>) = (olds.iter().map(of_old).collect(), news.iter().map(of_new).collect());
        self.buses.add_unique(olds.into_iter(), news.into_iter());
    }

    /// A branch is renamed where, of those between two buses, one old and one new have no twin by name.
    fn renamed_branches(&mut self, old: &Network, new: &Network) {
        let sorted = |mut ends: [End; 2]| {
            ends.sort();
            ends
        };
        let olds: Vec<_> =
            self.branches.only_old(old.branches.len()).map(|e| (sorted(self.old_ends(old, e)), e)).collect();
        let news: Vec<_> = self.branches.only_new(new.branches.len()).map(|e| (sorted(new_ends(new, e)), e)).collect();
        self.branches.add_unique(olds.into_iter(), news.into_iter());
    }

    /// The ends of an old branch, as buses of the new network where they are still there.
    pub fn old_ends(&self, old: &Network, branch: usize) -> [End; 2] {
        let row = &old.branches[branch];
        [row.from, row.to].map(|bus| match old.known(bus) {
            None => End::Unknown(bus),
            Some(i) => self.buses.to_new.get(&i).map_or(End::Gone(i), |&new| End::New(new)),
        })
    }
}

pub fn new_ends(new: &Network, branch: usize) -> [End; 2] {
    let row = &new.branches[branch];
    [row.from, row.to].map(|bus| new.known(bus).map_or(End::Unknown(bus), End::New))
}

/// Substations by name; one whose name is gone is the new one that has the same buses.
fn stations(old: &Network, new: &Network, buses: &Pairs) -> Pairs {
    let (in_old, in_new) = (members(old), members(new));
    let named = |network: &Network, numbers: &HashMap<usize, Vec<usize>>| {
        numbers.keys().map(|&s| (network.station_name(s), s)).collect::<Vec<_>>()
    };
    let mut pairs = Pairs::default();
    pairs.add_unique(named(old, &in_old).into_iter(), named(new, &in_new).into_iter());
    let olds: Vec<(Vec<usize>, usize)> = in_old
        .iter()
        .filter(|(s, _)| !pairs.to_new.contains_key(s))
        .filter_map(|(&s, list)| {
            let mut list = list.iter().map(|i| buses.to_new.get(i).copied()).collect::<Option<Vec<usize>>>()?;
            list.sort_unstable();
            Some((list, s))
        })
        .collect();
    let news: Vec<(Vec<usize>, usize)> =
        in_new.into_iter().filter(|(s, _)| !pairs.to_old.contains_key(s)).map(|(s, list)| (list, s)).collect();
    pairs.add_unique(olds.into_iter(), news.into_iter());
    pairs
}

/// Names with their numbers.
fn numbered(names: Vec<String>) -> impl Iterator<Item = (String, usize)> {
    names.into_iter().enumerate().map(|(i, name)| (name, i))
}

/// The names of the branches at each bus, in order.
fn incident(network: &Network) -> Vec<Vec<&str>> {
    let mut list: Vec<Vec<&str>> = vec![Vec::new(); network.buses.len()];
    for branch in &network.branches {
        for bus in [branch.from, branch.to].into_iter().filter_map(|bus| network.known(bus)) {
            list[bus].push(&branch.name);
        }
    }
    list.iter_mut().for_each(|names| names.sort_unstable());
    list
}
