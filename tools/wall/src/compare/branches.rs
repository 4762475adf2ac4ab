//! Differences of branches.
use super::rows::{differing, Rows, Words};
use super::twins::{new_ends, End, Twins};
use super::{Change, Difference, Item, Kind};
use crate::network::{Branch, Network, Numbering};

/// Branches that differ, in the new network's order, then those that are removed.
pub fn branches(old: &Network, new: &Network, twins: &Twins) -> Vec<Item> {
    let words = Words {
        old: &|branch| described(old, branch),
        new: &|branch| described(new, branch),
        changed: &|o, i| changed(old, new, twins, o, i),
    };
    let rows = Rows {
        kind: Kind::Branch,
        old: &old.branches,
        new: &new.branches,
        pairs: &twins.branches,
        place: |branch| (&branch.name, branch.line),
    };
    differing(&rows, &words)
}

/// Whether the numbers of both networks are those of their rows, which any row more or less changes.
fn by_rows(old: &Network, new: &Network) -> bool {
    [old, new].iter().all(|network| network.numbering == Numbering::Rows && !network.stations.is_empty())
}

/// Branches that have another number, where numbers are those of rows; in the new network's order.
pub fn renumbered(old: &Network, new: &Network, twins: &Twins) -> Vec<Item> {
    if !by_rows(old, new) {
        return Vec::new();
    }
    let mut pairs: Vec<(usize, usize)> = twins.branches.to_old.iter().map(|(&i, &o)| (i, o)).collect();
    pairs.retain(|&(i, o)| new.branches[i].number != old.branches[o].number);
    pairs.sort_unstable();
    let item = |(i, o): (usize, usize)| {
        let (was, is) = (&old.branches[o], &new.branches[i]);
        let differences = vec![Difference::new(Change::Number, &was.number, &is.number)];
        let lines = [Some(was.line), Some(is.line)];
        Item { kind: Kind::Branch, name: is.name.clone(), old: Some(o), new: Some(i), lines, differences }
    };
    pairs.into_iter().map(item).collect()
}

/// The name of a bus by its number, or the number where there is no such bus.
fn bus_name(network: &Network, number: i64) -> String {
    network.known(number).map_or(number.to_string(), |i| network.buses[i].name.clone())
}

fn state(branch: &Branch) -> &'static str {
    if branch.service == 0 {
        "open"
    } else {
        "in service"
    }
}

/// A branch's two buses and whether it is open.
fn described(network: &Network, branch: &Branch) -> String {
    format!("{} to {}, {}", bus_name(network, branch.from), bus_name(network, branch.to), state(branch))
}

fn changed(old: &Network, new: &Network, twins: &Twins, o: usize, i: usize) -> Vec<Difference> {
    let (was, is) = (&old.branches[o], &new.branches[i]);
    let mut list = Vec::new();
    if was.name != is.name {
        list.push(Difference::new(Change::Renamed, &was.name, &is.name));
    }
    let names = [[was.from, was.to].map(|bus| bus_name(old, bus)), [is.from, is.to].map(|bus| bus_name(new, bus))];
    let ends = ends(twins.old_ends(old, o), new_ends(new, i), &names);
    let turned = ends.first().is_some_and(|difference| difference.change == Change::Turned);
    list.extend(ends);
    if (was.service == 0) != (is.service == 0) {
        let change = if is.service == 0 { Change::Opened } else { Change::Closed };
        list.push(Difference::new(change, state(was), state(is)));
    }
    list.extend(more(old, new, was, is, turned));
    if was.number != is.number && !by_rows(old, new) {
        list.push(Difference::new(Change::Number, &was.number, &is.number));
    }
    list
}

/// Other isolators, each with its substation, another bay or kind. Isolators of a branch that is turned round have changed
/// places with its ends.
fn more(old: &Network, new: &Network, was: &Branch, is: &Branch, turned: bool) -> Vec<Difference> {
    let said = |text: &str| if text.is_empty() { "none".to_string() } else { text.to_string() };
    let at = |network: &Network, bus: i64, text: &str| {
        let station = network.known(bus).map(|bus| network.buses[bus].station as usize);
        let place = station.map_or(String::new(), |station| format!(" at {}", network.station_name(station)));
        said(text) + &place
    };
    let (before, after) = (&was.more, &is.more);
    let mut list = Vec::new();
    for (end, bus) in [is.from, is.to].into_iter().enumerate() {
        let of = if turned { 1 - end } else { end };
        if before.switches[of] != after.switches[end] {
            let earlier = at(old, [was.from, was.to][of], &before.switches[of]);
            list.push(Difference::new(Change::Isolator, earlier, at(new, bus, &after.switches[end])));
        }
    }
    if before.bay != after.bay {
        list.push(Difference::new(Change::Bay, said(&before.bay), said(&after.bay)));
    }
    if before.kind != after.kind {
        let word = |kind: Option<crate::network::Kind>| kind.map_or("none", |kind| kind.word());
        list.push(Difference::new(Change::Kind, word(before.kind), word(after.kind)));
    }
    list
}

/// Which end is at another bus. Where one bus is still there, at whichever end, the other end has moved.
fn ends(was: [End; 2], is: [End; 2], names: &[[String; 2]; 2]) -> Vec<Difference> {
    let moved = |a: usize, b: usize| Difference::new(Change::Moved, &names[0][a], &names[1][b]);
    if was == is {
        return Vec::new();
    }
    if was[0] == is[1] && was[1] == is[0] {
        let whole = |two: &[String; 2]| format!("{} to {}", two[0], two[1]);
        return vec![Difference::new(Change::Turned, whole(&names[0]), whole(&names[1]))];
    }
    for (a, b) in [(0, 0), (1, 1), (0, 1), (1, 0)] {
        if was[a] == is[b] {
            return vec![moved(1 - a, 1 - b)];
        }
    }
    vec![moved(0, 0), moved(1, 1)]
}
