//! Differences of substations and buses.
use super::rows::{differing, Rows, Words};
use super::twins::{members, Twins};
use super::{Change, Difference, Item, Kind};
use crate::network::{Bus, Network};
use crate::number::voltage;

/// Substations that came, went or have another name.
pub fn stations(old: &Network, new: &Network, twins: &Twins) -> Vec<Item> {
    let sorted = |network: &Network| {
        let mut list: Vec<usize> = members(network).into_keys().collect();
        list.sort_unstable();
        list
    };
    let item = |name: String, old: Option<usize>, new: Option<usize>, difference: Difference| Item {
        kind: Kind::Substation,
        name,
        old,
        new,
        lines: [None, None],
        differences: vec![difference],
    };
    let mut items = Vec::new();
    for s in sorted(new) {
        let name = new.station_name(s);
        match twins.stations.to_old.get(&s) {
            None => items.push(item(name, None, Some(s), Difference::new(Change::Added, "", ""))),
            Some(&o) if old.station_name(o) != name => {
                let renamed = Difference::new(Change::Renamed, old.station_name(o), name.clone());
                items.push(item(name, Some(o), Some(s), renamed));
            }
            Some(_) => {}
        }
    }
    for s in sorted(old).into_iter().filter(|s| !twins.stations.to_new.contains_key(s)) {
        items.push(item(old.station_name(s), Some(s), None, Difference::new(Change::Removed, "", "")));
    }
    items
}

/// Buses that differ, in the new network's order, then those that are removed.
pub fn buses(old: &Network, new: &Network, twins: &Twins) -> Vec<Item> {
    let words = Words {
        old: &|bus| described(old, bus),
        new: &|bus| described(new, bus),
        changed: &|o, i| changed(old, new, twins, &old.buses[o], &new.buses[i]),
    };
    let rows = Rows {
        kind: Kind::Bus,
        old: &old.buses,
        new: &new.buses,
        pairs: &twins.buses,
        place: |bus| (&bus.name, bus.line),
    };
    differing(&rows, &words)
}

/// A bus's substation and voltage.
fn described(network: &Network, bus: &Bus) -> String {
    format!("{}, {}", network.station_name(bus.station as usize), voltage(bus.kv))
}

fn place(at: Option<[f64; 2]>) -> String {
    at.map_or("none".to_string(), |[x, y]| format!("({x}, {y})"))
}

fn changed(old: &Network, new: &Network, twins: &Twins, was: &Bus, is: &Bus) -> Vec<Difference> {
    let mut list = Vec::new();
    if was.name != is.name {
        list.push(Difference::new(Change::Renamed, &was.name, &is.name));
    }
    if twins.stations.to_new.get(&(was.station as usize)) != Some(&(is.station as usize)) {
        let names = [old.station_name(was.station as usize), new.station_name(is.station as usize)];
        list.push(Difference::new(Change::Moved, &names[0], &names[1]));
    }
    if was.kv != is.kv && was.kv.to_bits() != is.kv.to_bits() {
        list.push(Difference::new(Change::Voltage, voltage(was.kv), voltage(is.kv)));
    }
    if was.at != is.at {
        list.push(Difference::new(Change::Coordinates, place(was.at), place(is.at)));
    }
    list
}
