//! What differs between two networks, bus by bus and branch by branch.
mod branches;
mod buses;
mod ink;
pub mod marks;
mod places;
mod rows;
pub mod table;
mod twins;
pub mod words;

use crate::network::Network;
use twins::Twins;

#[derive(Clone, Copy, Debug, PartialEq, Eq)]
pub enum Kind {
    Substation,
    Bus,
    Branch,
}

#[derive(Clone, Copy, Debug, PartialEq, Eq)]
pub enum Change {
    Added,
    Removed,
    Renamed,
    /// A branch's end is at another bus, a bus in another substation.
    Moved,
    Opened,
    Closed,
    /// From and to have changed places.
    Turned,
    Voltage,
    Coordinates,
    /// A branch has another number on the sheet.
    Number,
    /// It has another isolator at an end, another bay, or is something else.
    Isolator,
    Bay,
    Kind,
}

/// One difference of a substation, bus or branch: what it was and what it is.
#[derive(Clone, Debug, PartialEq)]
pub struct Difference {
    pub change: Change,
    pub before: String,
    pub after: String,
}

/// A substation, bus or branch that differs.
#[derive(Clone, Debug, PartialEq)]
pub struct Item {
    pub kind: Kind,
    /// Its name in the new network; in the old one where it is removed.
    pub name: String,
    /// Its number in the old and in the new network.
    pub old: Option<usize>,
    pub new: Option<usize>,
    /// Lines of the files that its rows stand in; substations have none.
    pub lines: [Option<usize>; 2],
    pub differences: Vec<Difference>,
}

impl Difference {
    pub fn new(change: Change, before: impl Into<String>, after: impl Into<String>) -> Self {
        Difference { change, before: before.into(), after: after.into() }
    }
}

impl Item {
    pub fn is_removed(&self) -> bool {
        self.new.is_none()
    }
}

/// All that differs: substations, buses and branches, each kind in the new network's order and then what is removed.
pub fn items(old: &Network, new: &Network) -> Vec<Item> {
    let twins = Twins::new(old, new);
    let mut items = buses::stations(old, new, &twins);
    items.extend(buses::buses(old, new, &twins));
    items.extend(branches::branches(old, new, &twins));
    items
}

/// Branches whose numbers differ only since rows moved: the drawing of the new network can't mark them all.
pub fn renumbered(old: &Network, new: &Network) -> Vec<Item> {
    branches::renumbered(old, new, &Twins::new(old, new))
}

#[cfg(test)]
mod tests;
