//! The list of numbers that a sheet carries: which branch each number has, and which are retired, so that the next sheet can
//! keep them.
mod kept;
mod source;

pub use kept::continued;
pub use source::last;

use crate::network::Network;
use crate::plain::visible;

/// The columns of the list.
pub const COLUMNS: [&str; 5] = ["number", "branch", "from", "to", "state"];

/// The two states of a number.
const USED: &str = "used";
const RETIRED: &str = "retired";

/// The id of the element that holds the list.
pub const ID: &str = "list-of-numbers";

/// A number, and the branch that has it or had it, with the names of its two buses.
#[derive(Clone, Debug, PartialEq, Eq)]
pub struct Entry {
    pub number: String,
    pub branch: String,
    pub ends: [String; 2],
}

/// All numbers that were ever given.
#[derive(Clone, Debug, Default, PartialEq, Eq)]
pub struct Register {
    pub used: Vec<Entry>,
    pub retired: Vec<Entry>,
}

/// The name of a bus by its number as the list has it, or the number where there is no such bus.
fn bus_name(network: &Network, number: i64) -> String {
    network.known(number).map_or(number.to_string(), |i| visible(&network.buses[i].name))
}

/// The numbers of a network's branches.
pub fn of(network: &Network) -> Register {
    let entry = |branch: &crate::network::Branch| Entry {
        number: branch.number.clone(),
        branch: visible(&branch.name),
        ends: [branch.from, branch.to].map(|bus| bus_name(network, bus)),
    };
    Register { used: network.branches.iter().map(entry).collect(), retired: network.retired.clone() }
}

/// A cell as comma-separated text has it.
fn cell(text: &str) -> String {
    if text.contains([',', '"', '\n', '\r', ';', '\t']) || text.trim() != text {
        format!("\"{}\"", text.replace('"', "\"\""))
    } else {
        text.to_string()
    }
}

/// The list as comma-separated text, the retired numbers last.
pub fn written(register: &Register) -> String {
    let mut text = COLUMNS.join(",") + "\n";
    let lists = [(&register.used, USED), (&register.retired, RETIRED)];
    for (entry, state) in lists.into_iter().flat_map(|(list, state)| list.iter().map(move |entry| (entry, state))) {
        let cells = [&entry.number, &entry.branch, &entry.ends[0], &entry.ends[1]].map(|text| cell(text));
        text.push_str(&format!("{},{state}\n", cells.join(",")));
    }
    text
}
