//! What differs, as text and as comma-separated rows.
use super::{Change, Difference, Item, Kind};
use crate::network::Network;
use crate::number::thousands;

impl Kind {
    pub fn word(self) -> &'static str {
        match self {
            Kind::Substation => "substation",
            Kind::Bus => "bus",
            Kind::Branch => "branch",
        }
    }
}

impl Change {
    pub fn word(self) -> &'static str {
        match self {
            Change::Added => "added",
            Change::Removed => "removed",
            Change::Renamed => "renamed",
            Change::Moved => "moved",
            Change::Opened => "opened",
            Change::Closed => "closed",
            Change::Turned => "turned round",
            Change::Voltage => "voltage",
            Change::Coordinates => "coordinates",
            Change::Number => "number",
            Change::Isolator => "isolator",
            Change::Bay => "bay",
            Change::Kind => "kind",
        }
    }

    /// The word of the mark on the sheet.
    pub fn mark(self) -> &'static str {
        match self {
            Change::Added => "NEW",
            Change::Turned => "TURNED",
            Change::Removed => "REMOVED",
            Change::Renamed => "RENAMED",
            Change::Moved => "MOVED",
            Change::Opened => "OPENED",
            Change::Closed => "CLOSED",
            Change::Voltage => "VOLTAGE",
            Change::Coordinates => "PLACE",
            Change::Number => "NUMBER",
            Change::Isolator => "ISOLATOR",
            Change::Bay => "BAY",
            Change::Kind => "KIND",
        }
    }
}

/// A difference in words.
fn said(d: &Difference) -> String {
    let word = d.change.word();
    match d.change {
        Change::Added | Change::Removed if d.before.is_empty() && d.after.is_empty() => word.to_string(),
        Change::Added => format!("{word} ({})", d.after),
        Change::Removed => format!("{word} ({})", d.before),
        Change::Opened | Change::Closed => word.to_string(),
        Change::Renamed => format!("{word}, was {}", d.before),
        Change::Moved => format!("{word} from {} to {}", d.before, d.after),
        Change::Turned => format!("{word}, now {}", d.after),
        Change::Voltage | Change::Coordinates | Change::Number | Change::Isolator | Change::Bay | Change::Kind => {
            format!("{word} {}, was {}", d.after, d.before)
        }
    }
}

/// An item and its differences on one line.
pub fn line(item: &Item) -> String {
    let all: Vec<String> = item.differences.iter().map(said).collect();
    plain(&format!("{} {}: {}", item.kind.word(), item.name, all.join("; ")))
}

/// Names may hold line breaks.
fn plain(text: &str) -> String {
    text.split_whitespace().collect::<Vec<_>>().join(" ")
}

/// What is said of branches whose numbers are those of rows: how many have others, and which.
pub fn numbers(renumbered: &[Item], new: &Network) -> String {
    let mut lines: Vec<String> = renumbered.iter().map(|item| format!("{}\n", line(item))).collect();
    if !lines.is_empty() {
        let (count, all) = (thousands(lines.len()), thousands(new.branches.len()));
        lines.push(format!(
            "Other numbers on the sheet, since rows moved: {count} of {all} branches; --numbers-from keeps numbers.\n"
        ));
    }
    lines.concat()
}

/// One line for each item, and a last one that counts them.
pub fn text(items: &[Item], old: &Network, new: &Network) -> String {
    let mut lines: Vec<String> = items.iter().map(|item| format!("{}\n", line(item))).collect();
    let count = |kind: Kind| thousands(items.iter().filter(|item| item.kind == kind).count());
    let between = format!("between {} and {}", old.name, new.name);
    lines.push(if items.is_empty() {
        format!("Nothing differs {between}.\n")
    } else {
        format!(
            "Different {between}: {} substations, {} buses, {} branches.\n",
            count(Kind::Substation),
            count(Kind::Bus),
            count(Kind::Branch)
        )
    });
    lines.concat()
}

fn cell(text: &str) -> String {
    if text.contains([',', '"', '\n', '\r']) || text.trim() != text {
        format!("\"{}\"", text.replace('"', "\"\""))
    } else {
        text.to_string()
    }
}

/// A header line, and a row for each difference.
pub fn csv(items: &[Item]) -> String {
    let mut rows = vec!["item,name,change,before,after,old_line,new_line\n".to_string()];
    let number = |line: Option<usize>| line.map_or(String::new(), |n| n.to_string());
    for item in items {
        for d in &item.differences {
            let [old, new] = item.lines.map(number);
            let texts = [item.kind.word(), &item.name, d.change.word(), &d.before, &d.after, &old, &new];
            rows.push(texts.map(cell).join(",") + "\n");
        }
    }
    rows.concat()
}
