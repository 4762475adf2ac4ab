//! Rows of a file, buses or branches, that differ.
use super::twins::Pairs;
use super::{Change, Difference, Item, Kind};

/// Rows of a kind in the old and in the new network, and which is which.
pub struct Rows<'a, R> {
    pub kind: Kind,
    pub old: &'a [R],
    pub new: &'a [R],
    pub pairs: &'a Pairs,
    /// The name of a row and its line in the file.
    pub place: fn(&R) -> (&str, usize),
}

/// What is said of a row of the old and of one of the new network, and how two rows differ, by their numbers.
pub struct Words<'a, R> {
    pub old: &'a dyn Fn(&R) -> String,
    pub new: &'a dyn Fn(&R) -> String,
    pub changed: &'a dyn Fn(usize, usize) -> Vec<Difference>,
}

/// The rows that differ, in the new network's order, then those that are removed.
pub fn differing<R>(rows: &Rows<'_, R>, words: &Words<'_, R>) -> Vec<Item> {
    let (line, place) = (|row: &R| (rows.place)(row).1, rows.place);
    let item = |row: &R, numbers: [Option<usize>; 2], differences: Vec<Difference>| Item {
        kind: rows.kind,
        name: place(row).0.to_string(),
        old: numbers[0],
        new: numbers[1],
        lines: [numbers[0].map(|o| line(&rows.old[o])), numbers[1].map(|i| line(&rows.new[i]))],
        differences,
    };
    let mut items = Vec::new();
    for (i, row) in rows.new.iter().enumerate() {
        let twin = rows.pairs.to_old.get(&i).copied();
        let differences = match twin {
            None => vec![Difference::new(Change::Added, "", (words.new)(row))],
            Some(o) => (words.changed)(o, i),
        };
        if !differences.is_empty() {
            items.push(item(row, [twin, Some(i)], differences));
        }
    }
    for (o, row) in rows.old.iter().enumerate().filter(|(o, _)| !rows.pairs.to_new.contains_key(o)) {
        let differences = vec![Difference::new(Change::Removed, (words.old)(row), "")];
        items.push(item(row, [Some(o), None], differences));
    }
    items
}
