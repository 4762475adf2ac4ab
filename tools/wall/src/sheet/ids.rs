//! Ids of elements: names without the characters that an id can't have, each given once.
use std::collections::HashSet;

pub struct Ids {
    taken: HashSet<String>,
}

/// Ids of groups that begin as those of buses and substations do.
const GROUPS: [&str; 2] = ["bus-names", "station-names"];

impl Ids {
    pub fn new() -> Self {
        Ids { taken: GROUPS.map(str::to_string).into() }
    }

    /// An id for a name, with a number behind it where an earlier one is the same.
    pub fn take(&mut self, kind: &str, name: &str) -> String {
        let plain = |c: char| if c.is_ascii_alphanumeric() || matches!(c, '-' | '.' | '_') { c } else { '_' };
        let first: String = format!("{kind}-{}", name.chars().map(plain).collect::<String>());
        let mut id = first.clone();
        let mut count = 1;
        while !self.taken.insert(id.clone()) {
            count += 1;
            id = format!("{first}.{count}");
        }
        id
    }
}

#[cfg(test)]
mod tests {
    use super::Ids;

    #[test]
    fn ids_differ() {
        let mut ids = Ids::new();
        let taken = ["A 1", "A_1", "A_1.2", "A/1", "names"].map(|name| ids.take("bus", name));
        assert_eq!(taken, ["bus-A_1", "bus-A_1.2", "bus-A_1.2.2", "bus-A_1.3", "bus-names.2"]);
    }
}
