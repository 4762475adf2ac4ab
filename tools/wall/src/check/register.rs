//! The list of numbers that a sheet carries: each branch once, with the number in its run's title and its two buses, and no
//! number twice. Where the numbers are known, from the export or the last sheet, the sheet has these.
use super::names::words;
use super::Check;
use crate::csv::rows;
use crate::network::Numbering;
use crate::plain::visible;
use std::collections::{HashMap, HashSet};

/// The id of the list, and its header line.
const LIST: &str = "list-of-numbers";
const HEADER: [&str; 5] = ["number", "branch", "from", "to", "state"];

impl Check<'_> {
    pub fn register(&mut self) {
        if self.network.stations.is_empty() {
            return;
        }
        let titles = self.titled_numbers();
        self.known_numbers(&titles);
        if self.network.part.is_some() {
            return self.said_to_be_a_part();
        }
        let lists = self.reading.elements.iter().filter(|e| e.name == "metadata" && e.attribute("id") == Some(LIST));
        let lists: Vec<&str> = lists.map(|e| e.text.as_ref()).collect();
        let [list] = lists[..] else {
            return self.say(format!("the sheet has {} lists of its numbers, not one", lists.len()));
        };
        let list: Vec<Vec<String>> = match rows(list, LIST) {
            Ok(rows) => rows.into_iter().map(|row| row.into_iter().map(|cell| cell.text).collect()).collect(),
            Err(fault) => return self.say(format!("the list of numbers can't be read: {fault}")),
        };
        match list.split_first() {
            Some((header, rest)) if header == &HEADER && rest.iter().all(|row| row.len() == HEADER.len()) => {
                self.listed_numbers(rest, &titles);
            }
            _ => self.say("the list of numbers hasn't the columns number, branch, from, to, state in each row"),
        }
    }

    /// The word before the name in each run's title, by branch.
    fn titled_numbers(&self) -> HashMap<usize, String> {
        let branches = &self.network.branches;
        let titled = self.reading.runs.iter().filter_map(|part| {
            let branch = part.number.filter(|&branch| branch < branches.len())?;
            let (title, name) = (words(&part.title), words(&branches[branch].name));
            let word = title.strip_suffix(&name)?.trim_end();
            Some((branch, word.to_string()))
        });
        titled.collect()
    }

    /// Says where a run hasn't the number that the export or the last sheet gives its branch.
    fn known_numbers(&mut self, titles: &HashMap<usize, String>) {
        if self.network.numbering == Numbering::Rows {
            return;
        }
        for (e, branch) in self.network.branches.iter().enumerate() {
            if let Some(title) = titles.get(&e).filter(|title| **title != branch.number) {
                let row = self.network.branch_row(e);
                self.say(format!("{row} has the number '{title}' on the sheet, and '{}' is its own", branch.number));
            }
        }
    }

    /// Says where the title block doesn't say that the sheet shows a part only.
    fn said_to_be_a_part(&mut self) {
        let reading = self.reading;
        let mut texts = reading.elements.iter().zip(&reading.looks).filter(|(e, look)| {
            e.name == "text" && &*look.group == "title-block" && e.text.contains("part: ") && look.filled()
        });
        if texts.next().is_none() {
            self.say("the title block doesn't say that the sheet shows a part of the network");
        }
    }

    fn listed_numbers(&mut self, list: &[Vec<String>], titles: &HashMap<usize, String>) {
        let mut numbers = HashSet::new();
        for row in list.iter().filter(|row| !numbers.insert(row[0].as_str())) {
            self.say(format!("the list of numbers has the number '{}' twice", row[0]));
        }
        let used: Vec<&Vec<String>> = list.iter().filter(|row| row[4] == "used").collect();
        let mut named: HashMap<&str, &Vec<String>> = used.iter().map(|row| (row[1].as_str(), *row)).collect();
        let known = |number: i64| self.network.known(number).map(|bus| visible(&self.network.buses[bus].name));
        let mut found = Vec::new();
        for (e, branch) in self.network.branches.iter().enumerate() {
            let row = self.network.branch_row(e);
            let Some(entry) = named.remove(visible(&branch.name).as_str()) else {
                found.push(format!("{row} isn't in the list of numbers"));
                continue;
            };
            if titles.get(&e).is_some_and(|title| *title != entry[0]) {
                found.push(format!(
                    "{row} has the number '{}' in the list of numbers, and another on its run",
                    entry[0]
                ));
            }
            let ends = [branch.from, branch.to].map(|bus| known(bus).unwrap_or_else(|| bus.to_string()));
            if ends != entry[2..4] {
                found.push(format!("{row} stands in the list of numbers with other buses"));
            }
        }
        let mut strange: Vec<&str> = named.into_keys().collect();
        strange.sort_unstable();
        found.extend(strange.iter().map(|name| format!("the list of numbers has '{name}', which the network hasn't")));
        if used.len() + list.iter().filter(|row| row[4] == "retired").count() != list.len() {
            found.push("the list of numbers has a state that is neither used nor retired".to_string());
        }
        if used.len() > self.network.branches.len() {
            found.push("the list of numbers has more used rows than the network has branches".to_string());
        }
        found.into_iter().for_each(|line| self.say(line));
    }
}
