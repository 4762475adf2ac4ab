//! Numbers that stay: a branch keeps the number that it had, a new one gets a new number, and a retired number is given to no
//! branch again.
use super::{bus_name, Entry, Register};
use crate::fault::{shown, Fault};
use crate::network::{Network, Numbering};
use crate::number::thousands;
use crate::plain::visible;
use std::collections::{HashMap, HashSet};

/// The longest number: it stands between two bars.
const LONGEST: usize = 6;

/// How many names a note has.
const SHOWN: usize = 8;

/// How the branches of a network got their numbers.
#[derive(Default)]
struct Outcome {
    /// Which entry each branch has its number from.
    from: Vec<Option<usize>>,
    renamed: Vec<String>,
    moved: Vec<String>,
}

/// Gives the branches of a network their numbers, in the order of the last list; gives notes.
pub fn continued(network: &mut Network, last: &Register, word: &str) -> Result<Vec<String>, Fault> {
    allowed(network)?;
    let outcome = outcome(network, last);
    if outcome.from.iter().all(Option::is_none) && !last.used.is_empty() && !network.branches.is_empty() {
        let wish = "expected the last sheet, list or export of this network; none of its branches is in this one";
        return Err(Fault::file(word, wish));
    }
    let mut next = largest(last);
    let mut added = Vec::new();
    for (branch, from) in network.branches.iter_mut().zip(&outcome.from) {
        branch.number = match from {
            Some(entry) => last.used[*entry].number.clone(),
            None => {
                next += 1;
                added.push(format!("{next} {}", shown(&branch.name)));
                next.to_string()
            }
        };
        if branch.number.len() > LONGEST {
            let wish =
                format!("expected a number of at most {LONGEST} digits for the new branch {}", shown(&branch.name));
            return Err(Fault::file(word, format!("{wish}, and {next} is longer")));
        }
    }
    let kept: HashSet<usize> = outcome.from.iter().flatten().copied().collect();
    let gone: Vec<&Entry> = (0..last.used.len()).filter(|i| !kept.contains(i)).map(|i| &last.used[i]).collect();
    let back = returned(network, &outcome, last);
    network.retired = last.retired.iter().chain(gone.iter().copied()).cloned().collect();
    network.numbering = Numbering::Kept;
    let gone = gone.iter().map(|entry| format!("{} {}", entry.number, shown(&entry.branch))).collect::<Vec<_>>();
    let mut notes = vec![format!("note: numbers kept from {word}: {}", thousands(kept.len()))];
    notes.extend(note("new numbers", &added));
    notes.extend(note("numbers retired", &gone));
    notes.extend(note("numbers kept by their buses, under new names", &outcome.renamed));
    notes.extend(note("numbers kept by name, though both ends are at other buses", &outcome.moved));
    notes.extend(note("branches with the names of retired ones, which got new numbers", &back));
    Ok(notes)
}

/// A fault where numbers come from elsewhere, or where branches have no names to know them by.
fn allowed(network: &Network) -> Result<(), Fault> {
    let path = network.sources.last().map_or("", |source| &source.path);
    match network.numbering {
        Numbering::Given => {
            let wish = "expected no column number beside --numbers-from: either of them says the numbers";
            Err(Fault::file(path, wish))
        }
        _ if network.stations.is_empty() && !network.branches.is_empty() => {
            let wish = "expected an export with names for --numbers-from: in drawlist's text branches have none";
            Err(Fault::file(path, wish))
        }
        _ => Ok(()),
    }
}

/// Which entry each branch continues: the one of its name, or else the only one between its two buses that no name
/// continues, where it is the only such branch.
fn outcome(network: &Network, last: &Register) -> Outcome {
    let by_name: HashMap<&str, usize> = last.used.iter().enumerate().map(|(i, e)| (e.branch.as_str(), i)).collect();
    let ends = |e: usize| [network.branches[e].from, network.branches[e].to].map(|bus| bus_name(network, bus));
    let mut outcome = Outcome::default();
    outcome.from = network.branches.iter().map(|branch| by_name.get(visible(&branch.name).as_str()).copied()).collect();
    for (e, from) in outcome.from.iter().enumerate() {
        let Some(entry) = from.map(|i| &last.used[i]) else { continue };
        if !ends(e).iter().any(|end| entry.ends.contains(end)) {
            outcome.moved.push(format!("{} {}", entry.number, shown(&entry.branch)));
        }
    }
    let taken: HashSet<usize> = outcome.from.iter().flatten().copied().collect();
    let mut between: HashMap<[String; 2], (Vec<usize>, Vec<usize>)> = HashMap::new();
    for (i, entry) in last.used.iter().enumerate().filter(|(i, _)| !taken.contains(i)) {
        between.entry(sorted(entry.ends.clone())).or_default().0.push(i);
    }
    for e in (0..network.branches.len()).filter(|&e| outcome.from[e].is_none()) {
        between.entry(sorted(ends(e))).or_default().1.push(e);
    }
    let mut pairs: Vec<(usize, usize)> = Vec::new();
    for (entries, branches) in between.into_values() {
        if let ([entry], [branch]) = (&entries[..], &branches[..]) {
            pairs.push((*branch, *entry));
        }
    }
    pairs.sort_unstable();
    for (branch, entry) in pairs {
        outcome.from[branch] = Some(entry);
        let (was, is) = (&last.used[entry], &network.branches[branch]);
        outcome.renamed.push(format!("{} {}, was {}", was.number, shown(&is.name), shown(&was.branch)));
    }
    outcome
}

fn sorted(mut ends: [String; 2]) -> [String; 2] {
    ends.sort();
    ends
}

/// The largest number that was ever given, of those that are plain numbers.
fn largest(last: &Register) -> u64 {
    let all = last.used.iter().chain(&last.retired);
    all.filter_map(|entry| entry.number.parse::<u64>().ok()).max().unwrap_or(0)
}

/// New branches that are called as retired ones were.
fn returned(network: &Network, outcome: &Outcome, last: &Register) -> Vec<String> {
    let retired: HashMap<&str, &str> =
        last.retired.iter().map(|entry| (entry.branch.as_str(), entry.number.as_str())).collect();
    let new = network.branches.iter().zip(&outcome.from).filter(|(_, from)| from.is_none());
    let back = |branch: &crate::network::Branch| {
        let was = retired.get(visible(&branch.name).as_str())?;
        Some(format!("{} {}, was {was}", branch.number, shown(&branch.name)))
    };
    new.filter_map(|(branch, _)| back(branch)).collect()
}

fn note(what: &str, names: &[String]) -> Option<String> {
    let rest = names.len().saturating_sub(SHOWN);
    let more = if rest > 0 { format!(" and {} more", thousands(rest)) } else { String::new() };
    let shown = names[..names.len() - rest].join(", ");
    (!names.is_empty()).then(|| format!("note: {what}: {}: {shown}{more}", thousands(names.len())))
}
