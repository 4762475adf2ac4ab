//! Names on the sheet: what a title or a label may make of a name.
use std::collections::HashSet;

/// Whether a character leaves no ink, or turns the direction of the text around it.
fn unseen(c: char) -> bool {
    matches!(
        c,
        '\u{AD}'
            | '\u{34F}'
            | '\u{61C}'
            | '\u{115F}'
            | '\u{1160}'
            | '\u{17B4}'
            | '\u{17B5}'
            | '\u{3164}'
            | '\u{FEFF}'
            | '\u{FFA0}'
    ) || matches!(c, '\u{180B}'..='\u{180F}' | '\u{200B}'..='\u{200F}' | '\u{202A}'..='\u{202E}' | '\u{2060}'..='\u{206F}')
        || matches!(c, '\u{FE00}'..='\u{FE0F}' | '\u{FFF0}'..='\u{FFFB}' | '\u{1D173}'..='\u{1D17A}' | '\u{E0000}'..='\u{E0FFF}')
}

/// A text with single spaces between its words, and unseen characters written as `<U+202E>`.
pub fn words(text: &str) -> String {
    let mut seen = String::with_capacity(text.len());
    for c in text.chars() {
        if unseen(c) {
            seen.push_str(&format!("<U+{:04X}>", c as u32));
        } else {
            seen.push(c);
        }
    }
    seen.split_whitespace().collect::<Vec<_>>().join(" ")
}

/// Whether a title is a name, or the name after one word.
pub fn is_title(title: &str, name: &str) -> bool {
    let (title, name) = (words(title), words(name));
    title == name || title.split_once(' ').is_some_and(|(_, rest)| rest == name)
}

/// Whether a label is a name, or an end of it or both with dots for the rest. A name may have such dots of its own.
pub fn shortens(label: &str, name: &str) -> bool {
    let cut = |(at, dots): (usize, &str)| {
        let (start, end) = (&label[..at], &label[at + dots.len()..]);
        let kept = start.chars().count() + end.chars().count();
        kept > 1 && kept < name.chars().count() && name.starts_with(start) && name.ends_with(end)
    };
    (label == name && !label.is_empty()) || label.match_indices('…').any(cut)
}

/// Whether a label is a name, or its start, its end, both or a part between them with dots for the rest.
fn stands_for(label: &str, name: &str) -> bool {
    let cut = |(at, dots): (usize, &str)| {
        let (start, end) = (&label[..at], &label[at + dots.len()..]);
        let kept = start.chars().count() + end.chars().count();
        0 < kept && kept < name.chars().count() && name.starts_with(start) && name.ends_with(end)
    };
    let middle = label.strip_prefix('…').and_then(|rest| rest.strip_suffix('…')).filter(|part| !part.is_empty());
    label == name || label.match_indices('…').any(cut) || middle.is_some_and(|part| name.contains(part))
}

/// Whether a label is that of a bus: its name without some of its first words or its substation's name behind it, that
/// shortened, or its row's number.
pub fn labels(label: &str, name: &str, station: &str, number: usize) -> bool {
    let (label, name, station) = (words(label), words(name), words(station));
    let bare = bared(&name, &station);
    let stands = |name: &str| {
        let mut starts = std::iter::once(0).chain(name.match_indices(' ').map(|(at, _)| at + 1));
        starts.any(|at| stands_for(&label, &name[at..]))
    };
    !label.is_empty() && (label == format!("#{}", number + 1) || stands(&name) || bare.is_some_and(stands))
}

/// A name without its substation's before or behind it. Words end at a blank, a stroke or a dash, whichever.
fn bared<'a>(name: &'a str, station: &str) -> Option<&'a str> {
    let cut = |c: char| matches!(c, ' ' | '/' | '-' | '_');
    let plain = |text: &str| text.split(cut).filter(|word| !word.is_empty()).map(str::to_string).collect::<Vec<_>>();
    let (own, count) = (plain(station), plain(name).len());
    if own.is_empty() || count <= own.len() {
        return None;
    }
    let places: Vec<usize> = name.match_indices(cut).map(|(at, _)| at).collect();
    let before = places.iter().find(|&&at| plain(&name[..at]) == own && !name[at + 1..].starts_with(cut));
    let behind = || places.iter().rev().find(|&&at| plain(&name[at..]) == own && !name[..at].ends_with(cut));
    before.map(|&at| &name[at + 1..]).or_else(|| behind().map(|&at| &name[..at]))
}

/// The names of a box's buses without its own name before or behind all of them, and without the words that all then
/// begin with: what tells them apart.
pub fn apart(names: &[&str], station: &str) -> Vec<String> {
    let station = words(station);
    let whole: Vec<String> = names.iter().map(|name| words(name)).collect();
    let bare = |name: &String| bared(name, &station).map(str::to_string);
    let bared: Option<Vec<String>> = whole.iter().map(bare).collect();
    let differ = |list: &Vec<String>| list.iter().collect::<HashSet<_>>().len() == list.len();
    let mut list = bared.filter(differ).unwrap_or(whole);
    while list.len() > 1 {
        let first = |name: &String| name.split_once(' ').map(|(word, rest)| (word.to_string(), rest.to_string()));
        let Some(split) = list.iter().map(first).collect::<Option<Vec<_>>>() else { break };
        if split.iter().any(|(word, _)| *word != split[0].0) {
            break;
        }
        list = split.into_iter().map(|(_, rest)| rest).collect();
    }
    list
}

/// Another of these names that a shortened label could stand for as well.
pub fn mistaken(label: &str, own: usize, names: &[String]) -> Option<usize> {
    let label = words(label);
    if !label.contains('…') || label == names[own] {
        return None;
    }
    (0..names.len()).find(|&i| i != own && stands_for(&label, &names[i]))
}

#[cfg(test)]
mod tests {
    use super::*;

    #[test]
    fn labels_of_names() {
        for label in ["Long Acre 66/1", "Acre 66/1", "66/1", "Lo…/1", "6…1", "Ac…6/1", "…/1", "…1", "66…", "…6…", "#8"]
        {
            assert!(labels(label, "Long  Acre\n66/1", "Hill", 7), "{label}");
        }
        for label in
            ["", "66/2", "6/1", "Long Acre", "66", "…", "……", "…2", "66…/2", "cre…1", "66…6/1", "#7", "…/2", "…7…"]
        {
            assert!(!labels(label, "Long Acre 66/1", "Hill", 7), "{label}");
        }
        for label in ["Busbar-A Long Acre", "Busbar-A", "…-A", "Bu…A", "…A…"] {
            assert!(labels(label, "Busbar-A Long Acre", "Long Acre", 0), "{label}");
        }
        assert!(!labels("Busbar-A", "Busbar-A Long Acre", "Acre", 0) && labels("Busbar", "Busbar-A Acre", "A Acre", 0));
        assert!(shortens("Long…re", "Long Acre") && !shortens("Acre", "Long Acre") && !shortens("", ""));
        assert!(labels("11", "RMU/076/11", "RMU 076", 0) && labels("66/1", "66/1-RMU_076", "RMU 076", 0));
        assert!(!labels("11", "RMU/076/11", "RMU 77", 0) && !labels("1", "RMU/076/66/1", "RMU 076", 0));
        let label = |text: &str, name: &str| labels(text, name, "S", 0);
        assert!(label("a…b", "a…b") && label("a……b", "a…cd…b") && label("B\u{200B}1", "B\u{200B}1"));
        assert!(!label("a…c", "a…b") && !label("B1", "B\u{200B}1"));
    }

    #[test]
    fn labels_that_could_be_two() {
        let names = apart(&["Busbar-A Acre", "Busbar-B Acre", "Acre spare"], "Acre");
        assert_eq!(names, ["Busbar-A", "Busbar-B", "spare"]);
        assert_eq!(
            ["…-A", "Bu…", "…r…", "Busbar-A"].map(|label| mistaken(label, 0, &names)),
            [None, Some(1), Some(1), None]
        );
        assert_eq!(apart(&["LAC bar 1", "LAC bar 2"], "Acre"), ["1", "2"]);
        assert_eq!(apart(&["Acre A", "A Acre"], "Acre"), ["Acre A", "A Acre"]);
        assert_eq!(apart(&["Acre"], "Acre"), ["Acre"]);
    }

    #[test]
    fn titles_of_names() {
        for title in ["A b", "A\nb", "12 A b"] {
            assert!(is_title(title, "A b"), "{title}");
        }
        for title in ["", "A", "b", "A c", "1 2 A b", "12A b"] {
            assert!(!is_title(title, "A b"), "{title}");
        }
        assert!(is_title("Bay<U+202E>2", "Bay\u{202E}2") && is_title("Bay\u{202E}2", "Bay\u{202E}2"));
        assert!(!is_title("Bay2", "Bay\u{202E}2"));
    }
}
