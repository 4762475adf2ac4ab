//! Short forms of names that stand side by side: each fits its own name and none of the others.
use super::lettering::{shortened, width, Keep};

/// With more names than these, all that don't fit are called by their rows.
const MOST: usize = 64;

/// A name, the room for it, and what it is called where no short form will do.
pub struct Wish<'a> {
    pub name: &'a str,
    pub room: f64,
    pub row: String,
}

/// Whether a short form, with dots for what is left out, could stand for a name.
pub fn fits(short: &str, name: &str) -> bool {
    let parts: Vec<&str> = short.split('…').collect();
    let Some(rest) = name.strip_prefix(parts[0]) else { return false };
    match &parts[1..] {
        [] => rest.is_empty(),
        [end] => rest.ends_with(end.trim_start()),
        [middle, ..] => rest.contains(middle),
    }
}

/// Whether a short form stands for one name and for no other.
fn only(short: &str, i: usize, wishes: &[Wish<'_>]) -> bool {
    short == wishes[i].name || wishes.iter().enumerate().all(|(j, wish)| i == j || !fits(short, wish.name))
}

/// A text for each, where there is room for one.
pub fn texts(wishes: &[Wish<'_>], size: f64) -> Vec<Option<String>> {
    let cut = |keep: Keep| -> Vec<Option<String>> {
        wishes.iter().map(|wish| shortened(wish.name, size, false, wish.room, keep)).collect()
    };
    // A row that is another's name would stand for two.
    let row = |wish: &Wish<'_>| row(wish, size).filter(|row| wishes.iter().all(|other| other.name != row));
    if wishes.len() > MOST {
        let whole = |wish: &Wish<'_>| (width(wish.name, size, false) <= wish.room).then(|| wish.name.to_string());
        return wishes.iter().map(|wish| whole(wish).or_else(|| row(wish))).collect();
    }
    let ways = [Keep::Both, Keep::End, Keep::Start].map(cut);
    let sound = |texts: &&Vec<Option<String>>| {
        texts.iter().enumerate().all(|(i, text)| text.as_ref().is_some_and(|text| only(text, i, wishes)))
    };
    if let Some(texts) = ways.iter().find(sound) {
        return texts.clone();
    }
    (0..wishes.len()).map(|i| best(i, wishes, &ways, size).or_else(|| row(&wishes[i]))).collect()
}

/// The first form that stands for this name only.
fn best(i: usize, wishes: &[Wish<'_>], ways: &[Vec<Option<String>>; 3], size: f64) -> Option<String> {
    let cut = ways.iter().filter_map(|texts| texts[i].clone());
    let forms = cut.chain(cores(i, wishes)).filter(|text| width(text, size, false) <= wishes[i].room);
    forms.into_iter().find(|text| only(text, i, wishes))
}

/// What tells a name from those that begin and end as it does: without what all of them begin with, and without what all
/// of them end with.
fn cores(i: usize, wishes: &[Wish<'_>]) -> Vec<String> {
    let own: Vec<char> = wishes[i].name.chars().collect();
    let start = |other: &str| other.chars().zip(&own).take_while(|(a, b)| a == *b).count();
    let end = |other: &str| other.chars().rev().zip(own.iter().rev()).take_while(|(a, b)| a == *b).count();
    let others = || wishes.iter().enumerate().filter(|(j, _)| *j != i).map(|(_, wish)| wish.name);
    // The names that share the most with it.
    let most = others().map(|name| start(name) + end(name)).max().unwrap_or(0);
    let close: Vec<&str> = others().filter(|name| 2 * (start(name) + end(name)) >= most && most > 0).collect();
    let from = close.iter().map(|name| start(name)).min().unwrap_or(0);
    let to = own.len() - close.iter().map(|name| end(name)).min().unwrap_or(0).min(own.len() - from);
    if from >= to {
        return Vec::new();
    }
    let text = |range: std::ops::Range<usize>| own[range].iter().collect::<String>();
    vec![format!("…{}", text(from..own.len())), format!("{}…", text(0..to)), format!("…{}…", text(from..to))]
}

/// Its row, where there is room for it.
fn row(wish: &Wish<'_>, size: f64) -> Option<String> {
    Some(wish.row.clone()).filter(|row| width(row, size, false) <= wish.room)
}

#[cfg(test)]
mod tests {
    use super::*;

    fn of(room: f64, names: &[&str]) -> Vec<String> {
        let wish = |(i, name): (usize, &&'static str)| Wish { name, room, row: format!("#{}", i + 1) };
        let names: Vec<&'static str> = names.iter().map(|name| &*name.to_string().leak()).collect();
        let wishes: Vec<Wish<'_>> = names.iter().enumerate().map(wish).collect();
        texts(&wishes, 2.5).into_iter().map(|text| text.unwrap_or_default()).collect()
    }

    #[test]
    fn bars_of_a_box_are_told_apart() {
        assert_eq!(of(7.8, &["Busbar-A-1", "Busbar-B-1", "Busbar-C-1"]), ["…-A-1", "…-B-1", "…-C-1"]);
        assert_eq!(of(7.8, &["A-section-1", "B-section-1"]), ["A-…-1", "B-…-1"]);
        assert_eq!(of(7.0, &["Section-A-of-bars", "Section-B-of-bars"]), ["…A…", "…B…"]);
        assert_eq!(of(7.0, &["Section-A-of-bars", "Section-AA-of-bars"])[0], "#1", "A stands in AA too");
        assert_eq!(of(40.0, &["66/1", "66/2"]), ["66/1", "66/2"]);
        assert_eq!(of(1.0, &["66/1", "66/2"]), ["", ""]);
        assert_eq!(of(5.0, &["#2", "#2-and-more"]), ["#2", ""], "a row that is another's name");
    }

    /// No short form fits another name, whatever the room.
    #[test]
    fn no_form_fits_two_names() {
        let families: [Vec<String>; 3] = [
            (0..40).map(|i| format!("Bar {i:05} of the northern yard")).collect(),
            ('A'..='K').map(|c| format!("Busbar-{c}-33 Hazelwick")).collect(),
            (0..90).map(|i| format!("B{i}")).collect(),
        ];
        for names in &families {
            let names: Vec<&str> = names.iter().map(String::as_str).collect();
            for room in [3.0, 5.0, 7.0, 9.0, 12.0, 20.0] {
                let texts = of(room, &names);
                for (i, text) in texts.iter().enumerate().filter(|(_, text)| !text.is_empty() && !text.starts_with('#'))
                {
                    let fit = names
                        .iter()
                        .filter(|name| text == *name || !names.contains(&text.as_str()) && fits(text, name));
                    assert_eq!(fit.collect::<Vec<_>>(), [&names[i]], "{text}");
                }
            }
        }
    }
}
