//! Names that look alike: what is printed the same can't be told apart on paper.
use crate::fault::shown;
use crate::plain::{spaced, turns, unseen};
use std::collections::HashMap;

/// A name with the line of its file.
pub struct Named<'a> {
    pub name: &'a str,
    pub line: usize,
}

/// Accents of letters that fonts draw the same whether they are written as one character or as two.
const MARKS: [(char, &str, &str); 15] = [
    ('\u{300}', "AEIOUNaeioun", "ÀÈÌÒÙǸàèìòùǹ"),
    ('\u{301}', "AEIOUYCLNRSZaeiouyclnrsz", "ÁÉÍÓÚÝĆĹŃŔŚŹáéíóúýćĺńŕśź"),
    ('\u{302}', "AEIOUCGHJSWYaeioucghjswy", "ÂÊÎÔÛĈĜĤĴŜŴŶâêîôûĉĝĥĵŝŵŷ"),
    ('\u{303}', "ANOIUanoiu", "ÃÑÕĨŨãñõĩũ"),
    ('\u{304}', "AEIOUaeiou", "ĀĒĪŌŪāēīōū"),
    ('\u{306}', "AEGIOUaegiou", "ĂĔĞĬŎŬăĕğĭŏŭ"),
    ('\u{307}', "CEGIZcegz", "ĊĖĠİŻċėġż"),
    ('\u{308}', "AEIOUYaeiouy", "ÄËÏÖÜŸäëïöüÿ"),
    ('\u{30A}', "AUau", "ÅŮåů"),
    ('\u{30B}', "OUou", "ŐŰőű"),
    ('\u{30C}', "CDENRSTZcdenrstz", "ČĎĚŇŘŠŤŽčďěňřšťž"),
    ('\u{326}', "STst", "ȘȚșț"),
    ('\u{327}', "CGKLNRSTckllnrst", "ÇĢĶĻŅŖŞŢçķļļņŗşţ"),
    ('\u{328}', "AEIUaeiu", "ĄĘĮŲąęįų"),
    ('\u{338}', "Oo", "Øø"),
];

/// Letters of other alphabets with the Latin ones that they look like, small and capital.
const LETTERS: [(&str, &str); 2] =
    [("АВЕЅІЈКМНОРСТУХаеѕіјорсухԁԛԝ", "ABESIJKMHOPCTYXaesijopcyxdqw"), ("ΑΒΕΖΗΙΚΜΝΟΡΤΥΧονρυχ", "ABEZHIKMNOPTYXovpux")];

/// The name as it is printed: without what can't be seen, with single spaces, each letter before its accents.
fn printed(name: &str) -> String {
    if name.is_ascii() {
        return spaced(name);
    }
    let seen: String = name.chars().filter(|&c| !turns(c) && !unseen(c)).collect();
    let mut out = String::new();
    for c in spaced(&seen).chars() {
        match MARKS.iter().find_map(|(mark, from, to)| at(to, from, c).map(|letter| (letter, *mark))) {
            Some((letter, mark)) => out.extend([letter, mark]),
            None => out.push(c),
        }
    }
    out
}

/// What stands in one text where a character outside ASCII stands in the other.
fn at(from: &str, to: &str, c: char) -> Option<char> {
    if c.is_ascii() {
        return None;
    }
    from.chars().position(|x| x == c).and_then(|i| to.chars().nth(i))
}

/// A printed name in Latin letters with plain dashes, as far as others look like them.
fn latin(printed: &str) -> String {
    if printed.is_ascii() {
        return printed.to_string();
    }
    let dash = |c: char| matches!(c, '\u{2010}'..='\u{2015}' | '\u{2212}');
    let one = |c: char| if dash(c) { '-' } else { LETTERS.iter().find_map(|(from, to)| at(from, to, c)).unwrap_or(c) };
    printed.chars().map(one).collect()
}

/// What printed names are easily misread by: small letters for capitals; O for 0, and l, I and a stroke for 1.
fn looks(printed: &str) -> [String; 2] {
    let latin = latin(printed);
    let digit = |c: char| match c {
        'O' => '0',
        'l' | 'I' | '|' => '1',
        _ => c,
    };
    [format!("letters {}", latin.to_lowercase()), format!("digits {}", latin.chars().map(digit).collect::<String>())]
}

/// Whether a letter is read from right to left.
fn from_the_right(c: char) -> bool {
    matches!(c, '\u{590}'..='\u{8FF}' | '\u{FB1D}'..='\u{FDFF}' | '\u{FE70}'..='\u{FEFE}' | '\u{10800}'..='\u{10FFF}')
}

/// The characters of a printed name with letters that are read from the right, in order: where they stand depends on the
/// viewer.
fn turned(printed: &str) -> Option<String> {
    if printed.is_ascii() || !printed.chars().any(from_the_right) {
        return None;
    }
    let mut chars: Vec<char> = latin(printed).to_lowercase().chars().collect();
    chars.sort_unstable();
    Some(format!("turned {}", chars.into_iter().collect::<String>()))
}

/// Two names that are printed the same, where there are such; and for each of the others that is easily misread for an
/// earlier one, both.
pub struct Found<'a> {
    pub same: Option<[&'a Named<'a>; 2]>,
    pub alike: Vec<[&'a Named<'a>; 2]>,
}

/// Looks through different names.
pub fn found<'a>(names: &'a [Named<'a>]) -> Found<'a> {
    let mut found = Found { same: None, alike: Vec::new() };
    let (mut by_print, mut by_look) = (HashMap::new(), HashMap::new());
    for named in names {
        let printed = printed(named.name);
        if let Some(&first) = by_print.get(&printed) {
            found.same = found.same.or(Some([first, named]));
            continue;
        }
        let mut earlier = None;
        for look in looks(&printed).into_iter().chain(turned(&printed)) {
            earlier = earlier.or(by_look.get(&look).copied());
            by_look.entry(look).or_insert(named);
        }
        by_print.insert(printed, named);
        found.alike.extend(earlier.map(|first| [first, named]));
    }
    found
}

/// A pair in words.
pub fn pair(file: &str, what: &str, [a, b]: [&Named<'_>; 2]) -> String {
    format!("{what} {}, {file}:{}, and {}, {file}:{}", shown(a.name), a.line, shown(b.name), b.line)
}

#[cfg(test)]
mod tests {
    use super::*;

    fn same(a: &str, b: &str) -> (bool, bool) {
        let names = [a, b].map(|name| Named { name, line: 2 });
        let found = found(&names);
        (found.same.is_some(), !found.alike.is_empty())
    }

    #[test]
    fn printed_the_same() {
        for (a, b) in [
            ("Bay 1", "Bay  1"),
            ("Bay 1", "Bay\u{A0}1"),
            ("Bay 1", "Bay\u{2009}1 "),
            ("Bay1", "Bay\u{200B}1"),
            ("Bay 12", "Bay \u{202E}12"),
            ("S\u{FC}d", "Su\u{308}d"),
        ] {
            assert_eq!(same(a, b), (true, false), "{a:?} {b:?}");
        }
    }

    #[test]
    fn easily_misread() {
        for (a, b) in [
            ("Bay a", "Bay A"),
            ("Bay O", "Bay 0"),
            ("Bay 1", "Bay I"),
            ("A 1", "\u{410} 1"),
            ("T-1", "T\u{2013}1"),
            ("\u{5D0} 12", "12 \u{5D0}"),
        ] {
            assert_eq!(same(a, b), (false, true), "{a:?} {b:?}");
        }
        for (a, b) in [
            ("Bay 1", "Bay 2"),
            ("Bay 1", "Bay L"),
            ("Bay 0", "Bay o"),
            ("Bay 12", "Bay 21"),
            ("\u{5D0} 12", "\u{5D1} 12"),
            ("Sud", "S\u{FC}d"),
        ] {
            assert_eq!(same(a, b), (false, false), "{a:?} {b:?}");
        }
    }

    #[test]
    fn tables_are_of_one_length() {
        for (_, from, to) in MARKS {
            assert_eq!(from.chars().count(), to.chars().count(), "{from}");
        }
        for (from, to) in LETTERS {
            assert_eq!(from.chars().count(), to.chars().count(), "{from}");
        }
    }
}
