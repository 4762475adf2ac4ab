//! Which of several words was meant.

/// The most characters in which a word differs from the one that was meant.
const APART: usize = 2;

/// The word that is nearest to another: the same but for capitals and blanks, or with at most two other characters, fewer than
/// a third of them.
pub fn meant<'a>(word: &str, known: impl Iterator<Item = &'a str>) -> Option<&'a str> {
    let plain = |text: &str| text.to_lowercase().chars().filter(|c| c.is_alphanumeric()).collect::<Vec<char>>();
    let wanted = plain(word);
    let most = APART.min(wanted.len() / 3);
    let far = known.filter_map(|other| {
        let own = plain(other);
        let far = if own.len().abs_diff(wanted.len()) <= most { distance(&wanted, &own) } else { usize::MAX };
        (far <= most).then_some((far, other))
    });
    far.min_by_key(|(far, _)| *far).map(|(_, other)| other)
}

/// The words `; did you mean 'x'?`, where there is such a word.
pub fn hint<'a>(word: &str, known: impl Iterator<Item = &'a str>) -> String {
    meant(word, known).map_or(String::new(), |other| format!("; did you mean {}?", crate::fault::shown(other)))
}

/// How many characters have to be put in, left out, changed or swapped with the next to make one word of the other.
fn distance(a: &[char], b: &[char]) -> usize {
    let mut earlier: Vec<usize> = Vec::new();
    let mut above: Vec<usize> = (0..=b.len()).collect();
    for (i, x) in a.iter().enumerate() {
        let mut row = vec![i + 1];
        for (j, y) in b.iter().enumerate() {
            let mut least = (above[j] + usize::from(x != y)).min(above[j + 1] + 1).min(row[j] + 1);
            if i > 0 && j > 0 && *x == b[j - 1] && *y == a[i - 1] {
                least = least.min(earlier[j - 1] + 1);
            }
            row.push(least);
        }
        earlier = std::mem::replace(&mut above, row);
    }
    above[b.len()]
}

#[cfg(test)]
mod tests {
    use super::*;

    #[test]
    fn nearest_words() {
        let known = ["Kestrel 66/1", "Kestrel 66/2", "Quayside 11"];
        let meant = |word: &str| meant(word, known.into_iter());
        assert_eq!(meant("kestrel 66/1"), Some("Kestrel 66/1"));
        assert_eq!(meant("Kestrel 66-2"), Some("Kestrel 66/2"));
        assert_eq!(meant("Quaysde 11"), Some("Quayside 11"));
        assert_eq!([meant("Mill Hill"), meant(""), meant("K")], [None; 3]);
        assert_eq!(distance(&['a', 'b', 'c'], &['b', 'c', 'd']), 2);
        assert_eq!(distance(&['o', 'p', 'n', 'e'], &['o', 'p', 'e', 'n']), 1);
    }
}
