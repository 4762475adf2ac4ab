//! Text on the page: how wide it is, and how it is shortened.
use super::shape::Rect;
use super::widths::WIDTHS;
use crate::font::Font;

/// The smallest text, in millimetres: capitals 1.8 mm high, the smallest that ISO 3098 has.
pub const SMALLEST: f64 = 2.5;

/// How far a line of text reaches above and below its baseline, in sizes.
const ABOVE: f64 = 0.93;
const BELOW: f64 = 0.27;

/// How high digits and capitals are, in sizes.
pub const CAPITALS: f64 = 0.73;

/// Where a text stands in the room that is kept for it: viewers' fonts differ in width.
#[derive(Clone, Copy, Debug, PartialEq, Eq)]
pub enum Anchor {
    Start,
    Middle,
    End,
}

impl Anchor {
    /// Its name in SVG; the start goes without.
    pub fn name(self) -> Option<&'static str> {
        match self {
            Anchor::Start => None,
            Anchor::Middle => Some("middle"),
            Anchor::End => Some("end"),
        }
    }

    /// Which part of the room lies left of the text's anchor.
    fn part(self) -> f64 {
        match self {
            Anchor::Start => 0.0,
            Anchor::Middle => 0.5,
            Anchor::End => 1.0,
        }
    }
}

/// One line of text: where the room that is kept for it begins, its baseline and size.
#[derive(Clone, Debug)]
pub struct Line {
    pub text: String,
    pub x: f64,
    pub y: f64,
    pub size: f64,
    pub bold: bool,
    pub anchor: Anchor,
}

impl Line {
    pub fn width(&self) -> f64 {
        width(&self.text, self.size, self.bold)
    }

    /// Where it is anchored.
    pub fn at(&self) -> f64 {
        self.x + self.anchor.part() * self.width()
    }

    /// What it covers where it has no letters that reach below the baseline.
    pub fn capitals(&self) -> Rect {
        Rect::new(self.x, self.y - CAPITALS * self.size, self.x + self.width(), self.y)
    }

    /// The same for a font of which a text takes only a part of its width.
    pub fn narrowed(&self, part: f64) -> Rect {
        let (r, spare) = (self.capitals(), (1.0 - part) * self.width());
        let left = r.left + spare * self.anchor.part();
        Rect::new(left, r.top, left + part * self.width(), r.bottom)
    }

    /// What it covers.
    pub fn rect(&self) -> Rect {
        Rect::new(self.x, self.y - ABOVE * self.size, self.x + self.width(), self.y + BELOW * self.size)
    }
}

/// The height of a line, and the baseline of one whose top is given.
pub fn height(size: f64) -> f64 {
    (ABOVE + BELOW) * size
}

pub fn baseline(top: f64, size: f64) -> f64 {
    top + ABOVE * size
}

/// The width of a character, in thousandths of the size: that of the widest font that viewers take for it.
fn thousandths(c: char, bold: bool) -> u32 {
    match c {
        ' '..='~' => u32::from(WIDTHS[2 * (c as usize - 32) + usize::from(bold)]),
        '\u{300}'..='\u{36F}' => 0,
        // The fonts for PDF are DejaVu's condensed ones, nine tenths as wide.
        _ => Font::of(bold).advance(c).map_or(1000, |wide| wide * 10 / 9 + 1),
    }
}

pub fn width(text: &str, size: f64, bold: bool) -> f64 {
    let sum: u32 = text.chars().map(|c| thousandths(c, bold)).sum();
    f64::from(sum) / 1000.0 * size
}

/// Which part of a text is kept where there isn't room for all of it.
#[derive(Clone, Copy)]
pub enum Keep {
    Both,
    Start,
    End,
}

/// The text, or its two ends with dots between, that fits a width; none where not even two characters and the dots fit.
/// The end tells names of one kind apart, so it keeps as much as the start.
pub fn fitted(text: &str, size: f64, bold: bool, most: f64) -> Option<String> {
    shortened(text, size, bold, most, Keep::Both)
}

/// The text, or as much of it as fits a width, with dots for the rest; at least two characters.
pub fn shortened(text: &str, size: f64, bold: bool, most: f64, keep: Keep) -> Option<String> {
    if width(text, size, bold) <= most {
        return Some(text.to_string());
    }
    let chars: Vec<char> = text.chars().collect();
    let cut = |kept: usize| {
        let tail = match keep {
            Keep::Both => kept / 2,
            Keep::Start => 0,
            Keep::End => kept,
        };
        let start: String = chars[..kept - tail].iter().collect();
        let end: String = chars[chars.len() - tail..].iter().collect();
        format!("{}…{}", start.trim_end(), end.trim_start())
    };
    let room = (5.0 * most / size).max(0.0) as usize;
    (2..chars.len().saturating_sub(1).min(room)).rev().map(cut).find(|short| width(short, size, bold) <= most)
}

/// Two lines of nearly one length, broken at a space.
pub fn halves(text: &str, size: f64, bold: bool) -> Option<[String; 2]> {
    // A name of more words isn't made better by two lines.
    if text.len() > 400 {
        return None;
    }
    let longer = |at: usize| width(&text[..at], size, bold).max(width(&text[at + 1..], size, bold));
    let spaces = text.match_indices(' ').map(|(at, _)| at);
    let best = spaces.min_by(|&a, &b| longer(a).total_cmp(&longer(b)))?;
    Some([text[..best].to_string(), text[best + 1..].to_string()])
}

/// The text in lines that fit a width, broken at spaces where it can be.
pub fn wrapped(text: &str, size: f64, most: f64) -> Vec<String> {
    let (mut lines, mut line, mut wide) = (Vec::new(), String::new(), 0.0);
    for word in text.split_inclusive(' ') {
        if !line.is_empty() && wide + width(word.trim_end(), size, false) > most {
            lines.push(std::mem::take(&mut line));
            wide = 0.0;
        }
        for c in word.chars() {
            let step = f64::from(thousandths(c, false)) / 1000.0 * size;
            if !line.is_empty() && c != ' ' && wide + step > most {
                lines.push(std::mem::take(&mut line));
                wide = 0.0;
            }
            line.push(c);
            wide += step;
        }
    }
    lines.push(line);
    lines.iter().map(|line| line.trim_end().to_string()).collect()
}

#[cfg(test)]
mod tests {
    use super::*;

    #[test]
    fn widths() {
        assert_eq!(width("Ab", 10.0, false), 13.19);
        assert!(width("Ab", 10.0, true) > 13.19);
        assert!(width("ü", 10.0, false) >= 6.34 && width("ü", 10.0, false) < 6.5, "as in DejaVu Sans");
    }

    #[test]
    fn shortening_keeps_both_ends() {
        let most = width("Mai…n 2", 2.5, false);
        assert_eq!(fitted("Main section 2", 2.5, false, most).unwrap(), "Main…n 2".replace("Main", "Mai"));
        assert_eq!(fitted("Short", 2.5, false, 100.0).unwrap(), "Short");
        assert_eq!(fitted("Main", 2.5, false, 1.0), None);
    }

    #[test]
    fn breaking() {
        assert_eq!(halves("Long Hill Farm", 3.0, false).unwrap(), ["Long Hill", "Farm"]);
        assert!(halves("Hill", 3.0, false).is_none());
    }

    #[test]
    fn wrapping_loses_nothing() {
        let most = width("Long Hill", 3.0, false);
        assert_eq!(wrapped("Long Hill Farm", 3.0, most), ["Long Hill", "Farm"]);
        assert_eq!(wrapped("A-very-long-name-of-one-word", 3.0, most).concat(), "A-very-long-name-of-one-word");
        assert_eq!(wrapped("", 3.0, most), [""]);
    }
}
