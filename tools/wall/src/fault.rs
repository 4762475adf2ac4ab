//! What goes wrong, in the words that are shown.
use crate::plain::visible;
use std::fmt;

/// A place in a file, counted from 1.
#[derive(Clone, Copy, Debug, PartialEq, Eq)]
pub struct Place {
    pub line: usize,
    pub column: usize,
}

/// Why nothing is drawn, audited or listed.
#[derive(Debug)]
pub enum Fault {
    /// The command line isn't one that the program knows.
    Usage(String),
    /// A file can't be opened or written.
    File { file: String, problem: String },
    /// A file's content isn't what it has to be.
    Content { file: String, place: Place, expected: String },
    /// Several faults of a file, and how many more it has.
    Many { list: Vec<Fault>, more: usize },
    /// The library refuses the network.
    Refused { number: u32, words: String },
    /// A sheet isn't written, or what was compared or checked isn't what it has to be.
    Sheet(String),
}

impl Fault {
    pub fn content(file: &str, place: Place, expected: impl Into<String>) -> Self {
        Fault::Content { file: file.to_string(), place, expected: expected.into() }
    }

    pub fn file(file: impl Into<String>, problem: impl fmt::Display) -> Self {
        Fault::File { file: file.into(), problem: problem.to_string() }
    }

    /// Where it stands among others of its file.
    pub fn order(&self) -> (usize, usize) {
        match self {
            Fault::Content { place, .. } => (place.line, place.column),
            _ => (0, 0),
        }
    }

    /// The number that `drawlist` would print, if it is one that it prints.
    pub fn number(&self) -> Option<u32> {
        match self {
            Fault::Content { .. } | Fault::Many { .. } => Some(14),
            Fault::Refused { number, .. } => Some(*number),
            Fault::Usage(_) | Fault::File { .. } | Fault::Sheet(_) => None,
        }
    }
}

impl fmt::Display for Fault {
    fn fmt(&self, f: &mut fmt::Formatter<'_>) -> fmt::Result {
        match self {
            Fault::Usage(text) => write!(f, "{text}\nTry 'wall --help'."),
            Fault::Sheet(text) => write!(f, "{text}"),
            Fault::File { file, problem } => write!(f, "{file}: {problem}"),
            Fault::Content { file, place, expected } => {
                write!(f, "{file}:{}:{}: {expected}", place.line, place.column)
            }
            Fault::Many { list, more } => {
                let lines: Vec<String> = list.iter().map(Fault::to_string).collect();
                write!(f, "{}\n{} errors", lines.join("\n"), list.len() + more)?;
                if *more > 0 {
                    write!(f, ", of which the first {} are listed", list.len())?;
                }
                Ok(())
            }
            Fault::Refused { number, words } => write!(f, "refused {number}: {words}"),
        }
    }
}

/// A text as a message shows it: in quotes, on one line, at most forty characters, what can't be seen and blanks other than
/// a space as escapes.
pub fn shown(text: &str) -> String {
    let mut seen = String::new();
    for c in visible(text).chars() {
        match c {
            _ if c.is_control() => seen.push('\u{FFFD}'),
            _ if c.is_whitespace() && c != ' ' => seen.push_str(&format!("<U+{:04X}>", c as u32)),
            _ => seen.push(c),
        }
    }
    let mut short: String = seen.chars().take(40).collect();
    if seen.chars().nth(40).is_some() {
        short.push('…');
    }
    format!("'{short}'")
}
