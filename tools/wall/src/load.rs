//! A network from a folder, a file or standard input.
use crate::checksum::sha256;
use crate::decode;
use crate::export;
use crate::fault::Fault;
use crate::listing;
use crate::network::{Network, Numbering, Source};
use std::fs::File;
use std::io::Read;
use std::path::Path;

/// The most bytes of a file that is read; the largest accepted network takes a small part of it.
const MOST: u64 = 64 << 20;

/// What standard input is called where a file's name stands.
pub const STANDARD_INPUT: &str = "standard input";

/// The network that a command line's word names.
pub fn network(word: &str) -> Result<Network, Fault> {
    if word == "-" {
        let bytes = limited(std::io::stdin().lock(), "standard input")?;
        return text(&bytes, STANDARD_INPUT.to_string(), STANDARD_INPUT.to_string());
    }
    let path = Path::new(word);
    let kind = path.metadata().map_err(|error| Fault::file(word, error))?;
    let name = shown_name(path);
    if kind.is_dir() {
        return folder(path, name);
    }
    if word.to_lowercase().ends_with(".csv") {
        return Err(Fault::file(word, "expected the folder with buses.csv and branches.csv, found one file of it"));
    }
    let bytes = opened(path)?;
    if bytes.starts_with(WORKBOOK) {
        let wish =
            "expected the folder with buses.csv and branches.csv, found an Excel workbook: save its sheets as these \
                    two files";
        return Err(Fault::file(word, wish));
    }
    text(&bytes, name, word.to_string())
}

/// How a workbook begins.
const WORKBOOK: &[u8] = b"PK\x03\x04";

/// A file of a folder, or what is there instead of it.
fn part(path: &Path) -> Result<Vec<u8>, Fault> {
    let book = path.with_extension("xlsx");
    if !path.exists() && book.exists() {
        let name = path.file_name().map_or_else(String::new, |name| name.to_string_lossy().into_owned());
        let wish =
            format!("expected {name}, found an Excel workbook: save its sheet as CSV (UTF-8), beside it as {name}");
        return Err(Fault::file(book.display().to_string(), wish));
    }
    opened(path)
}

/// The last part of a path, followed where it is a link or a dot.
fn shown_name(path: &Path) -> String {
    let full = path.canonicalize().unwrap_or_else(|_| path.to_path_buf());
    let name = full.file_name().map_or_else(|| full.to_string_lossy(), |name| name.to_string_lossy());
    name.chars().map(|c| if c.is_control() { '\u{FFFD}' } else { c }).collect()
}

pub fn opened(path: &Path) -> Result<Vec<u8>, Fault> {
    let name = path.display().to_string();
    let file = File::open(path).map_err(|error| Fault::file(&name, error))?;
    limited(file, &name)
}

fn limited(from: impl Read, name: &str) -> Result<Vec<u8>, Fault> {
    let mut bytes = Vec::new();
    from.take(MOST + 1).read_to_end(&mut bytes).map_err(|error| Fault::file(name, error))?;
    if bytes.len() as u64 > MOST {
        return Err(Fault::file(name, "expected at most 64 MiB"));
    }
    Ok(bytes)
}

fn source(name: &str, path: &str, bytes: &[u8]) -> Source {
    Source { name: name.to_string(), path: path.to_string(), sha256: sha256(bytes) }
}

fn folder(path: &Path, name: String) -> Result<Network, Fault> {
    let (one, two) = (path.join("buses.csv"), path.join("branches.csv"));
    let (first, second) = (part(&one)?, part(&two)?);
    let (one, two) = (one.display().to_string(), two.display().to_string());
    let buses = export::buses(&first, &one)?;
    let branches = export::branches(&second, &two, &buses)?;
    let notes = [&buses.notes[..], &branches.notes].concat();
    let sources = vec![source("buses.csv", &one, &first), source("branches.csv", &two, &second)];
    let numbering = branches.numbering;
    let (stations, buses, branches) = (buses.stations, buses.buses, branches.branches);
    Ok(Network { name, sources, stations, buses, branches, numbering, retired: Vec::new(), part: None, notes })
}

fn text(bytes: &[u8], name: String, path: String) -> Result<Network, Fault> {
    if bytes.starts_with(b"\xEF\xBB\xBF") {
        return Err(listing::marked(&path));
    }
    let (buses, branches) = listing::read(decode::text(bytes, &path)?, &path)?;
    let sources = vec![source(&name, &path, bytes)];
    let (stations, retired, notes) = (Vec::new(), Vec::new(), Vec::new());
    Ok(Network { name, sources, stations, buses, branches, numbering: Numbering::Rows, retired, part: None, notes })
}
