//! A planning export: `buses.csv` and `branches.csv` of one folder.
mod errors;
mod near;
mod numbers;
mod table;
pub mod warn;

use crate::alike::{self, Named};
use crate::csv::Cell;
use crate::fault::{shown, Fault, Place};
use crate::network::{Branch, Bus, Kind, More, Numbering};
use crate::plain::one_line;
use errors::Errors;
pub use near::hint;
use numbers::Numbers;
use std::collections::HashMap;
use table::unknown;

const BUS_COLUMNS: [&str; 5] = ["name", "substation", "kv", "x", "y"];
const BRANCH_COLUMNS: [&str; 4] = ["name", "from", "to", "in_service"];

/// Columns that `branches.csv` may have: what the sheet calls each branch, its isolators, its bay, and what it is.
const MORE_COLUMNS: [&str; 5] = ["number", "from_switch", "to_switch", "bay", "kind"];

/// The longest number: it stands between two bars; the longest isolator, which stands beside it; the longest bay.
const LONGEST: usize = 6;
const LONGEST_SWITCH: usize = 12;
const LONGEST_BAY: usize = 40;

/// The longest name of a bus, branch or substation.
const LONGEST_NAME: usize = 200;

/// Names that are given once, with the line that gave each.
struct Names<'a> {
    file: &'a str,
    lines: HashMap<String, (usize, usize)>,
}

pub struct Buses {
    pub stations: Vec<String>,
    pub buses: Vec<Bus>,
    pub notes: Vec<String>,
    names: HashMap<String, (usize, usize)>,
}

pub struct Branches {
    pub branches: Vec<Branch>,
    pub numbering: Numbering,
    pub notes: Vec<String>,
}

impl<'a> Names<'a> {
    fn new(file: &'a str) -> Self {
        Names { file, lines: HashMap::new() }
    }

    fn take(&mut self, cell: &Cell, what: &str) -> Result<String, Fault> {
        let name = short(filled(cell, self.file, what)?, cell, self.file)?;
        let number = self.lines.len();
        match self.lines.insert(name.clone(), (number, cell.place.line)) {
            None => Ok(name),
            Some((_, line)) => Err(Fault::content(
                self.file,
                cell.place,
                format!("expected a name that no other row has; {} stands in line {line} too", shown(&name)),
            )),
        }
    }
}

/// A cell's text, which mustn't be empty.
fn filled(cell: &Cell, file: &str, what: &str) -> Result<String, Fault> {
    if cell.text.trim().is_empty() {
        return Err(Fault::content(file, cell.place, format!("expected {what}, found nothing")));
    }
    Ok(cell.text.clone())
}

/// A name that a line of the index can hold.
fn short(name: String, cell: &Cell, file: &str) -> Result<String, Fault> {
    if name.chars().nth(LONGEST_NAME).is_some() {
        let expected = format!("expected a name of at most {LONGEST_NAME} characters, found {}", shown(&name));
        return Err(Fault::content(file, cell.place, expected));
    }
    Ok(name)
}

/// Refuses names that are printed the same; gives a note for each that is easily misread for another.
fn told_apart(names: &[Named<'_>], file: &str, what: &str) -> Result<Vec<String>, Fault> {
    let found = alike::found(names);
    if let Some([a, b]) = found.same {
        let place = Place { line: b.line, column: 1 };
        let words = alike::pair(file, what, [a, b]);
        return Err(Fault::content(file, place, format!("expected names that look different: {words}")));
    }
    Ok(found
        .alike
        .into_iter()
        .map(|pair| format!("note: names look alike: {}", alike::pair(file, what, pair)))
        .collect())
}

fn named<'a, T>(rows: &'a [T], get: impl Fn(&'a T) -> (&'a str, usize)) -> Vec<Named<'a>> {
    rows.iter().map(get).map(|(name, line)| Named { name, line }).collect()
}

/// The buses of `buses.csv`; substations have numbers in the order in which they first appear.
pub fn buses(bytes: &[u8], file: &str) -> Result<Buses, Fault> {
    let mut errors = Errors::default();
    let table = table::read(bytes, file, BUS_COLUMNS, [], &mut errors)?;
    let mut numerals = Numbers::new(file, table.commas);
    let mut names = Names::new(file);
    let (mut stations, mut numbers) = (Vec::new(), HashMap::new());
    let mut buses = Vec::new();
    let mut first_lines = Vec::new();
    for ([name, substation, kv, x, y], []) in &table.rows {
        let line = name.place.line;
        let station = filled(substation, file, "a substation's name").and_then(|s| short(s, substation, file));
        let station = errors.take(station).unwrap_or_default();
        let next = stations.len() as u32;
        let number = *numbers.entry(station.clone()).or_insert(next);
        if number == next {
            stations.push(station);
            first_lines.push(substation.place.line);
        }
        let name = errors.take(names.take(name, "a bus's name")).unwrap_or_default();
        let kv = errors.take(numerals.voltage(kv)).unwrap_or(1.0);
        let at = errors.take(numerals.point(x, y)).flatten();
        buses.push(Bus { name, station: number, kv, at, line });
    }
    errors.finished()?;
    let mut notes = [table.notes, numerals.notes()].concat();
    notes.extend(told_apart(&named(&buses, |bus| (&bus.name, bus.line)), file, "buses")?);
    let pairs: Vec<(&String, usize)> = stations.iter().zip(first_lines).collect();
    notes.extend(told_apart(&named(&pairs, |(name, line)| (name, *line)), file, "substations")?);
    Ok(Buses { stations, buses, notes, names: names.lines })
}

/// What the sheet calls a branch: the given number, or that of its row.
fn number_of(cell: Option<&Cell>, row: usize, numbers: &mut Names<'_>) -> Result<String, Fault> {
    let Some(cell) = cell else { return Ok((row + 1).to_string()) };
    let text = numbers.take(cell, "a branch's number")?;
    let fits = text.chars().count() <= LONGEST && text.chars().all(|c| c.is_ascii_graphic());
    if !fits {
        let expected =
            format!("expected a number of at most {LONGEST} letters, digits and signs, found {}", shown(&text));
        return Err(Fault::content(numbers.file, cell.place, expected));
    }
    Ok(text)
}

/// Words for a branch in service and for an open one.
const LIVE: [&str; 8] = ["1", "1.0", "1,0", "true", "yes", "y", "closed", "in service"];
const OPEN: [&str; 8] = ["0", "0.0", "0,0", "false", "no", "n", "open", "out of service"];

fn service(cell: &Cell, file: &str) -> Result<u8, Fault> {
    let word = cell.text.trim().to_lowercase();
    if LIVE.contains(&word.as_str()) {
        return Ok(1);
    }
    if OPEN.contains(&word.as_str()) {
        return Ok(0);
    }
    let expected = "expected 1, true, yes or closed (in service), or 0, false, no or open (open);";
    Err(unknown(cell, file, expected, LIVE.into_iter().chain(OPEN)))
}

/// The text of a column that may be left out and whose cells may be empty, on one line.
fn word(cell: Option<&Cell>, file: &str, what: &str, longest: usize) -> Result<String, Fault> {
    let Some(cell) = cell else { return Ok(String::new()) };
    let text = one_line(&cell.text);
    if text.chars().nth(longest).is_some() {
        let expected = format!("expected {what} of at most {longest} characters, found {}", shown(&text));
        return Err(Fault::content(file, cell.place, expected));
    }
    Ok(text)
}

/// An isolator: it stands in brackets on the sheet, and has none itself.
fn switch(cell: Option<&Cell>, file: &str) -> Result<String, Fault> {
    let text = word(cell, file, "an isolator", LONGEST_SWITCH)?;
    match cell.filter(|_| text.contains(['[', ']'])) {
        Some(cell) => {
            let expected = format!("expected an isolator without brackets, found {}", shown(&text));
            Err(Fault::content(file, cell.place, expected))
        }
        None => Ok(text),
    }
}

fn kind_of(cell: Option<&Cell>, file: &str) -> Result<Option<Kind>, Fault> {
    let Some(cell) = cell.filter(|cell| !cell.text.trim().is_empty()) else { return Ok(None) };
    let found = Kind::ALL.into_iter().find(|kind| kind.word() == cell.text.trim().to_lowercase());
    let expected = "expected transformer, coupler, line or nothing,";
    found.map(Some).ok_or_else(|| unknown(cell, file, expected, Kind::ALL.into_iter().map(Kind::word)))
}

/// Remarks on isolators that stand for two things in one substation, and on kinds that go ill with the branch's ends.
fn doubtful(branches: &[Branch], buses: &Buses, file: &str) -> Vec<String> {
    let mut notes = Vec::new();
    let mut seen: HashMap<(u32, &str), &Branch> = HashMap::new();
    let bus = |number: i64| usize::try_from(number).ok().and_then(|i| buses.buses.get(i));
    for branch in branches {
        for (end, name) in [branch.from, branch.to].into_iter().zip(&branch.more.switches) {
            let Some(bus) = bus(end).filter(|_| !name.is_empty()) else { continue };
            if let Some(other) = seen.insert((bus.station, name), branch) {
                let station = &buses.stations[bus.station as usize];
                let (one, two) = (shown(&other.name), shown(&branch.name));
                notes.push(format!(
                    "note: isolator {} stands twice at substation {}: branch {one}, {file}:{}, and branch {two}, {file}:{}",
                    shown(name),
                    shown(station),
                    other.line,
                    branch.line
                ));
            }
        }
        let Some((a, b)) = bus(branch.from).zip(bus(branch.to)) else { continue };
        let odd = match branch.more.kind {
            Some(Kind::Transformer) => a.station != b.station,
            Some(Kind::Coupler) => a.station != b.station || a.kv != b.kv,
            Some(Kind::Line) => a.kv != b.kv,
            None => false,
        };
        if let Some(kind) = branch.more.kind.filter(|_| odd) {
            let (word, ends) = (kind.word(), kind.expected());
            notes.push(format!("note: a {word} goes {ends}: branch {}, {file}:{}", shown(&branch.name), branch.line));
        }
    }
    notes
}

/// What a row may say of a branch beside its ends.
fn more(cells: [Option<&Cell>; 4], file: &str, errors: &mut Errors) -> More {
    let [one, two, bay, kind] = cells;
    let switches = [one, two].map(|cell| errors.take(switch(cell, file)).unwrap_or_default());
    let bay = errors.take(word(bay, file, "a bay", LONGEST_BAY)).unwrap_or_default();
    More { switches, bay, kind: errors.take(kind_of(kind, file)).flatten() }
}

/// The branches of `branches.csv`, between these buses.
pub fn branches(bytes: &[u8], file: &str, buses: &Buses) -> Result<Branches, Fault> {
    let mut errors = Errors::default();
    let table = table::read(bytes, file, BRANCH_COLUMNS, MORE_COLUMNS, &mut errors)?;
    let mut names = Names::new(file);
    let end = |cell: &Cell| -> Result<i64, Fault> {
        let name = filled(cell, file, "the name of a bus")?;
        let found = buses.names.get(&name).map(|&(number, _)| number as i64);
        found.ok_or_else(|| {
            let meant = hint(&name, buses.buses.iter().map(|bus| bus.name.as_str()));
            let expected = format!("expected the name of a bus of buses.csv, found {}{meant}", shown(&name));
            Fault::content(file, cell.place, expected)
        })
    };
    let (mut list, mut numbers) = (Vec::new(), Names::new(file));
    for (row, ([name, from, to, in_service], [number, one, two, bay, kind])) in table.rows.iter().enumerate() {
        let cells = [one, two, bay, kind].map(Option::as_ref);
        list.push(Branch {
            line: name.place.line,
            name: errors.take(names.take(name, "a branch's name")).unwrap_or_default(),
            number: errors.take(number_of(number.as_ref(), row, &mut numbers)).unwrap_or_default(),
            from: errors.take(end(from)).unwrap_or(0),
            to: errors.take(end(to)).unwrap_or(0),
            service: errors.take(service(in_service, file)).unwrap_or(0),
            more: more(cells, file, &mut errors),
        });
    }
    errors.finished()?;
    let mut notes = table.notes;
    notes.extend(told_apart(&named(&list, |branch| (&branch.name, branch.line)), file, "branches")?);
    let given = table.rows.iter().any(|(_, [number, ..])| number.is_some());
    if given {
        notes.extend(told_apart(&named(&list, |branch| (&branch.number, branch.line)), file, "numbers of branches")?);
    }
    notes.extend(doubtful(&list, buses, file));
    let numbering = if given { Numbering::Given } else { Numbering::Rows };
    Ok(Branches { branches: list, numbering, notes })
}
