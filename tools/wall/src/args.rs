//! The command line.
use crate::approval::Approval;
use crate::command::{Command, COMMANDS};
use crate::fault::{shown, Fault};
use crate::number::{decimal, short};
use crate::paper::Paper;
use crate::part::Wanted;
use crate::save::is_standard_output;
use tansygate::TxLayoutOptions;

/// Which options of the drawing were given: these aren't varied.
#[derive(Clone, Copy, Debug, Default)]
pub struct Kept {
    pub fill: bool,
    pub iterations: bool,
}

#[derive(Clone, Debug)]
pub struct Settings {
    pub command: Command,
    pub network: String,
    /// What stands before the network: the old one of `compare`, the sheet of `check`.
    pub other: String,
    pub csv: Option<String>,
    pub allow_empty: bool,
    pub anyway: bool,
    pub output: Option<String>,
    pub options: TxLayoutOptions,
    pub paper: Paper,
    /// The paper of the index's pages, where it is said.
    pub index_paper: Option<Paper>,
    /// The paper that a PDF sheet is cut up for.
    pub tiles: Option<Paper>,
    /// A file that changes the colours of voltages.
    pub colours: Option<String>,
    pub title: Option<String>,
    /// What the title block says of the sheet's date, revision and signatures.
    pub approval: Approval,
    /// A file of revisions.
    pub revisions: Option<String>,
    /// Which part of the network is drawn.
    pub part: Wanted,
    /// What the numbers of branches are kept from.
    pub numbers_from: Option<String>,
    pub strict: bool,
    pub y_up: bool,
    /// Whether one drawing is made, by these options, and not the best of several.
    pub as_asked: bool,
    pub kept: Kept,
    /// Whether the fill is the largest at which every box finds a free place.
    pub largest: bool,
    /// Which of several drawings it is, in words.
    pub drawn: String,
}

/// What the command line asks for.
#[derive(Debug)]
pub enum Wish {
    Help,
    Version,
    Run(Box<Settings>),
}

fn usage<T>(text: impl Into<String>) -> Result<T, Fault> {
    Err(Fault::Usage(text.into()))
}

pub fn parsed(words: &[String]) -> Result<Wish, Fault> {
    let options = words.iter().take_while(|word| *word != "--");
    for word in options {
        match word.as_str() {
            "-h" | "--help" => return Ok(Wish::Help),
            "-V" | "--version" => return Ok(Wish::Version),
            _ => {}
        }
    }
    let Some((first, rest)) = words.split_first() else {
        return usage(COMMANDS);
    };
    let command = match (Command::named(first), first.as_str()) {
        (Some(command), _) => command,
        (None, "help") => return Ok(Wish::Help),
        (None, other) => return usage(format!("{COMMANDS}; found {}", shown(other))),
    };
    let mut settings = Settings::new(command);
    settings.read(rest)?;
    Ok(Wish::Run(Box::new(settings)))
}

impl Settings {
    /// The defaults of a command. Those of `list` are `drawlist`'s. A sheet has larger boxes than the library's default
    /// and one scale for all of them, so that the names in them can be read on paper.
    fn new(command: Command) -> Self {
        let library = TxLayoutOptions::default();
        let options = match command {
            Command::List => TxLayoutOptions { fill: 0.5, route_iterations: 0, ..library },
            _ => TxLayoutOptions { fill: 0.8, tier_radius: 0.0, ..library },
        };
        Settings {
            command,
            network: String::new(),
            other: String::new(),
            csv: None,
            allow_empty: false,
            anyway: false,
            output: None,
            options,
            paper: Paper::A1,
            index_paper: None,
            tiles: None,
            colours: None,
            title: None,
            approval: Approval::default(),
            revisions: None,
            part: Wanted::default(),
            numbers_from: None,
            strict: false,
            y_up: false,
            as_asked: false,
            kept: Kept::default(),
            largest: false,
            drawn: String::new(),
        }
    }

    fn read(&mut self, words: &[String]) -> Result<(), Fault> {
        let mut words = words.iter();
        let mut networks = Vec::new();
        while let Some(word) = words.next() {
            if word == "--" {
                networks.extend(words.by_ref());
            } else if word.starts_with('-') && word != "-" {
                let (name, value) = split(word);
                if !self.flag(&name, value.is_some())? {
                    let Some(value) = value.or_else(|| words.next().cloned()) else {
                        return usage(format!("{name}: expected a value after it"));
                    };
                    self.option(&name, &value)?;
                }
            } else {
                networks.push(word);
            }
        }
        self.index_paper = self.index_paper.or(self.tiles);
        self.finish(&networks)
    }

    fn finish(&mut self, networks: &[&String]) -> Result<(), Fault> {
        let two = match self.command {
            Command::Compare => Some("two networks, OLD and NEW"),
            Command::Check => Some("a SHEET and its NETWORK"),
            _ => None,
        };
        let networks = match (two, networks) {
            (None, _) => networks,
            (Some(_), [one, second]) if !one.is_empty() => {
                self.other = one.to_string();
                std::slice::from_ref(second)
            }
            (Some(what), _) => return usage(format!("{}: expected {what}", self.command.name())),
        };
        match networks {
            [] => return usage("expected a NETWORK: a folder with buses.csv and branches.csv, or a drawlist text"),
            [one] if !one.is_empty() => self.network = one.to_string(),
            [_] => return usage("expected a NETWORK, found an empty name"),
            [_, second, ..] => return usage(format!("expected one NETWORK, found {} too", shown(second))),
        }
        let files: Vec<&String> = [&self.output, &self.csv].into_iter().flatten().collect();
        if self.command == Command::Compare && files.iter().any(|file| is_standard_output(file)) {
            return usage("compare: expected files after -o and --csv; what differs is printed to standard output");
        }
        if files.len() == 2 && files[0] == files[1] {
            return usage("compare: expected two files, one after -o and one after --csv");
        }
        if self.command == Command::Draw && self.output.is_none() {
            return usage("draw: expected -o FILE, the sheet to write");
        }
        if self.part.hops.is_some() && self.part.around.is_none() {
            return usage("--hops: expected --around STATION, the substation that they are counted from");
        }
        if self.tiles.is_some() && !self.pdf() {
            return usage("--tiles: expected -o FILE.pdf: tiles are pages of a PDF file");
        }
        Ok(())
    }

    /// The fill in words, once it is known.
    pub fn fill(&self) -> String {
        match self.largest {
            true => format!("{}/64, the largest", self.options.fill * 64.0),
            false => short(self.options.fill),
        }
    }

    /// Whether the sheet is to be a PDF file.
    pub fn pdf(&self) -> bool {
        self.output.as_ref().is_some_and(|name| name.to_lowercase().ends_with(".pdf"))
    }

    /// Whether the sheet is to be a page for a browser.
    pub fn html(&self) -> bool {
        self.output.as_ref().is_some_and(|name| [".html", ".htm"].iter().any(|end| name.to_lowercase().ends_with(end)))
    }

    /// Whether this is an option without a value, which is then taken.
    fn flag(&mut self, name: &str, has_value: bool) -> Result<bool, Fault> {
        match name {
            _ if !self.command.has(name) => return self.takes_value(name).map(|()| false),
            "--strict" => self.strict = true,
            "--y-up" => self.y_up = true,
            "--as-asked" => self.as_asked = true,
            "--allow-empty" => self.allow_empty = true,
            "--anyway" => self.anyway = true,
            _ => return self.takes_value(name).map(|()| false),
        }
        if has_value {
            return usage(format!("{name} takes no value"));
        }
        Ok(true)
    }

    /// Whether this is an option of the command that has a value.
    fn takes_value(&self, name: &str) -> Result<(), Fault> {
        if !Command::any_has(name) {
            return usage(format!("there is no option {name}"));
        }
        if !self.command.has(name) {
            return usage(format!("{name} isn't an option of {}", self.command.name()));
        }
        Ok(())
    }

    fn option(&mut self, name: &str, value: &str) -> Result<(), Fault> {
        if self.approval.set(name, value)? {
            return Ok(());
        }
        match name {
            "--around" => self.part.around = Some(value.to_string()),
            "--hops" => self.part.hops = Some(whole(name, value, 100)?),
            "--square" => self.part.square = Some(value.trim().to_string()),
            "--voltage" => self.part.voltage = Some(kilovolts(name, value)?),
            "--revisions" => self.revisions = Some(value.to_string()),
            "-o" | "--output" => self.output = Some(value.to_string()),
            "--csv" => self.csv = Some(value.to_string()),
            "--numbers-from" => self.numbers_from = Some(value.to_string()),
            "--title" => self.title = Some(plain(name, value)?),
            "--paper" => self.paper = paper(name, value)?,
            "--index-paper" => self.index_paper = Some(paper(name, value)?),
            "--tiles" => self.tiles = Some(paper(name, value)?),
            "--colours" => self.colours = Some(value.to_string()),
            "--fill" => {
                self.largest = value == "largest";
                if !self.largest {
                    self.options.fill = fill(name, value)?;
                }
                self.kept.fill = true;
            }
            "--search" => self.options.search = whole(name, value, 20)? as i32,
            "--tier-radius" => self.options.tier_radius = radius(name, value)?,
            "--tier-counts" => self.options.tier_counts = counts(name, value)?,
            "--tier-scales" => self.options.tier_scales = scales(name, value)?,
            "--bar-gap" => self.options.bar_gap = gap(name, value)?,
            "--padding" => self.options.pad = gap(name, value)?,
            "--shortest-bar" => self.options.min_bar = gap(name, value)?,
            "--buffer" => self.options.buffer = gap(name, value)?,
            _ => {
                self.options.route_iterations = whole(name, value, 100)?;
                self.kept.iterations = true;
            }
        }
        Ok(())
    }
}

/// An option's name and the value written in the same word: `--fill=1`, `-osheet.svg`.
fn split(word: &str) -> (String, Option<String>) {
    if word.starts_with("--") {
        return match word.split_once('=') {
            Some((name, value)) => (name.to_string(), Some(value.to_string())),
            None => (word.to_string(), None),
        };
    }
    let end = word.char_indices().nth(2).map_or(word.len(), |(i, _)| i);
    let rest = &word[end..];
    (word[..end].to_string(), Some(rest.to_string()).filter(|r| !r.is_empty()))
}

/// A value out of its range is what the library calls refusal 5.
fn out_of_range<T>(name: &str, value: &str, expected: &str) -> Result<T, Fault> {
    usage(format!("{name}: expected {expected}, found {} (refused 5: an option is out of range)", shown(value)))
}

/// A decimal number, or two with a stroke between: 2/3.
fn ratio(value: &str) -> Option<f64> {
    match value.split_once('/') {
        Some((above, below)) => Some(decimal(above)? / decimal(below)?).filter(|x| x.is_finite()),
        None => decimal(value),
    }
}

fn fill(name: &str, value: &str) -> Result<f64, Fault> {
    match ratio(value).filter(|x| *x > 0.0 && *x <= 16.0) {
        Some(x) => Ok(x),
        None => out_of_range(name, value, "a number above 0 and at most 16, or 'largest'"),
    }
}

fn radius(name: &str, value: &str) -> Result<f64, Fault> {
    match ratio(value).filter(|x| (0.0..=1000.0).contains(x)) {
        Some(x) => Ok(x),
        None => out_of_range(name, value, "a number from 0 to 1000"),
    }
}

fn gap(name: &str, value: &str) -> Result<f64, Fault> {
    match ratio(value).filter(|x| (0.5..=8.0).contains(x)) {
        Some(x) => Ok(x),
        None => out_of_range(name, value, "a number from 0.5 to 8"),
    }
}

fn whole(name: &str, value: &str, most: usize) -> Result<usize, Fault> {
    let digits = !value.is_empty() && value.bytes().all(|b| b.is_ascii_digit());
    match value.parse().ok().filter(|n| digits && *n <= most) {
        Some(n) => Ok(n),
        None => out_of_range(name, value, &format!("a whole number from 0 to {most}")),
    }
}

fn two(value: &str) -> Option<(&str, &str)> {
    value.split_once(',').map(|(a, b)| (a.trim(), b.trim()))
}

fn counts(name: &str, value: &str) -> Result<[usize; 2], Fault> {
    let one = |s: &str| s.parse::<u32>().ok().filter(|_| s.bytes().all(|b| b.is_ascii_digit())).map(|n| n as usize);
    match two(value).and_then(|(a, b)| Some([one(a)?, one(b)?])) {
        Some(both) => Ok(both),
        None => out_of_range(name, value, "two whole numbers from 0 to 4294967295 with a comma between, such as 12,30"),
    }
}

fn scales(name: &str, value: &str) -> Result<[f64; 2], Fault> {
    let one = |s: &str| ratio(s).filter(|x| (1.0 / 64.0..=1.0).contains(x));
    match two(value).and_then(|(a, b)| Some([one(a)?, one(b)?])) {
        Some(both) => Ok(both),
        None => out_of_range(name, value, "two numbers from 1/64 to 1 with a comma between, such as 2/3,4/9"),
    }
}

/// A voltage as people write it: 11, 11kV, 6.6 kV.
fn kilovolts(name: &str, value: &str) -> Result<f64, Fault> {
    let bare = value.trim().to_lowercase();
    let bare = bare.strip_suffix("kv").unwrap_or(&bare).trim();
    match decimal(bare).filter(|kv| *kv > 0.0) {
        Some(kv) => Ok(kv),
        None => usage(format!("{name}: expected a voltage in kV above 0, found {}", shown(value))),
    }
}

fn paper(name: &str, value: &str) -> Result<Paper, Fault> {
    match Paper::named(value) {
        Some(paper) => Ok(paper),
        None => usage(format!("{name}: expected A0, A1, A2, A3 or A4, found {}", shown(value))),
    }
}

fn plain(name: &str, value: &str) -> Result<String, Fault> {
    if value.chars().any(char::is_control) {
        return usage(format!("{name}: expected text without control characters, found {}", shown(value)));
    }
    Ok(value.to_string())
}

#[cfg(test)]
mod tests {
    use super::*;

    fn run(line: &str) -> Result<Settings, String> {
        let words: Vec<String> = line.split(' ').map(str::to_string).collect();
        match parsed(&words).map_err(|fault| fault.to_string())? {
            Wish::Run(settings) => Ok(*settings),
            other => Err(format!("{other:?}")),
        }
    }

    #[test]
    fn options_before_and_after_the_network() {
        let s = run("draw --fill=1/2 net -osheet.svg --tier-scales 2/3,0.25 --tier-counts 3,9 --search 20").unwrap();
        assert_eq!((s.network.as_str(), s.output.as_deref()), ("net", Some("sheet.svg")));
        assert_eq!((s.options.fill, s.options.search), (0.5, 20));
        assert_eq!((s.options.tier_counts, s.options.tier_scales), ([3, 9], [2.0 / 3.0, 0.25]));
    }

    #[test]
    fn the_four_gaps() {
        let s = run("audit a --bar-gap 3 --padding=1/2 --shortest-bar 8 --buffer 0.75").unwrap().options;
        assert_eq!((s.bar_gap, s.pad, s.min_bar, s.buffer), (3.0, 0.5, 8.0, 0.75));
        let s = run("audit a").unwrap().options;
        assert_eq!((s.bar_gap, s.pad, s.min_bar, s.buffer), (2.0, 1.0, 2.0, 1.0));
    }

    #[test]
    fn the_largest_fill() {
        let s = run("audit a --fill largest").unwrap();
        assert!(s.largest && s.kept.fill);
        assert!(!run("audit a --fill=largest --fill 1").unwrap().largest);
        let settings = Settings { options: TxLayoutOptions { fill: 51.0 / 64.0, ..s.options.clone() }, ..s };
        assert_eq!(settings.fill(), "51/64, the largest");
    }

    #[test]
    fn list_has_the_options_of_drawlist() {
        let s = run("list -- -odd").unwrap();
        assert_eq!((s.options.fill, s.options.route_iterations, s.network.as_str()), (0.5, 0, "-odd"));
    }

    #[test]
    fn wrong_lines() {
        for (line, expected) in [
            ("paint net", "expected a command: draw, audit, list, compare or check; found 'paint'"),
            ("draw net", "draw: expected -o FILE, the sheet to write"),
            ("draw -o", "-o: expected a value after it"),
            ("audit", "expected a NETWORK: a folder with buses.csv and branches.csv, or a drawlist text"),
            ("audit a b", "expected one NETWORK, found 'b' too"),
            ("audit a -o b", "-o isn't an option of audit"),
            ("list a --strict", "--strict isn't an option of list"),
            ("audit a --strict=1", "--strict takes no value"),
            ("audit a --wide", "there is no option --wide"),
            ("audit a -x", "there is no option -x"),
            ("audit a --fill 0", "--fill: expected a number above 0 and at most 16, or 'largest', found '0' (refused 5: an option is out of range)"),
            ("audit a --fill x", "--fill: expected a number above 0 and at most 16, or 'largest', found 'x' (refused 5: an option is out of range)"),
            ("audit a --search 21", "--search: expected a whole number from 0 to 20, found '21' (refused 5: an option is out of range)"),
            ("audit a --iterations 101", "--iterations: expected a whole number from 0 to 100, found '101' (refused 5: an option is out of range)"),
            ("audit a --iterations 1.5", "--iterations: expected a whole number from 0 to 100, found '1.5' (refused 5: an option is out of range)"),
            ("audit a --tier-radius -1", "--tier-radius: expected a number from 0 to 1000, found '-1' (refused 5: an option is out of range)"),
            ("audit a --tier-counts 3", "--tier-counts: expected two whole numbers from 0 to 4294967295 with a comma between, such as 12,30, found '3' (refused 5: an option is out of range)"),
            ("audit a --tier-scales 1,2", "--tier-scales: expected two numbers from 1/64 to 1 with a comma between, such as 2/3,4/9, found '1,2' (refused 5: an option is out of range)"),
            ("audit a --bar-gap 0.4", "--bar-gap: expected a number from 0.5 to 8, found '0.4' (refused 5: an option is out of range)"),
            ("audit a --buffer 8.000000000000002", "--buffer: expected a number from 0.5 to 8, found '8.000000000000002' (refused 5: an option is out of range)"),
            ("check a b --padding 1", "--padding isn't an option of check"),
            ("draw a -o b --tiles A4", "--tiles: expected -o FILE.pdf: tiles are pages of a PDF file"),
            ("audit a --tiles A4", "--tiles isn't an option of audit"),
            ("draw a -o b --paper A5", "--paper: expected A0, A1, A2, A3 or A4, found 'A5'"),
        ] {
            assert_eq!(run(line).unwrap_err(), format!("{expected}\nTry 'wall --help'."), "{line}");
        }
    }
}
