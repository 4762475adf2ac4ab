//! Whether a finished sheet shows its network: it is read back as a file, with code that shares nothing with the writer.
mod changes;
mod doubts;
mod ends;
mod foreign;
pub mod html;
mod labels;
mod leaders;
mod look;
mod names;
mod numbers;
mod outside;
mod page;
mod parts;
mod plane;
pub mod reading;
mod register;
mod rows;
mod switches;
mod xml;

pub use doubts::tally;
pub use plane::{away, Point, Span};

use crate::fault::Fault;
use crate::network::Network;
use crate::number::thousands;
use reading::Reading;
use std::fmt::Display;

/// A sheet that was read, the network that it has to show, and what is wrong.
struct Check<'a> {
    reading: &'a Reading<'a>,
    network: &'a Network,
    found: Vec<String>,
}

impl Check<'_> {
    fn say(&mut self, text: impl Display) {
        self.found.push(text.to_string());
    }
}

/// What is wrong with a sheet, in words, nothing where it shows the network; and what on it may be misread.
pub struct Findings {
    pub wrong: Vec<String>,
    pub doubts: Vec<String>,
}

pub fn findings(reading: &Reading<'_>, network: &Network) -> Findings {
    let mut check = Check { reading, network, found: Vec::new() };
    check.page();
    let boxes = check.boxes();
    let bars = check.bars(&boxes);
    check.columns(&boxes, &bars);
    let runs = check.runs(&boxes, &bars);
    check.rows(&boxes, &runs);
    check.crosses(&runs);
    check.dots(&runs);
    check.numbers(&boxes, &runs);
    check.switches(&boxes, &runs);
    check.kinds(&runs);
    check.fields();
    check.placeless(&boxes);
    check.register();
    check.station_labels(&boxes);
    check.bus_labels(&boxes, &bars);
    check.foreign();
    let doubts = check.doubts();
    Findings { wrong: check.found, doubts }
}

/// How many findings a message has.
const SHOWN: usize = 20;

/// The findings as lines of a message.
pub fn listed(findings: &[String]) -> String {
    let mut lines: Vec<String> = findings.iter().take(SHOWN).cloned().collect();
    if findings.len() > SHOWN {
        lines.push(format!("and {} more", thousands(findings.len() - SHOWN)));
    }
    lines.join("\n")
}

/// A fault where a sheet that was just drawn doesn't show its network.
pub fn passed(text: &str, network: &Network) -> Result<(), Fault> {
    let found = findings(&reading::read(text, "the sheet")?, network).wrong;
    if found.is_empty() {
        return Ok(());
    }
    let count = if found.len() == 1 { "1 finding".to_string() } else { format!("{} findings", thousands(found.len())) };
    Err(Fault::Sheet(format!("the sheet isn't written, since the check of it has {count}:\n{}", listed(&found))))
}

/// What a sheet that shows its network has on it.
pub fn summary(reading: &Reading<'_>, doubts: usize) -> String {
    let named = |list: &[reading::Part]| {
        list.iter().filter(|part| reading.elements[part.element].attribute("data-unnamed").is_none()).count()
    };
    let unnamed = reading.boxes.len() + reading.bars.len() - named(&reading.boxes) - named(&reading.bars);
    format!(
        "ok: {} boxes, {} bars, {} branches, {} of them open; names left out: {}; places that may be misread: {}\n",
        thousands(reading.boxes.len()),
        thousands(reading.bars.len()),
        thousands(reading.runs.len()),
        thousands(reading.crosses.len()),
        thousands(unnamed),
        thousands(doubts)
    )
}
