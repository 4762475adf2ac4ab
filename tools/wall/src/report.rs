//! The audit's figures, as rows of a name and a value.
use crate::args::Settings;
use crate::drawing::Drawing;
use crate::misread::{self, Kind, Place};
use crate::network::Network;
use crate::number::{median, short, thousands};
use tansygate::{TX_ROLE_INTERNAL, TX_ROLE_LINE, TX_ROLE_OPEN};

/// How many digits of a checksum are shown.
const DIGITS: usize = 16;

pub type Row = (&'static str, String);

/// What the network has, and how its branches are drawn.
pub fn counts(network: &Network, drawing: &Drawing) -> Vec<Row> {
    let drawn = drawing.drawn();
    let role = |r: u8| drawing.layout.role.iter().zip(&drawn).filter(|&(&x, &drawn)| x == r && drawn).count();
    vec![
        ("Substations", thousands(drawing.quality.displacement.len())),
        ("Buses", thousands(network.buses.len())),
        ("Branches", thousands(network.branches.len())),
        ("Lines", thousands(role(TX_ROLE_LINE))),
        ("Inside substations", thousands(role(TX_ROLE_INTERNAL))),
        ("Open", thousands(role(TX_ROLE_OPEN))),
        ("Not drawn", thousands(drawn.iter().filter(|&&drawn| !drawn).count())),
    ]
}

/// What the audit found.
pub fn figures(drawing: &Drawing) -> Vec<Row> {
    let q = &drawing.quality;
    // Less than a billionth of a block is rounding.
    let noise = 1e-9 * drawing.layout.unit;
    let displacement: Vec<f64> = q.displacement.iter().map(|&d| if d < noise { 0.0 } else { d }).collect();
    vec![
        ("Overlapping boxes", thousands(q.overlapping_pairs)),
        ("Lines through boxes", thousands(q.lines_through_boxes)),
        ("Displacement: median", middle(&displacement)),
        ("Displacement: largest", most(&displacement)),
        ("Spacing in box sides: least", least(&q.spacing)),
        ("Length over straight: median", middle(&q.relative_length)),
        ("Length over straight: largest", most(&q.relative_length)),
    ]
}

fn middle(list: &[f64]) -> String {
    median(list).map_or("none".to_string(), short)
}

fn least(list: &[f64]) -> String {
    list.iter().copied().reduce(f64::min).map_or("none".to_string(), short)
}

fn most(list: &[f64]) -> String {
    list.iter().copied().reduce(f64::max).map_or("none".to_string(), short)
}

/// The files that were read, each with the first digits of its SHA-256.
pub fn files(network: &Network) -> Vec<(String, String)> {
    let digits = |s: &str| s[..DIGITS].to_string();
    network.sources.iter().map(|s| (s.name.clone(), digits(&s.sha256))).collect()
}

/// The report that `wall audit` prints.
pub fn printed(network: &Network, drawing: &Drawing, settings: &Settings, doubts: &[Place]) -> String {
    let mut rows = vec![("Network".to_string(), network.name.clone())];
    rows.extend(files(network).into_iter().map(|(name, sum)| (format!("SHA-256 of {name}"), sum)));
    let figures = counts(network, drawing).into_iter().chain(figures(drawing));
    rows.extend(figures.map(|(name, value)| (name.to_string(), value)));
    let options = &settings.options;
    let way = format!("fill {}, iterations {}, {}", settings.fill(), options.route_iterations, settings.drawn);
    rows.push(("Drawn with".to_string(), way));
    rows.push((format!("May be misread on {}", settings.paper.name()), thousands(doubts.len())));
    let counts = Kind::ALL.into_iter().zip(misread::counts(doubts));
    rows.extend(counts.map(|(kind, count)| (kind.figure().to_string(), thousands(count))));
    let width = rows.iter().map(|(name, _)| name.chars().count()).max().unwrap_or(0);
    rows.iter().map(|(name, value)| format!("{name:width$}  {value}\n")).collect()
}

/// Remarks on what a reader might miss: buses without a place, branches without a run.
pub fn notes(network: &Network, drawing: &Drawing) -> Vec<String> {
    let unplaced: Vec<usize> = (0..network.buses.len()).filter(|&i| network.buses[i].at.is_none()).collect();
    let mut notes = network.notes.clone();
    if let Some(&first) = unplaced.first() {
        let count = thousands(unplaced.len());
        notes.push(format!(
            "note: buses without coordinates, counted as at (0, 0): {count}, the first is {}",
            network.bus_row(first)
        ));
    }
    let drawn = drawing.drawn();
    let undrawn: Vec<usize> = (0..drawn.len()).filter(|&e| !drawn[e]).collect();
    if let Some(&first) = undrawn.first() {
        let count = thousands(undrawn.len());
        notes.push(format!(
            "note: branches not drawn, since they have no run between two bars: {count}, the first is {}",
            network.branch_row(first)
        ));
    }
    notes
}
