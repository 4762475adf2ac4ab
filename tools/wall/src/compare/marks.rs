//! Changes on a sheet: a broad bright line along what differs, and beside it a number with what has happened.
use super::ink::{Ink, Words};
use super::places::Places;
use super::table::Table;
use super::{Item, Kind};
use crate::check::reading::{read, Part, Reading};
use crate::check::{Point, Span};
use crate::fault::Fault;
use crate::network::Network;
use crate::paper::Paper;
use crate::sheet::lettering::width;
use crate::sheet::shape::Rect;
use crate::sheet::svg::{file, Node};
use std::collections::HashMap;

/// The colours of the broad lines, of the marks beside them and behind their words.
const BRIGHT: &str = "#ffe14d";
const DARK: &str = "#8f0068";
const PALE: &str = "#fff6c2";

/// How far the broad lines reach beyond what they are under.
const BROAD: f64 = 1.1;

/// Puts changes on a sheet: broad lines under the runs, marks over the drawing, the table in the panel.
pub fn mark(
    sheet: &mut Node,
    items: &[Item],
    networks: [&Network; 2],
    paper: Paper,
    panel: &Rect,
) -> Result<(), Fault> {
    let text = file(sheet);
    let reading = read(&text, "the sheet")?;
    let table = &Table::new(items, networks, paper, &|item| squares(&reading, item, networks[1]));
    let mut places = Places::new(&reading, panel);
    let (mut below, mut above) = (Ink::group("changed"), Ink::group("changes"));
    let parts = [Kind::Substation, Kind::Bus, Kind::Branch].map(|kind| by_number(&reading, kind));
    let mut marks = Vec::new();
    for item in items.iter().filter(|item| !item.is_removed()) {
        let Some(part) = item.new.and_then(|n| parts[item.kind as usize].get(&n)) else { continue };
        let Some(way) = way(part, item.kind) else { continue };
        below.line(&way, BRIGHT, broad(&reading, part, item.kind));
        let words: Vec<&str> = item.differences.iter().map(|d| d.change.mark()).collect();
        let name = match (item.kind, item.new) {
            (Kind::Branch, Some(e)) => networks[1].branches[e].number.clone(),
            (kind, _) => kind.word().to_string(),
        };
        let text = format!("{name} {}", words.join(", "));
        let (at, rect) = places.best(&way, [width(&text, table.size, true) + 1.2, 1.4 * table.size]);
        marks.push((text, at, rect));
    }
    for (text, at, r) in &marks {
        above.line(&[*at, [at[0].clamp(r.left, r.right), at[1].clamp(r.top, r.bottom)]], DARK, 0.25);
        above.rect(r, PALE, DARK);
        let place = [r.left + 0.6, r.middle()[1] + 0.36 * table.size];
        above.words(&Words { text, at: place, size: table.size, bold: true, colour: DARK });
    }
    table.draw(&mut above, panel);
    below.into(sheet, "fives");
    above.into(sheet, "");
    Ok(())
}

/// The squares of an item that is on the sheet: those of its substations.
fn squares(reading: &Reading<'_>, item: &Item, new: &Network) -> String {
    let of_bus = |bus: usize| new.buses[bus].station as usize;
    let stations: Vec<usize> = match (item.kind, item.new) {
        (Kind::Branch, Some(e)) => {
            let row = &new.branches[e];
            [row.from, row.to].into_iter().filter_map(|bus| new.known(bus)).map(of_bus).collect()
        }
        (Kind::Bus, Some(bus)) => vec![of_bus(bus)],
        (_, station) => station.into_iter().collect(),
    };
    let square = |station: usize| {
        let part = reading.boxes.iter().find(|part| part.number == Some(station))?;
        reading.square(Span::around(&part.stretches.as_ref()?.concat())?.middle())
    };
    let mut list: Vec<String> = stations.into_iter().filter_map(square).collect();
    list.dedup();
    list.join("–")
}

/// The width of the broad line: a bar has a rim of its own, nearly twice as wide as it is.
fn broad(reading: &Reading<'_>, part: &Part, kind: Kind) -> f64 {
    let wide = reading.looks[part.element].wide;
    2.0 * BROAD + if kind == Kind::Bus { 1.8 * wide } else { wide }
}

fn by_number<'a>(reading: &'a Reading<'_>, kind: Kind) -> HashMap<usize, &'a Part> {
    let parts = match kind {
        Kind::Substation => &reading.boxes,
        Kind::Bus => &reading.bars,
        Kind::Branch => &reading.runs,
    };
    parts.iter().filter_map(|part| Some((part.number?, part))).collect()
}

/// The line to be made bright: a run, a bar, or all round a box.
fn way(part: &Part, kind: Kind) -> Option<Vec<Point>> {
    let mut points = part.stretches.as_ref()?.concat();
    if kind == Kind::Substation {
        points.extend(points.first().copied());
    }
    Some(points).filter(|points| points.len() > 1)
}
