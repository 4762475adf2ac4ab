//! What is refused so that nothing good is replaced by something empty or illegible.
use crate::args::Settings;
use crate::drawing::Drawing;
use crate::fault::Fault;
use crate::network::Network;
use crate::sheet;

/// The least side of a block, in millimetres, in whose strips text of 2.5 mm has room.
const LEAST: f64 = 1.92;

/// A station is far off where boxes would be so many times as large without it and those that are as far.
const SMALLER: f64 = 2.0;

/// A fault where an export has no rows.
pub fn has_rows(network: &Network, settings: &Settings) -> Result<(), Fault> {
    let first = network.sources.first().map_or("", |s| &s.path);
    let last = network.sources.last().map_or("", |s| &s.path);
    for (rows, path, what) in [(network.buses.len(), first, "bus"), (network.branches.len(), last, "branch")] {
        if rows == 0 && !settings.allow_empty {
            let wish = format!("expected at least one {what}, found none; --allow-empty takes it so");
            return Err(Fault::file(path, wish));
        }
    }
    Ok(())
}

/// The first bus of each station, by station number; none where it has no bus.
fn first_buses(network: &Network) -> Vec<Option<usize>> {
    let most = network.buses.iter().map(|bus| bus.station as usize + 1).max().unwrap_or(0);
    let mut first = vec![None; most];
    for (i, bus) in network.buses.iter().enumerate() {
        first[bus.station as usize].get_or_insert(i);
    }
    first
}

/// A fault where a station has no bus with coordinates: nobody knows where it stands.
pub fn has_places(network: &Network, settings: &Settings) -> Result<(), Fault> {
    if settings.anyway {
        return Ok(());
    }
    let first = first_buses(network);
    let placed = network.placed_stations();
    let mut without = first.iter().enumerate().filter_map(|(s, bus)| Some((s, (*bus)?))).filter(|&(s, _)| !placed[s]);
    let Some((station, bus)) = without.next() else { return Ok(()) };
    let name = network.station_name(station);
    let others = match without.count() {
        0 => String::new(),
        n => format!(", and {n} others"),
    };
    Err(Fault::Sheet(format!(
        "substation '{name}' has no coordinates: {}{others}; --anyway draws it at (0, 0)",
        network.bus_row(bus)
    )))
}

/// A fault where one station, or a few, lie so far off that all boxes become too small to read.
pub fn is_legible(network: &Network, drawing: &Drawing, settings: &Settings) -> Result<(), Fault> {
    let unit = drawing.layout.unit;
    let first = first_buses(network);
    let mut stations: Vec<usize> = (0..first.len()).filter(|&s| first[s].is_some()).collect();
    if settings.anyway || stations.is_empty() {
        return Ok(());
    }
    let middles: Vec<[f64; 2]> = first.iter().enumerate().map(|(s, _)| middle(corners(drawing, s))).collect();
    let centre = [0, 1].map(|axis| median(stations.iter().map(|&s| middles[s][axis]).collect()));
    let off = |s: usize| (middles[s][0] - centre[0]).hypot(middles[s][1] - centre[1]);
    stations.sort_by(|&a, &b| off(b).total_cmp(&off(a)));
    let whole = unit * sheet::scale(settings, around(drawing, &stations), unit);
    if whole >= LEAST {
        return Ok(());
    }
    let most = (stations.len() / 10).max(1).min(stations.len() - 1);
    let larger =
        |&count: &usize| unit * sheet::scale(settings, around(drawing, &stations[count..]), unit) >= SMALLER * whole;
    let (Some(count), Some(bus)) = ((1..=most).find(larger), first[stations[0]]) else { return Ok(()) };
    let which = if count == 1 { String::new() } else { format!("the farthest of {count}, ") };
    Err(Fault::Sheet(format!(
        "{which}{} lies so far off that rows in boxes are {whole:.2} mm apart, and names need {LEAST}; --anyway draws it so",
        network.bus_row(bus)
    )))
}

fn corners(drawing: &Drawing, station: usize) -> &[f64] {
    &drawing.layout.boxes[4 * station..4 * station + 4]
}

fn middle(b: &[f64]) -> [f64; 2] {
    [(b[0] + b[2]) / 2.0, (b[1] + b[3]) / 2.0]
}

fn median(mut list: Vec<f64>) -> f64 {
    list.sort_by(f64::total_cmp);
    list[list.len() / 2]
}

/// What the boxes of stations take up.
fn around(drawing: &Drawing, stations: &[usize]) -> [f64; 4] {
    let first = corners(drawing, stations[0]);
    stations.iter().map(|&s| corners(drawing, s)).fold([first[0], first[1], first[2], first[3]], |r, b| {
        [r[0].min(b[0]), r[1].min(b[1]), r[2].max(b[2]), r[3].max(b[3])]
    })
}
