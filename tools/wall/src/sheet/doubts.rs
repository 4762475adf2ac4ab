//! Marks at what may be misread, and its places in words.
use super::placing::Placed;
use super::shape::{distance, Point};
use super::squares::Squares;
use super::tables::{Column, Table};
use crate::misread::Place;
use crate::network::Network;
use crate::number::{list_key, thousands};
use crate::plain::one_line;
use std::collections::BTreeMap;

/// The radius of a mark, in millimetres.
pub const RADIUS: f64 = 2.2;

/// The middles of the marks: one for places that are close together.
pub fn marks(places: &[Place]) -> Vec<Point> {
    let mut list: Vec<Point> = Vec::new();
    for place in places {
        if list.iter().all(|&mark| distance(mark, place.at) > RADIUS / 2.0) {
            list.push(place.at);
        }
    }
    list
}

/// How many places there are, and the squares that they are in, each with its count.
pub fn words(places: &[Place], squares: &Squares) -> (String, Vec<String>) {
    if places.is_empty() {
        return ("May be misread at: no place found".to_string(), Vec::new());
    }
    let mut counts: BTreeMap<(String, String), usize> = BTreeMap::new();
    for place in places {
        let square = squares.name(place.at);
        *counts.entry((list_key(&square), square)).or_default() += 1;
    }
    let one = |((_, square), count): ((String, String), usize)| {
        if count == 1 {
            square
        } else {
            format!("{square} ({})", thousands(count))
        }
    };
    let what = if places.len() == 1 { "place" } else { "places" };
    let head = format!("May be misread at {} {what}: ", thousands(places.len()));
    (head, counts.into_iter().map(one).collect())
}

/// The places as a table of the index, by gravity.
pub fn table(network: &Network, squares: &Squares, placed: &Placed) -> Table {
    let number = |branch: Option<usize>| branch.map_or_else(String::new, |e| network.branches[e].number.clone());
    let row = |(i, place): (usize, &Place)| {
        let station = place.station.unwrap_or_else(|| nearest(placed, place.at));
        let bus = place.bus.map(|bus| format!(", bar {}", one_line(&network.buses[bus].name))).unwrap_or_default();
        let at = one_line(&network.station_name(station)) + &bus;
        let with = number(place.other);
        let cells = vec![squares.name(place.at), number(place.branch), place.kind.words().to_string(), with, at];
        (i.to_string(), cells)
    };
    let heads = [("Square", false), ("No.", false), ("May be misread", true), ("With", false), ("Substation", true)];
    let columns = heads.into_iter().map(|(head, breaks)| Column { head, breaks }).collect();
    let rows = placed.doubts.iter().enumerate().map(row).collect();
    let ruled = Box::new(|row| row % 5 == 4);
    Table { title: "What may be misread", key: "data-doubted", columns, rows, groups: Vec::new(), ruled }
}

/// The station whose box is nearest to a point.
fn nearest(placed: &Placed, p: Point) -> usize {
    let far = |r: &super::shape::Rect| distance(p, [p[0].clamp(r.left, r.right), p[1].clamp(r.top, r.bottom)]);
    let stations = placed.scene.stations.iter();
    stations.min_by(|a, b| far(&a.rect).total_cmp(&far(&b.rect))).map_or(0, |station| station.number)
}
