//! Remarks on an export that can be read, and that can hardly be meant.
use super::numbers::in_volts;
use crate::fault::shown;
use crate::network::Network;
use crate::number::{thousands, voltage};

/// A bus is far from its fellows where it is farther off than this part of the network's extent.
const FAR: f64 = 0.1;

/// All remarks; `y_up` is whether y is taken to grow upwards.
pub fn all(network: &Network, y_up: bool) -> Vec<String> {
    if network.stations.is_empty() {
        return Vec::new();
    }
    let places: Vec<[f64; 2]> = network.buses.iter().filter_map(|bus| bus.at).collect();
    let mut notes = Vec::new();
    notes.extend(volts(network));
    notes.extend(one_point(network, &places));
    notes.extend(degrees(&places).filter(|_| !y_up));
    notes.extend(astray(network, &places));
    notes
}

fn volts(network: &Network) -> Option<String> {
    let list: Vec<usize> = (0..network.buses.len()).filter(|&i| in_volts(network.buses[i].kv)).collect();
    let first = *list.first()?;
    let (count, kv) = (thousands(list.len()), network.buses[first].kv);
    let (said, meant) = (voltage(kv), voltage(kv / 1000.0));
    let row = network.bus_row(first);
    Some(format!(
        "note: voltages that look like volts, not kilovolts: {count}, the first is {said}, perhaps {meant}: {row}"
    ))
}

fn one_point(network: &Network, places: &[[f64; 2]]) -> Option<String> {
    let all = places.len() > 1 && network.stations.len() > 1 && places.iter().all(|place| *place == places[0]);
    all.then(|| {
        let [x, y] = places[0];
        format!("note: all substations stand on one point, ({x}, {y}): the drawing has no map")
    })
}

/// Places that look like longitudes and latitudes: small numbers, none of them whole.
fn degrees(places: &[[f64; 2]]) -> Option<String> {
    let within = |[x, y]: &[f64; 2]| x.abs() <= 180.0 && y.abs() <= 90.0;
    let broken = places.iter().filter(|place| place.iter().any(|v| v.fract() != 0.0)).count();
    let differ = places.iter().any(|place| *place != places[0]);
    let all = places.len() > 1 && differ && places.iter().all(within) && 2 * broken > places.len();
    all.then(|| {
        "note: coordinates look like longitudes and latitudes, which grow northwards, and y is taken to grow downwards: \
         north is drawn below; --y-up draws it above"
            .to_string()
    })
}

/// How far apart the farthest corners of all places are.
fn extent(places: &[[f64; 2]]) -> f64 {
    let side = |axis: usize| {
        let values = || places.iter().map(|place| place[axis]);
        values().fold(f64::NEG_INFINITY, f64::max) - values().fold(f64::INFINITY, f64::min)
    };
    side(0).hypot(side(1))
}

/// Buses that stand far from the middle one of their substation.
fn astray(network: &Network, places: &[[f64; 2]]) -> Vec<String> {
    let far = FAR * extent(places);
    let mut members: Vec<Vec<usize>> = vec![Vec::new(); network.stations.len()];
    for (i, bus) in network.buses.iter().enumerate().filter(|(_, bus)| bus.at.is_some()) {
        members[bus.station as usize].push(i);
    }
    let mut notes = Vec::new();
    for (station, buses) in members.iter().enumerate().filter(|(_, buses)| buses.len() > 1) {
        let at = |bus: usize| network.buses[bus].at.unwrap_or_default();
        let middle = [0, 1].map(|axis| {
            let mut values: Vec<f64> = buses.iter().map(|&bus| at(bus)[axis]).collect();
            values.sort_by(f64::total_cmp);
            values[(values.len() - 1) / 2]
        });
        let off = |bus: usize| (at(bus)[0] - middle[0]).hypot(at(bus)[1] - middle[1]);
        for &bus in buses.iter().filter(|&&bus| far > 0.0 && off(bus) > far) {
            let (name, row) = (shown(&network.stations[station]), network.bus_row(bus));
            notes.push(format!("note: a bus stands far from the others of substation {name}: {row}"));
        }
    }
    notes
}
