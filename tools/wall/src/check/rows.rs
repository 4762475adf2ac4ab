//! Columns and rows of a box, as docs/RULES.md, 'Columns' and 'Rows', has them: a bar in each column, one live branch in each row.
use super::ends::Runs;
use super::parts::{Bar, Boxed};
use super::Check;
use std::collections::{BTreeMap, HashMap};

/// The least side of a block, in millimetres, whose rows can be told apart in numbers of two decimals.
const LEAST: f64 = 0.1;

/// How far from its row an end may be, in blocks.
const OFF: f64 = 0.25;

impl Check<'_> {
    /// In each box, live branches take the rows from the first to the last, each its own. An inner one is level.
    pub fn rows(&mut self, boxes: &HashMap<usize, Boxed>, runs: &Runs) {
        let wanted = self.row_counts();
        let mut ends: BTreeMap<usize, Vec<(f64, usize)>> = BTreeMap::new();
        for (&branch, points) in runs.iter().filter(|(&branch, _)| self.network.branches[branch].service != 0) {
            let Some(stations) = self.two_stations(branch) else { continue };
            let heights = [points[0][1], points[points.len() - 1][1]];
            ends.entry(stations[0]).or_default().push((heights[0], branch));
            if stations[0] != stations[1] {
                ends.entry(stations[1]).or_default().push((heights[1], branch));
            } else if points.iter().any(|p| (p[1] - heights[0]).abs() > 0.011) {
                self.say(format!("{} runs inside its substation, and isn't level", self.network.branch_row(branch)));
            }
        }
        for (station, list) in ends {
            let Some(boxed) = boxes.get(&station) else { continue };
            self.rows_of(station, boxed, wanted[&station], &list);
        }
    }

    /// In each box, bars stand in the columns, each in its own.
    pub fn columns(&mut self, boxes: &HashMap<usize, Boxed>, bars: &HashMap<usize, Bar>) {
        let grid = &self.reading.grid;
        let mut taken: HashMap<(u32, i64), usize> = HashMap::new();
        for (number, bus) in self.network.buses.iter().enumerate() {
            let (Some(bar), Some(boxed)) = (bars.get(&number), boxes.get(&(bus.station as usize))) else { continue };
            let [left, _, right, _] = boxed.span.0;
            let wide = (right - left) / grid.wide(boxed.bars);
            let column = ((bar.x - left) / wide - grid.padding) / grid.gap;
            if wide < LEAST {
                continue;
            }
            if (column - column.round()).abs() > OFF {
                self.say(format!("{} has its bar between two columns of its box", self.network.bus_row(number)));
            } else if let Some(other) = taken.insert((bus.station, column.round() as i64), number) {
                let other = &self.network.buses[other].name;
                self.say(format!("{} has its bar on that of '{other}'", self.network.bus_row(number)));
            }
        }
    }

    pub fn two_stations(&self, branch: usize) -> Option<[usize; 2]> {
        Some(self.two_buses(branch)?.map(|bus| self.network.buses[bus].station as usize))
    }

    /// How many rows each station has.
    fn row_counts(&self) -> HashMap<usize, usize> {
        let mut counts = HashMap::new();
        for branch in (0..self.network.branches.len()).filter(|&e| self.live(e)) {
            let Some([one, two]) = self.two_stations(branch) else { continue };
            *counts.entry(one).or_insert(0) += 1;
            if one != two {
                *counts.entry(two).or_insert(0) += 1;
            }
        }
        counts
    }

    fn rows_of(&mut self, station: usize, boxed: &Boxed, rows: usize, ends: &[(f64, usize)]) {
        let [left, top, right, bottom] = boxed.span.0;
        let grid = &self.reading.grid;
        let tall = (bottom - top) / grid.high(rows);
        let wide = (right - left) / grid.wide(boxed.bars);
        if tall < LEAST || wide < LEAST {
            return;
        }
        let name = self.network.station_name(station);
        if (tall - wide).abs() > 0.02 {
            self.say(format!("substation '{name}' has a box that isn't of its bars' and rows' size"));
            return;
        }
        let mut taken: HashMap<usize, usize> = HashMap::new();
        for &(y, branch) in ends {
            let row = (y - top) / tall - grid.padding - 0.5;
            let nearest = row.round();
            let on = (row - nearest).abs() <= OFF && nearest >= 0.0 && (nearest as usize) < rows;
            if !on {
                self.say(format!("{} ends on no row of substation '{name}'", self.network.branch_row(branch)));
            } else if let Some(other) = taken.insert(nearest as usize, branch) {
                let other = &self.network.branches[other].name;
                self.say(format!(
                    "{} ends on the row of '{other}' in substation '{name}'",
                    self.network.branch_row(branch)
                ));
            }
        }
    }
}
