//! Rows of boxes, counted from the top: which branch ends in each, for ends whose numbers found no room.
use super::scene::{Scene, Station};
use super::shape::Rect;

/// Rows are banded in so many, to be counted by.
const BAND: usize = 5;

/// What ends at one height of a box: a live run in a row of its own, or an open one between two rows.
pub struct Row {
    /// Its number from 1; between two rows, both: 7/8.
    pub name: String,
    pub run: usize,
    /// The end of the run; the first of a live one inside the box, which has one row.
    pub end: usize,
    y: f64,
}

impl Row {
    /// Whether a band of five ends with it.
    pub fn ends_five(&self) -> bool {
        self.name.parse::<usize>().is_ok_and(|row| row % BAND == 0)
    }
}

/// The rows of one box, from the top.
#[derive(Default)]
struct Box {
    rows: Vec<Row>,
    /// Whether a number of a branch found no room in it.
    counted: bool,
}

/// The rows of all boxes, by the stations' places in the scene.
pub struct Rows {
    boxes: Vec<Box>,
    /// The names of the rows at both ends of each run.
    ends: Vec<[String; 2]>,
}

impl Rows {
    pub fn new(scene: &Scene) -> Self {
        let mut rows = Rows {
            boxes: scene.stations.iter().map(|_| Box::default()).collect(),
            ends: scene.runs.iter().map(|_| Default::default()).collect(),
        };
        for (run, of) in scene.runs.iter().enumerate() {
            let ends = if of.in_one_row() { 1 } else { 2 };
            for (end, at) in of.ends().into_iter().enumerate().take(ends) {
                let place = scene.place(of.stations[end]);
                rows.boxes[place].rows.push(Row { name: String::new(), run, end, y: at[1] });
            }
        }
        rows.name(scene);
        rows
    }

    /// Sorts the rows of each box and counts the live ones.
    fn name(&mut self, scene: &Scene) {
        for list in self.boxes.iter_mut().map(|of| &mut of.rows) {
            list.sort_by(|a, b| a.y.total_cmp(&b.y).then(a.run.cmp(&b.run)));
            let mut above = 0;
            for row in list {
                let run = &scene.runs[row.run];
                row.name = if run.is_open() {
                    format!("{above}/{}", above + 1)
                } else {
                    above += 1;
                    above.to_string()
                };
                self.ends[row.run][row.end] = row.name.clone();
                if run.in_one_row() {
                    self.ends[row.run][1] = row.name.clone();
                }
            }
        }
    }

    /// The name of the row at an end of a run.
    pub fn at(&self, run: usize, end: usize) -> &str {
        &self.ends[run][end]
    }

    /// Says that a number found no room in a box.
    pub fn count(&mut self, place: usize) {
        self.boxes[place].counted = true;
    }

    /// Whether the rows of a box have to be counted.
    pub fn counted(&self, place: usize) -> bool {
        self.boxes[place].counted
    }

    /// What ends in a box, from the top.
    pub fn of(&self, place: usize) -> &[Row] {
        &self.boxes[place].rows
    }

    /// Every other five rows of a box, as wide as it is.
    pub fn bands(&self, scene: &Scene, place: usize) -> Vec<Rect> {
        let (station, half): (&Station, f64) = (&scene.stations[place], 0.5 * scene.stations[place].block);
        let live = self.of(place).iter().filter(|row| !scene.runs[row.run].is_open());
        let heights: Vec<f64> = live.map(|row| row.y).collect();
        let band = |rows: &[f64]| {
            let (left, right) = (station.rect.left, station.rect.right);
            Rect::new(left, rows[0] - half, right, rows[rows.len() - 1] + half)
        };
        heights.chunks(BAND).skip(1).step_by(2).map(band).collect()
    }
}
