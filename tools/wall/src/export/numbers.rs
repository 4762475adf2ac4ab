//! Numbers of an export: with a decimal point, or with a decimal comma where fields are separated by something else.
use super::filled;
use crate::csv::Cell;
use crate::fault::{shown, Fault};
use crate::number::decimal;

/// The numbers of one file, all with the same sign for decimals.
pub struct Numbers<'a> {
    file: &'a str,
    commas: bool,
    /// The lines of the first number with a comma and of the first with a point.
    seen: [Option<usize>; 2],
}

/// The most kilovolts of a voltage that is in use.
const HIGHEST: f64 = 1_500.0;

const KV: &str = "a voltage in kV, a decimal number above 0 (0 for an unknown one is not taken)";

impl<'a> Numbers<'a> {
    pub fn new(file: &'a str, commas: bool) -> Self {
        Numbers { file, commas, seen: [None; 2] }
    }

    fn fail<T>(&self, cell: &Cell, expected: String) -> Result<T, Fault> {
        Err(Fault::content(self.file, cell.place, expected))
    }

    fn number(&mut self, cell: &Cell, what: &str) -> Result<f64, Fault> {
        let text = filled(cell, self.file, what)?;
        let text = text.trim();
        let comma = self.commas && text.contains(',');
        if !comma && !text.contains('.') {
            return self.plain(cell, text, what);
        }
        if let Some(line) = self.seen[usize::from(comma)] {
            let sign = if comma { "point" } else { "comma" };
            let expected = format!("expected {what}, with a decimal {sign} as in line {line}; found {}", shown(text));
            return self.fail(cell, expected);
        }
        let number = self.plain(cell, &text.replacen(',', ".", usize::from(comma)), what)?;
        self.seen[usize::from(!comma)].get_or_insert(cell.place.line);
        Ok(number)
    }

    fn plain(&self, cell: &Cell, text: &str, what: &str) -> Result<f64, Fault> {
        if let Some(number) = decimal(text) {
            return Ok(number);
        }
        let bare = text.to_lowercase().replace("kv", "");
        let bare = bare.trim();
        let meant = if decimal(bare).is_some() { format!("; did you mean {}?", shown(bare)) } else { String::new() };
        self.fail(cell, format!("expected {what}, found {}{meant}", shown(&cell.text)))
    }

    pub fn voltage(&mut self, cell: &Cell) -> Result<f64, Fault> {
        let kv = self.number(cell, KV)?;
        if kv <= 0.0 {
            return self.fail(cell, format!("expected {KV}, found {}", shown(&cell.text)));
        }
        Ok(kv)
    }

    /// A bus's place; it has none where a coordinate is empty.
    pub fn point(&mut self, x: &Cell, y: &Cell) -> Result<Option<[f64; 2]>, Fault> {
        let mut one = |cell: &Cell, name: &str| -> Result<Option<f64>, Fault> {
            if cell.text.trim().is_empty() {
                return Ok(None);
            }
            self.number(cell, &format!("a coordinate {name}, a decimal number or nothing")).map(Some)
        };
        Ok(one(x, "x")?.zip(one(y, "y")?).map(|(x, y)| [x, y]))
    }

    /// A remark on decimal commas.
    pub fn notes(&self) -> Vec<String> {
        let first = self.seen[0].map(|line| format!("note: {}:{line}: numbers have decimal commas", self.file));
        first.into_iter().collect()
    }
}

/// Whether a voltage looks as if it were in volts.
pub fn in_volts(kv: f64) -> bool {
    kv > HIGHEST
}
