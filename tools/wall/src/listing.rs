//! The text that `drawlist` reads and writes, for networks of any size.
use crate::fault::{shown, Fault, Place};
use crate::network::{Branch, Bus, More};
use tansygate::TxLayout;

const BUS_NAMES: &str = "sub kv x y";
const BRANCH_NAMES: &str = "from to live";

/// One line of the text, with its number from 1.
struct Line<'a> {
    file: &'a str,
    number: usize,
    text: &'a str,
}

impl Line<'_> {
    fn fail<T>(&self, column: usize, expected: String) -> Result<T, Fault> {
        Err(Fault::content(self.file, Place { line: self.number, column }, expected))
    }

    /// The fields, one space between, each with its column.
    fn fields<const N: usize>(&self, what: &str) -> Result<[(usize, &str); N], Fault> {
        let mut column = 1;
        let mut list = Vec::new();
        for field in self.text.split(' ') {
            list.push((column, field));
            column += field.chars().count() + 1;
        }
        let count = list.len();
        list.try_into()
            .or_else(|_| self.fail(1, format!("expected {N} fields with one space between ({what}), found {count}")))
    }

    fn whole(&self, (column, field): (usize, &str), most: u64, what: &str) -> Result<u64, Fault> {
        match canonical(field).filter(|&v| v <= most) {
            Some(value) => Ok(value),
            None => {
                self.fail(column, format!("expected {what}, a whole number from 0 to {most}; found {}", shown(field)))
            }
        }
    }

    fn bus_number(&self, (column, field): (usize, &str)) -> Result<i64, Fault> {
        let digits = field.strip_prefix('-').unwrap_or(field);
        match canonical(digits).filter(|&v| v > 0 || digits == field).and_then(|_| field.parse().ok()) {
            Some(value) => Ok(value),
            None => self.fail(
                column,
                format!(
                    "expected a bus number, a whole number of 64 bits with a minus where it is below 0; found {}",
                    shown(field)
                ),
            ),
        }
    }

    fn float(&self, (column, field): (usize, &str), what: &str) -> Result<f64, Fault> {
        let digit = |b: u8| matches!(b, b'0'..=b'9' | b'A'..=b'F');
        match u64::from_str_radix(field, 16) {
            Ok(bits) if field.len() == 16 && field.bytes().all(digit) => Ok(f64::from_bits(bits)),
            _ => self.fail(
                column,
                format!(
                    "expected {what} as the 16 capital hexadecimal digits of a 64-bit float, found {}",
                    shown(field)
                ),
            ),
        }
    }

    fn bus(&self) -> Result<Bus, Fault> {
        let [sub, kv, x, y] = self.fields("a bus: sub kv x y")?;
        let at = [self.float(x, "x")?, self.float(y, "y")?];
        Ok(Bus {
            name: String::new(),
            station: self.whole(sub, u64::from(u32::MAX), "a substation number")? as u32,
            kv: self.float(kv, "kv")?,
            at: Some(at).filter(|at| at.iter().all(|v| v.is_finite())),
            line: self.number,
        })
    }

    fn branch(&self) -> Result<Branch, Fault> {
        let [from, to, live] = self.fields("a branch: from to live")?;
        Ok(Branch {
            name: String::new(),
            number: String::new(),
            from: self.bus_number(from)?,
            to: self.bus_number(to)?,
            service: self.whole(live, u64::from(u8::MAX), "a service flag")? as u8,
            more: More::default(),
            line: self.number,
        })
    }
}

/// A whole number without a sign or a zero too many in front.
fn canonical(field: &str) -> Option<u64> {
    let plain = field == "0" || !field.starts_with('0') && field.bytes().all(|b| b.is_ascii_digit());
    Some(field).filter(|_| plain).and_then(|f| f.parse().ok())
}

/// The lines of a text, each closed by LF.
fn lines<'a>(text: &'a str, file: &'a str) -> Result<Vec<Line<'a>>, Fault> {
    let mut parts: Vec<&str> = text.split('\n').collect();
    let last = parts.pop().unwrap_or("");
    if !last.is_empty() {
        let place = Place { line: parts.len() + 1, column: last.chars().count() + 1 };
        return Err(Fault::content(file, place, "expected a line feed at the end of the last line"));
    }
    Ok(parts.into_iter().enumerate().map(|(i, text)| Line { file, number: i + 1, text }).collect())
}

fn names(line: Option<&Line<'_>>, names: &str, number: usize, file: &str) -> Result<(), Fault> {
    match line {
        Some(line) if line.text == names => Ok(()),
        Some(line) => line.fail(1, format!("expected the line '{names}', found {}", shown(line.text))),
        None => Err(Fault::content(
            file,
            Place { line: number, column: 1 },
            format!("expected the line '{names}', found the end of the file"),
        )),
    }
}

/// A byte order mark is none of the text's characters.
pub fn marked(file: &str) -> Fault {
    Fault::content(
        file,
        Place { line: 1, column: 1 },
        format!("expected the line '{BUS_NAMES}', found a byte order mark before it"),
    )
}

/// The buses and branches of a text; their names are their numbers, counted from 0.
pub fn read(text: &str, file: &str) -> Result<(Vec<Bus>, Vec<Branch>), Fault> {
    let lines = lines(text, file)?;
    names(lines.first(), BUS_NAMES, 1, file)?;
    let middle = lines.iter().position(|line| line.text == BRANCH_NAMES).unwrap_or(lines.len());
    let mut buses = lines[1..middle].iter().map(Line::bus).collect::<Result<Vec<_>, _>>()?;
    names(lines.get(middle), BRANCH_NAMES, lines.len() + 1, file)?;
    let mut branches = lines[middle + 1..].iter().map(Line::branch).collect::<Result<Vec<_>, _>>()?;
    for (i, bus) in buses.iter_mut().enumerate() {
        bus.name = i.to_string();
    }
    for (i, branch) in branches.iter_mut().enumerate() {
        branch.name = i.to_string();
        // Not the bare number, which may be a bus's name too.
        branch.number = format!("b{i}");
    }
    Ok((buses, branches))
}

/// `drawlist`'s output: the header line, then branch, role, start and end of each piece.
pub fn written(layout: &TxLayout) -> String {
    let mut text = String::from("branch role x0 y0 x1 y1\n");
    for (&branch, ends) in layout.segment_edge.iter().zip(layout.segments.chunks_exact(4)) {
        text.push_str(&format!("{branch} {}", layout.role[branch as usize]));
        for &end in ends {
            // Adding +0 makes every zero the positive one.
            text.push_str(&format!(" {:016X}", (end + 0.0).to_bits()));
        }
        text.push('\n');
    }
    text
}

#[cfg(test)]
mod tests {
    use super::*;

    #[test]
    fn whole_numbers_are_canonical() {
        assert_eq!(["0", "7", "10"].map(canonical), [Some(0), Some(7), Some(10)]);
        assert_eq!(["", "00", "+1", "-1", "1 ", "18446744073709551616"].map(canonical), [None; 6]);
    }

    #[test]
    fn bus_numbers() {
        let line = Line { file: "f", number: 1, text: "" };
        let number = |field| line.bus_number((1, field)).ok();
        assert_eq!(number("-9223372036854775808"), Some(i64::MIN));
        assert_eq!(number("9223372036854775807"), Some(i64::MAX));
        assert_eq!([number("-0"), number("007"), number("9223372036854775808"), number("--1")], [None; 4]);
    }
}
