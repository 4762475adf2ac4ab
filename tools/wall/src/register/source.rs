//! Where the last numbers are read from: a sheet, a list of numbers, or the last export.
use super::{Entry, Register, COLUMNS, ID, RETIRED, USED};
use crate::check::reading::inner_text;
use crate::csv::{rows, Cell};
use crate::decode;
use crate::fault::{shown, Fault, Place};
use crate::load;
use crate::pdf::ATTACHED;
use std::collections::HashMap;
use std::path::Path;

/// The numbers of the last sheet: from the sheet itself, from its list, or from the export that it was drawn from.
pub fn last(word: &str) -> Result<Register, Fault> {
    let path = Path::new(word);
    if path.is_dir() {
        let network = load::network(word)?;
        return Ok(super::of(&network));
    }
    let bytes = load::opened(path)?;
    if bytes.starts_with(b"%PDF") {
        return of_pdf(&bytes, word);
    }
    let text = decode::text(&bytes, word)?;
    if !text.trim_start().starts_with('<') {
        return read(text, word);
    }
    match inner_text(text, word, ID)? {
        Some(list) => read(&list, word),
        None => Err(Fault::file(word, without())),
    }
}

fn without() -> String {
    "expected a whole sheet with its list of numbers, found none: it isn't a sheet, or a part, or of an earlier wall"
        .to_string()
}

/// The list of a PDF sheet, which is attached to it as plain text.
fn of_pdf(bytes: &[u8], file: &str) -> Result<Register, Fault> {
    match attached(bytes) {
        Some(list) => read(decode::text(list, file)?, file),
        None => Err(Fault::file(file, without())),
    }
}

/// The attached stream: as many bytes as its head says.
fn attached(bytes: &[u8]) -> Option<&[u8]> {
    let after = |bytes: &[u8], mark: &str| {
        bytes.windows(mark.len()).position(|part| part == mark.as_bytes()).map(|at| at + mark.len())
    };
    let rest = &bytes[after(bytes, ATTACHED)?..];
    let rest = &rest[after(rest, "/Length ")?..];
    let digits = rest.iter().take_while(|b| b.is_ascii_digit()).count();
    let length: usize = std::str::from_utf8(&rest[..digits]).ok()?.parse().ok()?;
    let rest = &rest[after(rest, "stream\n")?..];
    rest.get(..length)
}

/// Reads a list; each number and each used branch stands in it once.
pub fn read(text: &str, file: &str) -> Result<Register, Fault> {
    let mut lines = rows(text, file)?.into_iter();
    let start = Place { line: 1, column: 1 };
    let header: Vec<String> = lines.next().unwrap_or_default().into_iter().map(|cell| cell.text).collect();
    if header != COLUMNS {
        let expected = format!("expected a list of numbers with the header line {}", COLUMNS.join(","));
        return Err(Fault::content(file, start, expected));
    }
    let mut register = Register::default();
    let (mut numbers, mut branches) = (HashMap::new(), HashMap::new());
    for row in lines {
        let (line, count) = (row[0].place, row.len());
        let Ok([number, branch, from, to, state]) = <[Cell; 5]>::try_from(row) else {
            return Err(Fault::content(file, line, format!("expected 5 fields, found {count}")));
        };
        once(&mut numbers, &number, file, "number")?;
        let list = match state.text.as_str() {
            USED => {
                once(&mut branches, &branch, file, "branch")?;
                &mut register.used
            }
            RETIRED => &mut register.retired,
            other => {
                let expected = format!("expected {USED} or {RETIRED}, found {}", shown(other));
                return Err(Fault::content(file, state.place, expected));
            }
        };
        list.push(Entry { number: number.text, branch: branch.text, ends: [from.text, to.text] });
    }
    Ok(register)
}

fn once(seen: &mut HashMap<String, usize>, cell: &Cell, file: &str, what: &str) -> Result<(), Fault> {
    if cell.text.is_empty() {
        return Err(Fault::content(file, cell.place, format!("expected a {what}, found nothing")));
    }
    match seen.insert(cell.text.clone(), cell.place.line) {
        None => Ok(()),
        Some(line) => {
            let expected = format!(
                "expected a {what} that no other row has; {} stands in line {line} of the list too",
                shown(&cell.text)
            );
            Err(Fault::content(file, cell.place, expected))
        }
    }
}

#[cfg(test)]
mod tests {
    use super::super::written;
    use super::*;

    #[test]
    fn lists_are_read_as_they_are_written() {
        let entry = |number: &str, branch: &str| Entry {
            number: number.to_string(),
            branch: branch.to_string(),
            ends: ["A, \"1\"".to_string(), "B\nC".to_string()],
        };
        let register = Register { used: vec![entry("1", "L;1"), entry("12", " x")], retired: vec![entry("3", "L2")] };
        assert_eq!(read(&written(&register), "f").unwrap(), register);
    }

    #[test]
    fn malformed_lists() {
        let head = "number,branch,from,to,state\n";
        for (rows, expected) in [
            ("1,L,A,B\n", "f:2:1: expected 5 fields, found 4"),
            ("1,L,A,B,x\n", "f:2:9: expected used or retired, found 'x'"),
            (",L,A,B,used\n", "f:2:1: expected a number, found nothing"),
            ("1,,A,B,used\n", "f:2:3: expected a branch, found nothing"),
            (
                "1,L,A,B,used\n1,M,A,B,retired\n",
                "f:3:1: expected a number that no other row has; '1' stands in line 2 of the list too",
            ),
            (
                "1,L,A,B,used\n2,L,A,B,used\n",
                "f:3:3: expected a branch that no other row has; 'L' stands in line 2 of the list too",
            ),
        ] {
            assert_eq!(read(&format!("{head}{rows}"), "f").unwrap_err().to_string(), expected);
        }
        for text in ["", "number,branch\n", "name,from,to\nx,y,z\n"] {
            let expected = "f:1:1: expected a list of numbers with the header line number,branch,from,to,state";
            assert_eq!(read(text, "f").unwrap_err().to_string(), expected);
        }
    }
}
