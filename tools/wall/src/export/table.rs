//! One file of an export: its encoding, its separator, its header line and its rows.
use super::errors::Errors;
use super::near::hint;
use crate::csv::{rows_by, Cell};
use crate::decode;
use crate::fault::{shown, Fault, Place};
use crate::number::thousands;

/// A row: the cells of the wanted columns in their order, and those of the columns that the file may have.
pub type Row<const N: usize, const M: usize> = ([Cell; N], [Option<Cell>; M]);

/// What a file is read as.
pub struct Table<const N: usize, const M: usize> {
    pub rows: Vec<Row<N, M>>,
    /// Whether numbers have a decimal comma, which they can where fields are separated by something else.
    pub commas: bool,
    /// Remarks on what was taken.
    pub notes: Vec<String>,
}

/// What separates the fields of a text, and whether its first line says so: `sep=;`.
pub fn separator(text: &str) -> (char, bool) {
    let first = text.lines().next().unwrap_or("");
    let said = first.get(..4).filter(|head| head.eq_ignore_ascii_case("sep="));
    if let Some(c) = said.and_then(|_| first[4..].chars().next()) {
        return (c, true);
    }
    let head = text.lines().find(|line| !line.trim().is_empty()).unwrap_or("");
    let count = |separator: char| {
        let mut quoted = false;
        let outside = head.chars().filter(|&c| {
            quoted ^= c == '"';
            !quoted && c == separator
        });
        outside.count()
    };
    let most = [';', '\t'].into_iter().max_by_key(|&separator| count(separator)).filter(|&s| count(s) > count(','));
    (most.unwrap_or(','), false)
}

fn words(separator: char) -> String {
    match separator {
        ';' => "semicolons".to_string(),
        '\t' => "tabs".to_string(),
        ',' => "commas".to_string(),
        other => format!("the character {}", shown(&other.to_string())),
    }
}

/// Reads a file; faults of rows are added to the errors.
pub fn read<const N: usize, const M: usize>(
    bytes: &[u8],
    file: &str,
    wanted: [&str; N],
    more: [&str; M],
    errors: &mut Errors,
) -> Result<Table<N, M>, Fault> {
    if bytes.starts_with(b"PK\x03\x04") {
        let expected = "expected comma-separated text, found an Excel workbook: save its sheet as CSV (UTF-8)";
        return Err(Fault::file(file, expected));
    }
    let (text, encoding) = decode::any(bytes, file)?;
    let (separator, said) = separator(&text);
    let mut notes: Vec<String> = encoding.into_iter().collect();
    if separator != ',' {
        notes.push(format!("note: {file}: fields are separated by {}", words(separator)));
    }
    let mut lines = rows_by(&text, file, separator)?;
    if said {
        lines.retain(|row| row[0].place.line > 1);
    }
    let blank = |row: &Vec<Cell>| row.iter().all(|cell| cell.text.trim().is_empty());
    let before = lines.len();
    lines.retain(|row| !blank(row));
    if before > lines.len() {
        notes.push(format!(
            "note: {file}: rows without anything in them, passed over: {}",
            thousands(before - lines.len())
        ));
    }
    let mut lines = lines.into_iter();
    let Some(header) = lines.next() else {
        let place = Place { line: 1, column: 1 };
        let expected = format!("expected a header line with the columns {}; the file is empty", wanted.join(", "));
        return Err(Fault::content(file, place, expected));
    };
    let places = columns(&header, wanted, file)?;
    let mut others = [None; M];
    for (place, name) in others.iter_mut().zip(more) {
        *place = optional(&header, name, file)?;
    }
    let mut rows = Vec::new();
    for mut cells in lines {
        while cells.len() > header.len() && cells.last().is_some_and(|cell| cell.text.is_empty()) {
            cells.pop();
        }
        if cells.len() != header.len() {
            errors.add(width(&cells, header.len(), file));
            continue;
        }
        let mut take = |i: usize| Cell { text: std::mem::take(&mut cells[i].text), place: cells[i].place };
        rows.push((places.map(&mut take), others.map(|place| place.map(&mut take))));
    }
    Ok(Table { rows, commas: separator != ',', notes })
}

/// The column of each wanted name in the header.
fn columns<const N: usize>(header: &[Cell], wanted: [&str; N], file: &str) -> Result<[usize; N], Fault> {
    let mut places = [0; N];
    for (place, name) in places.iter_mut().zip(wanted) {
        *place = optional(header, name, file)?.ok_or_else(|| missing(header, name, &wanted, file))?;
    }
    Ok(places)
}

/// The column of a name, where there is one.
fn optional(header: &[Cell], name: &str, file: &str) -> Result<Option<usize>, Fault> {
    let mut found = (0..header.len()).filter(|&i| header[i].text.trim().eq_ignore_ascii_case(name));
    let first = found.next();
    match found.next() {
        Some(again) => {
            let expected = format!("expected one column '{name}', found a second");
            Err(Fault::content(file, header[again].place, expected))
        }
        None => Ok(first),
    }
}

/// How many columns that were found are said.
const COLUMNS_SAID: usize = 12;

fn missing(header: &[Cell], name: &str, wanted: &[&str], file: &str) -> Fault {
    let heads: Vec<&str> = header.iter().map(|cell| cell.text.trim()).filter(|head| !head.is_empty()).collect();
    let others = heads.iter().copied().filter(|head| !wanted.iter().any(|wanted| wanted.eq_ignore_ascii_case(head)));
    let meant = super::near::meant(name, others).map_or(String::new(), |head| format!("; is it {}?", shown(head)));
    let mut found: Vec<String> = heads.iter().take(COLUMNS_SAID).map(|head| shown(head)).collect();
    if heads.len() > COLUMNS_SAID {
        found.push(format!("and {} more", heads.len() - COLUMNS_SAID));
    }
    let (wanted, found) = (wanted.join(", "), found.join(", "));
    let expected =
        format!("expected a header line with the columns {wanted}; '{name}' isn't there, found {found}{meant}");
    Fault::content(file, header[0].place, expected)
}

fn width(cells: &[Cell], wanted: usize, file: &str) -> Fault {
    let place = cells[wanted.min(cells.len() - 1)].place;
    let place = if cells.len() < wanted { cells[0].place } else { place };
    Fault::content(file, place, format!("expected {wanted} fields, as in the header line; found {}", cells.len()))
}

/// The fault of a word that isn't one of the known ones.
pub fn unknown<'a>(cell: &Cell, file: &str, expected: &str, known: impl Iterator<Item = &'a str>) -> Fault {
    let found = if cell.text.trim().is_empty() { "nothing".to_string() } else { shown(&cell.text) };
    Fault::content(file, cell.place, format!("{expected} found {found}{}", hint(&cell.text, known)))
}

#[cfg(test)]
mod tests {
    use super::separator;

    #[test]
    fn separators() {
        for (text, expected) in [
            ("a,b,c\n", (',', false)),
            ("a;b;c\n", (';', false)),
            ("\n a\tb\n", ('\t', false)),
            ("\"a;b;c\",d\n", (',', false)),
            ("sep=;\na;b\n", (';', true)),
            ("SEP=\t\na\tb\n", ('\t', true)),
            ("name\n", (',', false)),
            ("", (',', false)),
        ] {
            assert_eq!(separator(text), expected, "{text:?}");
        }
    }
}
