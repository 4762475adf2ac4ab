//! Comma-separated text as rows of cells, each with its place.
use crate::fault::{shown, Fault, Place};
use std::iter::Peekable;
use std::str::Chars;

#[derive(Debug)]
pub struct Cell {
    pub text: String,
    pub place: Place,
}

struct Reader<'a> {
    file: &'a str,
    separator: char,
    chars: Peekable<Chars<'a>>,
    at: Place,
}

/// What closed a cell.
#[derive(PartialEq, Eq)]
enum Close {
    Field,
    Line,
    End,
}

/// All rows of comma-separated text; lines with nothing on them are left out.
pub fn rows(text: &str, file: &str) -> Result<Vec<Vec<Cell>>, Fault> {
    rows_by(text, file, ',')
}

/// The same with fields separated by a character.
pub fn rows_by(text: &str, file: &str, separator: char) -> Result<Vec<Vec<Cell>>, Fault> {
    let mut reader = Reader { file, separator, chars: text.chars().peekable(), at: Place { line: 1, column: 1 } };
    let mut rows = Vec::new();
    loop {
        let mut row = Vec::new();
        let close = reader.row(&mut row)?;
        if row.len() > 1 || row.iter().any(|cell| !cell.text.is_empty()) {
            rows.push(row);
        }
        if close == Close::End {
            return Ok(rows);
        }
    }
}

impl Reader<'_> {
    fn row(&mut self, row: &mut Vec<Cell>) -> Result<Close, Fault> {
        loop {
            let place = self.at;
            let text = if self.chars.peek() == Some(&'"') { self.quoted()? } else { self.plain()? };
            row.push(Cell { text, place });
            match self.close()? {
                Close::Field => {}
                close => return Ok(close),
            }
        }
    }

    fn next(&mut self) -> Option<char> {
        let c = self.chars.next()?;
        if c == '\n' {
            self.at = Place { line: self.at.line + 1, column: 1 };
        } else {
            self.at.column += 1;
        }
        Some(c)
    }

    /// A cell without quotes, without the blanks around it.
    fn plain(&mut self) -> Result<String, Fault> {
        let mut text = String::new();
        while let Some(&c) = self.chars.peek() {
            match c {
                '\n' | '\r' => break,
                _ if c == self.separator => break,
                '"' => {
                    return self
                        .fail(self.at, "expected a quote only where a field begins, or doubled inside a quoted field")
                }
                _ => text.push(c),
            }
            self.next();
        }
        Ok(text.trim_matches([' ', '\t']).to_string())
    }

    /// A cell in quotes, as it stands; a doubled quote stands for one.
    fn quoted(&mut self) -> Result<String, Fault> {
        let opened = self.at;
        let mut text = String::new();
        self.next();
        loop {
            match self.next() {
                None => {
                    return self
                        .fail(opened, "expected a closing quote; the file ends inside the field that opens here")
                }
                Some('"') if self.chars.peek() == Some(&'"') => {
                    self.next();
                    text.push('"');
                }
                Some('"') => return Ok(text),
                Some(c) => text.push(c),
            }
        }
    }

    fn close(&mut self) -> Result<Close, Fault> {
        let place = self.at;
        match self.next() {
            None => Ok(Close::End),
            Some(c) if c == self.separator => Ok(Close::Field),
            Some('\n') => Ok(Close::Line),
            Some('\r') if self.chars.peek() == Some(&'\n') => {
                self.next();
                Ok(Close::Line)
            }
            Some('\r') => self.fail(place, "expected a line feed after the carriage return"),
            Some(_) => {
                let separator =
                    if self.separator == ',' { "a comma".to_string() } else { shown(&self.separator.to_string()) };
                self.fail(place, &format!("expected {separator} or the end of the line after the closing quote"))
            }
        }
    }

    fn fail<T>(&self, place: Place, expected: &str) -> Result<T, Fault> {
        Err(Fault::content(self.file, place, expected))
    }
}

#[cfg(test)]
mod tests {
    use super::*;

    fn texts(text: &str) -> Vec<Vec<String>> {
        rows(text, "f").unwrap().into_iter().map(|row| row.into_iter().map(|cell| cell.text).collect()).collect()
    }

    #[test]
    fn plain_and_quoted_cells() {
        assert_eq!(
            texts("a, b ,\"c,\"\"d\"\"\"\r\n\r\n\"x\ny\",,\n"),
            [vec!["a", "b", "c,\"d\""], vec!["x\ny", "", ""]]
        );
    }

    #[test]
    fn places_go_past_line_breaks_in_quotes() {
        let rows = rows("\"a\nbc\",d\n", "f").unwrap();
        assert_eq!(rows[0][1].place, Place { line: 2, column: 5 });
    }
}
