//! What the title block says of a sheet's approval: its date, its revision, who drew and checked it, and the revisions before.
use crate::csv::{rows, Cell};
use crate::decode;
use crate::fault::{shown, Fault, Place};
use crate::load;
use crate::plain::one_line;
use std::path::Path;

/// A revision of the sheet.
#[derive(Clone, Debug, Default, PartialEq, Eq)]
pub struct Revision {
    pub revision: String,
    pub date: String,
    pub change: String,
    pub by: String,
}

/// Each field is empty where nothing is said: it is then left to be filled in by hand.
#[derive(Clone, Debug, Default, PartialEq, Eq)]
pub struct Approval {
    pub date: String,
    pub revision: String,
    pub drawn_by: String,
    pub checked_by: String,
    /// The oldest first.
    pub revisions: Vec<Revision>,
}

/// The options for the fields, with the longest value of each.
pub const FIELDS: [(&str, usize); 4] = [("--date", 30), ("--revision", 12), ("--drawn-by", 40), ("--checked-by", 40)];

const COLUMNS: [&str; 4] = ["revision", "date", "change", "by"];

/// The longest text of a revision.
const LONGEST: usize = 200;

/// How many revisions the sheet shows.
pub const SHOWN: usize = 3;

impl Approval {
    /// Whether anything is said.
    pub fn is_said(&self) -> bool {
        *self != Approval::default()
    }

    /// How many rows of the title block it takes: the fields with their heads, or the revisions below theirs.
    pub fn rows(&self) -> usize {
        match self.revisions.len() {
            _ if !self.is_said() => 0,
            0 => 2,
            n => (n.min(SHOWN) + 1).max(2),
        }
    }

    /// The fields with their names, in their order.
    pub fn fields(&self) -> [(&'static str, &str); 4] {
        [
            ("Date", &self.date),
            ("Revision", &self.revision),
            ("Drawn by", &self.drawn_by),
            ("Checked by", &self.checked_by),
        ]
    }

    /// Sets the field of an option; says whether there is one.
    pub fn set(&mut self, option: &str, value: &str) -> Result<bool, Fault> {
        let Some((_, most)) = FIELDS.iter().find(|(name, _)| *name == option) else { return Ok(false) };
        let text = one_line(value);
        if text.is_empty() || text.chars().count() > *most || value.chars().any(char::is_control) {
            let expected = format!("{option}: expected 1 to {most} characters on one line, found {}", shown(value));
            return Err(Fault::Usage(expected));
        }
        match option {
            "--date" => self.date = text,
            "--revision" => self.revision = text,
            "--drawn-by" => self.drawn_by = text,
            _ => self.checked_by = text,
        }
        Ok(true)
    }

    /// Takes the revisions of a file: the last one is this sheet's, with its date, unless an option says another date.
    pub fn read(&mut self, file: &str) -> Result<(), Fault> {
        let bytes = load::opened(Path::new(file))?;
        self.revisions = revisions(decode::text(&bytes, file)?, file)?;
        let Some(last) = self.revisions.last() else {
            return Err(Fault::file(file, "expected at least one revision below the header line, found none"));
        };
        if !self.revision.is_empty() && self.revision != last.revision {
            let (own, last) = (shown(&self.revision), shown(&last.revision));
            let expected = format!("expected {own}, as --revision says, as the last revision of {file}; found {last}");
            return Err(Fault::Usage(format!("--revisions: {expected}")));
        }
        self.revision = last.revision.clone();
        if self.date.is_empty() {
            self.date = last.date.clone();
        }
        Ok(())
    }
}

/// The revisions of comma-separated text.
fn revisions(text: &str, file: &str) -> Result<Vec<Revision>, Fault> {
    let mut lines = rows(text, file)?.into_iter();
    let header = lines.next().unwrap_or_default();
    let at = header.first().map_or(Place { line: 1, column: 1 }, |cell| cell.place);
    let heads: Vec<String> = header.iter().map(|cell| cell.text.trim().to_lowercase()).collect();
    let place = |name: &str| heads.iter().position(|head| head == name);
    let places: Option<Vec<usize>> = COLUMNS.iter().map(|name| place(name)).collect();
    let Some(places) = places else {
        let expected = format!("expected a header line with the columns {}", COLUMNS.join(", "));
        return Err(Fault::content(file, at, expected));
    };
    let mut list: Vec<Revision> = Vec::new();
    for row in lines {
        if row.len() != header.len() {
            let expected = format!("expected {} fields, as in the header line; found {}", header.len(), row.len());
            return Err(Fault::content(file, row[0].place, expected));
        }
        let cell = |i: usize| -> Result<String, Fault> { said(&row[places[i]], file, COLUMNS[i]) };
        let revision = Revision { revision: cell(0)?, date: cell(1)?, change: cell(2)?, by: cell(3)? };
        if revision.revision.is_empty() || list.iter().any(|other| other.revision == revision.revision) {
            let expected = "expected a revision that no other row has, found";
            let found = format!("{expected} {}", shown(&revision.revision));
            return Err(Fault::content(file, row[places[0]].place, found));
        }
        list.push(revision);
    }
    Ok(list)
}

fn said(cell: &Cell, file: &str, what: &str) -> Result<String, Fault> {
    let text = one_line(&cell.text);
    let most = match what {
        "revision" => FIELDS[1].1,
        "date" => FIELDS[0].1,
        "by" => FIELDS[2].1,
        _ => LONGEST,
    };
    if text.chars().count() > most {
        let expected = format!("expected a {what} of at most {most} characters, found {}", shown(&text));
        return Err(Fault::content(file, cell.place, expected));
    }
    Ok(text)
}

#[cfg(test)]
mod tests {
    use super::*;

    #[test]
    fn revisions_of_a_file() {
        let text = "date,revision,by,change\n2026-10-01,A,R. Ash,First issue\n2026-11-27,B,R. Ash,\"Quayside, new\"\n";
        let list = revisions(text, "f").unwrap();
        assert_eq!((list.len(), list[1].change.as_str(), list[1].revision.as_str()), (2, "Quayside, new", "B"));
        for (text, expected) in [
            ("", "f:1:1: expected a header line with the columns revision, date, change, by"),
            ("revision,date\n", "f:1:1: expected a header line with the columns revision, date, change, by"),
            ("revision,date,change,by\nA,1,x\n", "f:2:1: expected 4 fields, as in the header line; found 3"),
            ("revision,date,change,by\n,1,x,y\n", "f:2:1: expected a revision that no other row has, found ''"),
            (
                "revision,date,change,by\nA,1,x,y\nA,1,x,y\n",
                "f:3:1: expected a revision that no other row has, found 'A'",
            ),
            (
                "revision,date,change,by\nabcdefghijklm,1,x,y\n",
                "f:2:1: expected a revision of at most 12 characters, found 'abcdefghijklm'",
            ),
        ] {
            assert_eq!(revisions(text, "f").unwrap_err().to_string(), expected);
        }
    }
}
