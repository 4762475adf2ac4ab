//! XML as a list of elements in the order of the text: a reader of its own, which knows nothing of how sheets are written.
use crate::fault::{shown, Fault, Place};
use std::borrow::Cow;

pub struct Element<'a> {
    pub name: &'a str,
    pub attributes: Vec<(&'a str, Cow<'a, str>)>,
    /// The element that it stands in; the root has none.
    pub parent: Option<usize>,
    /// Its own text, without that of elements in it.
    pub text: Cow<'a, str>,
    pub line: usize,
}

impl Element<'_> {
    pub fn attribute(&self, name: &str) -> Option<&str> {
        self.attributes.iter().find(|(n, _)| *n == name).map(|(_, value)| value.as_ref())
    }
}

struct Reader<'a> {
    file: &'a str,
    text: &'a str,
    at: usize,
    /// Up to where lines are counted, and how many there are.
    counted: (usize, usize),
    elements: Vec<Element<'a>>,
    open: Vec<usize>,
}

/// All elements of a text, the root first; each stands after its parent.
pub fn elements<'a>(text: &'a str, file: &'a str) -> Result<Vec<Element<'a>>, Fault> {
    let mut reader = Reader { file, text, at: 0, counted: (0, 1), elements: Vec::new(), open: Vec::new() };
    while reader.at < text.len() {
        reader.step()?;
    }
    match reader.open.last() {
        Some(&i) => reader.fail(&format!("expected </{}> before the end of the file", reader.elements[i].name)),
        None if reader.elements.is_empty() => reader.fail("expected an element, found none"),
        None => Ok(reader.elements),
    }
}

fn blank(c: char) -> bool {
    matches!(c, ' ' | '\t' | '\n' | '\r')
}

fn of_name(c: char) -> bool {
    c.is_alphanumeric() || matches!(c, '-' | '.' | '_' | ':')
}

impl<'a> Reader<'a> {
    fn rest(&self) -> &'a str {
        &self.text[self.at..]
    }

    fn fail<T>(&self, expected: &str) -> Result<T, Fault> {
        let before = &self.text[..self.at];
        let last = before.rsplit('\n').next().unwrap_or("");
        let place = Place { line: before.matches('\n').count() + 1, column: last.chars().count() + 1 };
        Err(Fault::content(self.file, place, expected))
    }

    /// Reads one tag, comment or stretch of text.
    fn step(&mut self) -> Result<(), Fault> {
        let rest = self.rest();
        if let Some(inside) = rest.strip_prefix("<!--") {
            return self.past(inside, "-->").map(|_| ());
        }
        if let Some(inside) = rest.strip_prefix("<![CDATA[") {
            let text = self.past(inside, "]]>")?;
            return self.add(Cow::Borrowed(text));
        }
        if let Some(inside) = rest.strip_prefix("<?") {
            return self.past(inside, "?>").map(|_| ());
        }
        if rest.starts_with("<!") {
            return self.fail("expected an element, found a declaration");
        }
        if rest.starts_with("</") {
            return self.close();
        }
        if rest.starts_with('<') {
            return self.element();
        }
        let end = rest.find('<').unwrap_or(rest.len());
        let text = self.decoded(&rest[..end])?;
        self.at += end;
        self.add(text)
    }

    /// Goes past an end mark; gives what stands before it.
    fn past(&mut self, inside: &'a str, mark: &str) -> Result<&'a str, Fault> {
        match inside.find(mark) {
            Some(end) => {
                self.at = self.text.len() - inside.len() + end + mark.len();
                Ok(&inside[..end])
            }
            None => self.fail(&format!("expected {mark} before the end of the file")),
        }
    }

    fn add(&mut self, text: Cow<'a, str>) -> Result<(), Fault> {
        match self.open.last() {
            Some(&i) if self.elements[i].text.is_empty() => self.elements[i].text = text,
            Some(&i) => self.elements[i].text.to_mut().push_str(&text),
            None if text.chars().all(blank) => {}
            None => return self.fail("expected text only inside an element"),
        }
        Ok(())
    }

    fn close(&mut self) -> Result<(), Fault> {
        let inside = &self.rest()[2..];
        let name = inside.split(|c| !of_name(c)).next().unwrap_or("");
        let Some(&i) = self.open.last().filter(|&&i| self.elements[i].name == name) else {
            return self
                .fail(&format!("expected the end of the element that is open, found the end of {}", shown(name)));
        };
        let after = inside[name.len()..].trim_start_matches(blank);
        if !after.starts_with('>') || self.elements[i].name.is_empty() {
            return self.fail("expected > at the end of the tag");
        }
        self.at = self.text.len() - after.len() + 1;
        self.open.pop();
        Ok(())
    }

    fn element(&mut self) -> Result<(), Fault> {
        let (counted, lines) = self.counted;
        self.counted = (self.at, lines + self.text[counted..self.at].matches('\n').count());
        let inside = &self.rest()[1..];
        let name = inside.split(|c| !of_name(c)).next().unwrap_or("");
        if name.is_empty() || (self.open.is_empty() && !self.elements.is_empty()) {
            return self.fail("expected one root element, and a name after <");
        }
        self.at += 1 + name.len();
        let (line, parent) = (self.counted.1, self.open.last().copied());
        let attributes = self.attributes()?;
        self.elements.push(Element { name, attributes, parent, text: Cow::Borrowed(""), line });
        if self.rest().starts_with("/>") {
            self.at += 2;
        } else {
            self.at += 1;
            self.open.push(self.elements.len() - 1);
        }
        Ok(())
    }

    /// The attributes up to the end of the tag, which is left.
    fn attributes(&mut self) -> Result<Vec<(&'a str, Cow<'a, str>)>, Fault> {
        let mut list: Vec<(&str, Cow<'_, str>)> = Vec::new();
        loop {
            let trimmed = self.rest().trim_start_matches(blank);
            let apart = trimmed.len() < self.rest().len();
            self.at = self.text.len() - trimmed.len();
            if trimmed.starts_with('>') || trimmed.starts_with("/>") {
                return Ok(list);
            }
            let name = trimmed.split(|c| !of_name(c)).next().unwrap_or("");
            let after = &trimmed[name.len()..];
            let quote = after.strip_prefix('=').and_then(|value| value.chars().next()).filter(|c| "\"'".contains(*c));
            let (Some(quote), true, false) = (quote, apart, name.is_empty()) else {
                return self.fail("expected NAME=\"VALUE\", /> or > in the tag");
            };
            if list.iter().any(|(n, _)| *n == name) {
                return self.fail(&format!("expected each attribute once, found a second {name}"));
            }
            let Some((value, _)) = after[2..].split_once(quote).filter(|(value, _)| !value.contains('<')) else {
                return self.fail("expected the end of the attribute's value");
            };
            list.push((name, self.decoded(value)?));
            self.at += name.len() + 3 + value.len();
        }
    }

    /// A text with its references resolved.
    fn decoded(&self, text: &'a str) -> Result<Cow<'a, str>, Fault> {
        if !text.contains('&') {
            return Ok(Cow::Borrowed(text));
        }
        let mut out = String::with_capacity(text.len());
        let mut rest = text;
        while let Some(start) = rest.find('&') {
            out.push_str(&rest[..start]);
            let named = rest[start + 1..].split_once(';').and_then(|(name, after)| Some((referred(name)?, after)));
            let Some((c, after)) = named else {
                return self.fail("expected a character reference after &");
            };
            out.push(c);
            rest = after;
        }
        out.push_str(rest);
        Ok(Cow::Owned(out))
    }
}

/// The character that a reference stands for.
fn referred(name: &str) -> Option<char> {
    match name {
        "amp" => Some('&'),
        "lt" => Some('<'),
        "gt" => Some('>'),
        "quot" => Some('"'),
        "apos" => Some('\''),
        _ => {
            let digits = name.strip_prefix('#')?;
            let number = match digits.strip_prefix('x') {
                Some(hex) => u32::from_str_radix(hex, 16).ok()?,
                None => digits.parse().ok()?,
            };
            char::from_u32(number)
        }
    }
}

#[cfg(test)]
mod tests {
    use super::*;

    #[test]
    fn a_small_document() {
        let text = "<?xml version=\"1.0\"?>\n<!-- x > y -->\n<a b='1'>\n <c d=\"&lt;&#10;&quot;\"/>t&amp;<![CDATA[<u>]]></a>\n";
        let list = elements(text, "f").unwrap();
        assert_eq!((list[0].name, list[0].text.as_ref(), list[0].line), ("a", "\n t&<u>", 3));
        assert_eq!((list[1].attribute("d"), list[1].parent, list[1].line), (Some("<\n\""), Some(0), 4));
    }

    #[test]
    fn texts_that_are_not_well_formed() {
        for text in [
            "",
            "x",
            "<a>",
            "<a></b>",
            "<a/><b/>",
            "<a",
            "<a b></a>",
            "<a b=1/>",
            "<a b=\"1\" b=\"2\"/>",
            "<a>&x;</a>",
            "<a>&</a>",
            "<a b=\"<\"/>",
            "<a><!-- </a>",
            "<!DOCTYPE a><a/>",
            "<a/>x",
            "</a>",
            "<a b=\"1\"c=\"2\"/>",
            "<a></a",
            "< a/>",
            "<a b=\"1/>",
        ] {
            assert!(elements(text, "f").is_err(), "{text}");
        }
        assert_eq!(
            elements("<a>\n</b>", "f").err().unwrap().to_string(),
            "f:2:1: expected the end of the element that is open, found the end of 'b'"
        );
    }
}
