//! The page: only plain shapes on it, nothing outside it, no text too small, each id once.
use super::plane::Span;
use super::Check;
use std::collections::HashSet;

/// The least size of text, in millimetres.
const SMALLEST: f64 = 2.5;

/// Elements that draw nothing themselves.
const SILENT: [&str; 5] = ["svg", "g", "title", "desc", "metadata"];

const SHAPES: [&str; 7] = ["path", "rect", "circle", "line", "polyline", "polygon", "text"];

impl Check<'_> {
    pub fn page(&mut self) {
        let mut ids = HashSet::new();
        for (i, element) in self.reading.elements.iter().enumerate() {
            let (name, line) = (element.name, element.line);
            if element.attribute("id").is_some_and(|id| !ids.insert(id)) {
                self.say(format!("line {line}: the id '{}' is given twice", element.attribute("id").unwrap_or("")));
            }
            if SHAPES.contains(&name) {
                self.shape(i, line);
            } else if !SILENT.contains(&name) || (name == "svg" && i > 0) {
                self.say(format!("line {line}: an element '{name}', which a sheet doesn't have"));
            }
        }
    }

    fn shape(&mut self, i: usize, line: usize) {
        let (look, element) = (&self.reading.looks[i], &self.reading.elements[i]);
        let rim =
            if &*look.stroke == "none" || element.name == "text" { 0.0 } else { look.wide * look.map.scale() / 2.0 };
        let span = self.reading.points(i).and_then(|points| Span::around(&points));
        match span {
            None => self.say(format!("line {line}: a {} whose shape can't be read", element.name)),
            Some(_) if look.unread => {
                self.say(format!("line {line}: a {} with an attribute that can't be read", element.name))
            }
            Some(span) if !self.reading.page.grown(0.01).holds(&span.grown(rim)) => {
                let what =
                    if element.name == "text" { format!("text '{}'", element.text) } else { element.name.to_string() };
                self.say(format!("line {line}: a {what} that reaches outside the page"));
            }
            _ => {}
        }
        let size = look.size.unwrap_or(0.0) * look.map.scale();
        if element.name == "text" && size < SMALLEST - 1e-6 {
            self.say(format!("line {line}: the text '{}' is {size:.2} mm, less than {SMALLEST}", element.text));
        }
    }
}
