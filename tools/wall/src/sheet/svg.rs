//! SVG text.
use super::lettering::Line;
use super::shape::Point;

/// An element and what it holds.
pub struct Node {
    pub name: &'static str,
    pub attributes: Vec<Attribute>,
    pub content: Content,
}

pub enum Content {
    Nothing,
    Text(String),
    /// A title, which viewers show and search.
    Title(String),
    Nodes(Vec<Node>),
}

/// Elements as they are added, the open ones with what they hold so far.
#[derive(Default)]
pub struct Svg {
    open: Vec<Node>,
    done: Vec<Node>,
}

/// An attribute's name and value.
pub type Attribute = (&'static str, String);

/// A number of millimetres, to a hundredth.
pub fn mm(x: f64) -> String {
    let mut text = String::new();
    add_mm(&mut text, x);
    text
}

/// The number that `mm` writes.
pub fn hundredths(x: f64) -> f64 {
    (100.0 * x).round() / 100.0
}

/// The same at the end of a text.
pub fn add_mm(out: &mut String, x: f64) {
    let hundredths = (100.0 * x).round() as i64;
    let (whole, rest) = (hundredths.unsigned_abs() / 100, hundredths.unsigned_abs() % 100);
    if hundredths < 0 {
        out.push('-');
    }
    push(out, whole);
    if rest > 0 {
        out.push('.');
        out.push(char::from(b'0' + (rest / 10) as u8));
        if rest % 10 > 0 {
            out.push(char::from(b'0' + (rest % 10) as u8));
        }
    }
}

fn push(out: &mut String, n: u64) {
    if n >= 10 {
        push(out, n / 10);
    }
    out.push(char::from(b'0' + (n % 10) as u8));
}

/// Adds a text with the characters that XML keeps for itself written as references.
fn add_escaped(out: &mut String, text: &str) {
    if !text.bytes().any(|b| matches!(b, b'&' | b'<' | b'>' | b'"' | b'\t' | b'\n' | b'\r')) {
        return out.push_str(text);
    }
    for c in text.chars() {
        match c {
            '&' => out.push_str("&amp;"),
            '<' => out.push_str("&lt;"),
            '>' => out.push_str("&gt;"),
            '"' => out.push_str("&quot;"),
            '\t' | '\n' | '\r' => out.push_str(&format!("&#{};", c as u32)),
            _ => out.push(c),
        }
    }
}

/// The path through points.
pub fn path(points: &[Point]) -> String {
    let mut out = String::new();
    for (i, p) in points.iter().enumerate() {
        out.push(if i == 0 { 'M' } else { 'L' });
        add_mm(&mut out, p[0]);
        out.push(' ');
        add_mm(&mut out, p[1]);
    }
    out
}

/// The path of a cross about a point.
pub fn cross([x, y]: Point, arm: f64) -> String {
    path(&[[x - arm, y - arm], [x + arm, y + arm]]) + &path(&[[x - arm, y + arm], [x + arm, y - arm]])
}

impl Node {
    pub fn attribute(&self, name: &str) -> Option<&str> {
        self.attributes.iter().find(|(key, _)| *key == name).map(|(_, value)| value.as_str())
    }

    fn write(&self, out: &mut String, deep: usize) {
        out.extend(std::iter::repeat_n(' ', deep));
        out.push('<');
        out.push_str(self.name);
        for (name, value) in &self.attributes {
            out.push(' ');
            out.push_str(name);
            out.push_str("=\"");
            add_escaped(out, value);
            out.push('"');
        }
        match &self.content {
            Content::Nothing => out.push_str("/>\n"),
            Content::Text(text) => {
                out.push('>');
                add_escaped(out, text);
                self.end(out);
            }
            Content::Title(text) => {
                out.push_str("><title>");
                add_escaped(out, text);
                out.push_str("</title>");
                self.end(out);
            }
            Content::Nodes(nodes) => {
                out.push_str(">\n");
                nodes.iter().for_each(|node| node.write(out, deep + 1));
                out.extend(std::iter::repeat_n(' ', deep));
                self.end(out);
            }
        }
    }

    fn end(&self, out: &mut String) {
        out.push_str("</");
        out.push_str(self.name);
        out.push_str(">\n");
    }
}

/// An SVG file whose outermost element is the given one.
pub fn file(root: &Node) -> String {
    let mut text = String::from("<?xml version=\"1.0\" encoding=\"UTF-8\"?>\n");
    root.write(&mut text, 0);
    text
}

impl Svg {
    fn add(&mut self, name: &'static str, attributes: &[Attribute], content: Content) {
        self.push(Node { name, attributes: attributes.to_vec(), content });
    }

    fn push(&mut self, node: Node) {
        match self.open.last_mut() {
            Some(Node { content: Content::Nodes(nodes), .. }) => nodes.push(node),
            _ => self.done.push(node),
        }
    }

    pub fn open(&mut self, name: &'static str, attributes: &[Attribute]) {
        self.open.push(Node { name, attributes: attributes.to_vec(), content: Content::Nodes(Vec::new()) });
    }

    pub fn close(&mut self) {
        if let Some(node) = self.open.pop() {
            self.push(node);
        }
    }

    pub fn leaf(&mut self, name: &'static str, attributes: &[Attribute]) {
        self.add(name, attributes, Content::Nothing);
    }

    /// An element with text in it.
    pub fn holding(&mut self, name: &'static str, attributes: &[Attribute], content: &str) {
        self.add(name, attributes, Content::Text(content.to_string()));
    }

    pub fn titled(&mut self, name: &'static str, attributes: &[Attribute], title: &str) {
        self.add(name, attributes, Content::Title(title.to_string()));
    }

    /// A line of text. It takes at most its width in the fonts that viewers have.
    pub fn line(&mut self, line: &Line, more: &[Attribute]) {
        let mut attributes = vec![("x", mm(line.at())), ("y", mm(line.y)), ("font-size", mm(line.size))];
        if let Some(anchor) = line.anchor.name() {
            attributes.push(("text-anchor", anchor.to_string()));
        }
        if line.bold {
            attributes.push(("font-weight", "bold".to_string()));
        }
        attributes.extend(more.iter().cloned());
        self.push(Node { name: "text", attributes, content: Content::Text(line.text.clone()) });
    }

    pub fn finished(mut self) -> Vec<Node> {
        while !self.open.is_empty() {
            self.close();
        }
        self.done
    }
}

#[cfg(test)]
mod tests {
    use super::*;

    #[test]
    fn numbers_and_text() {
        assert_eq!([mm(0.0), mm(-0.001), mm(12.5), mm(100.0), mm(-3.149)], ["0", "0", "12.5", "100", "-3.15"]);
        let mut escaped = String::new();
        add_escaped(&mut escaped, "a<b & \"c\"\n");
        assert_eq!(escaped, "a&lt;b &amp; &quot;c&quot;&#10;");
    }

    #[test]
    fn elements_close() {
        let mut svg = Svg::default();
        svg.open("svg", &[]);
        svg.open("g", &[("id", "a".to_string())]);
        svg.titled("path", &[("d", path(&[[0.0, 1.0], [2.0, 3.0]]))], "x>y");
        assert!(file(&svg.finished()[0])
            .ends_with("<svg>\n <g id=\"a\">\n  <path d=\"M0 1L2 3\"><title>x&gt;y</title></path>\n </g>\n</svg>\n"));
    }
}
