//! The objects of a PDF file, and where each stands in it.
use super::{number, POINTS};

pub struct File {
    /// The objects from number 1 up; the first three are kept for the catalogue, the list of pages and the title.
    objects: Vec<Vec<u8>>,
    /// The files attached, each with its name.
    attached: Vec<(&'static str, usize)>,
}

/// What stands at the head of an attached list.
pub const ATTACHED: &str = "/Type /EmbeddedFile /Subtype /text#2Fcsv";

const KEPT: usize = 3;
const PAGES: usize = 2;

impl File {
    pub fn new() -> Self {
        File { objects: vec![Vec::new(); KEPT], attached: Vec::new() }
    }

    pub fn add(&mut self, text: impl Into<Vec<u8>>) -> usize {
        self.objects.push(text.into());
        self.objects.len()
    }

    /// A stream with more entries in its dictionary.
    pub fn stream(&mut self, head: &str, bytes: &[u8]) -> usize {
        let mut object = format!("<< {head} /Length {} >>\nstream\n", bytes.len()).into_bytes();
        object.extend_from_slice(bytes);
        object.extend_from_slice(b"\nendstream");
        self.add(object)
    }

    /// Attaches a file of comma-separated text, under a name without brackets.
    pub fn attach(&mut self, name: &'static str, bytes: &[u8]) {
        let stream = self.stream(ATTACHED, bytes);
        let entry = format!("<< /Type /Filespec /F ({name}) /UF ({name}) /EF << /F {stream} 0 R >> >>");
        let number = self.add(entry);
        self.attached.push((name, number));
    }

    /// A page of a size in millimetres, on which one unit is a millimetre from the upper left corner.
    pub fn page(&mut self, [wide, high]: [f64; 2], resources: &str, content: &str) -> usize {
        let k = number(POINTS);
        let text = format!("{k} 0 0 -{k} 0 {} cm\n{content}", number(high * POINTS));
        let content = self.stream("", text.as_bytes());
        let size = format!("{} {}", number(wide * POINTS), number(high * POINTS));
        self.add(format!(
            "<< /Type /Page /Parent {PAGES} 0 R /MediaBox [0 0 {size}] /Resources {resources} /Contents {content} 0 R >>"
        ))
    }

    /// The file's bytes.
    pub fn finished(mut self, pages: &[usize], title: &str) -> Vec<u8> {
        let list: Vec<String> = pages.iter().map(|page| format!("{page} 0 R")).collect();
        let names: Vec<String> = self.attached.iter().map(|(name, file)| format!("({name}) {file} 0 R")).collect();
        let attached = format!(" /Names << /EmbeddedFiles << /Names [{}] >> >>", names.join(" "));
        let attached = if names.is_empty() { String::new() } else { attached };
        self.objects[0] = format!("<< /Type /Catalog /Pages {PAGES} 0 R{attached} >>").into_bytes();
        self.objects[1] = format!("<< /Type /Pages /Count {} /Kids [{}] >>", pages.len(), list.join(" ")).into_bytes();
        let units: String = title.encode_utf16().map(|unit| format!("{unit:04X}")).collect();
        self.objects[2] = format!("<< /Title <FEFF{units}> /Producer (wall) >>").into_bytes();
        let mut out = b"%PDF-1.5\n%\xE2\xE3\xCF\xD3\n".to_vec();
        let mut places = Vec::new();
        for (i, object) in self.objects.iter().enumerate() {
            places.push(out.len());
            out.extend_from_slice(format!("{} 0 obj\n", i + 1).as_bytes());
            out.extend_from_slice(object);
            out.extend_from_slice(b"\nendobj\n");
        }
        let start = out.len();
        let count = places.len() + 1;
        out.extend_from_slice(format!("xref\n0 {count}\n0000000000 65535 f \n").as_bytes());
        for place in places {
            out.extend_from_slice(format!("{place:010} 00000 n \n").as_bytes());
        }
        out.extend_from_slice(
            format!("trailer\n<< /Size {count} /Root 1 0 R /Info 3 0 R >>\nstartxref\n{start}\n%%EOF\n").as_bytes(),
        );
        out
    }
}
