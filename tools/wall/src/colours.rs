//! Colours and styles of voltages: a fixed table, and a file that changes it.
use crate::csv::rows;
use crate::decode;
use crate::fault::{shown, Fault, Place};
use crate::number::decimal;

/// What runs inside a line or bar, so that it is told apart without colour.
#[derive(Clone, Copy, Debug, PartialEq, Eq)]
pub enum Style {
    Solid,
    /// A light core.
    Double,
    /// A light core in long dashes.
    Long,
    /// A light core in short dashes.
    Short,
}

impl Style {
    pub const ALL: [(&'static str, Style); 4] =
        [("solid", Style::Solid), ("double", Style::Double), ("long", Style::Long), ("short", Style::Short)];
}

#[derive(Clone, Copy, Debug, PartialEq, Eq)]
pub struct Paint {
    pub rgb: [u8; 3],
    pub style: Style,
}

/// A voltage, or a kind of them.
#[derive(Clone, Copy, Debug, PartialEq)]
enum Of {
    Kv(f64),
    /// Above 0 and below 1 kV.
    Below,
    Other,
    /// A branch between two voltages.
    Mixed,
}

pub struct Colours {
    table: Vec<(Of, Paint)>,
    pub mixed: Paint,
}

const TABLE: [(Of, [u8; 3], Style); 14] = [
    (Of::Kv(400.0), [0x1d, 0x1a, 0x6b], Style::Double),
    (Of::Kv(275.0), [0x0f, 0x6e, 0x7d], Style::Double),
    (Of::Kv(220.0), [0x7a, 0x33, 0x20], Style::Short),
    (Of::Kv(132.0), [0x3a, 0x0a, 0x3f], Style::Solid),
    (Of::Kv(110.0), [0x2e, 0x7d, 0x32], Style::Short),
    (Of::Kv(66.0), [0x17, 0x46, 0x8f], Style::Solid),
    (Of::Kv(33.0), [0x6f, 0x9a, 0x1c], Style::Double),
    (Of::Kv(22.0), [0x5a, 0x4a, 0x00], Style::Long),
    (Of::Kv(11.0), [0xb4, 0x5f, 0x06], Style::Solid),
    (Of::Kv(6.6), [0x8a, 0x5f, 0xa8], Style::Long),
    (Of::Kv(3.3), [0xb0, 0x8d, 0x57], Style::Long),
    (Of::Below, [0x9a, 0x8f, 0x86], Style::Short),
    (Of::Other, [0x10, 0x35, 0x2a], Style::Long),
    (Of::Mixed, [0x1a, 0x1a, 0x1a], Style::Short),
];

/// Lightnesses that differ by less look the same in print, on a scale from 0 to 100.
const APART: f64 = 10.0;

impl Paint {
    pub fn hex(&self) -> String {
        let [r, g, b] = self.rgb;
        format!("#{r:02x}{g:02x}{b:02x}")
    }

    /// The colour of its core, two thirds of the way to white.
    pub fn tint(&self) -> String {
        let rgb = self.rgb.map(|v| v + ((255 - u16::from(v)) * 2 / 3) as u8);
        Paint { rgb, style: self.style }.hex()
    }

    /// How light it is in greyscale: CIE 1976 L*, from 0 to 100.
    pub fn lightness(&self) -> f64 {
        let linear = |v: u8| {
            let c = f64::from(v) / 255.0;
            if c <= 0.04045 {
                c / 12.92
            } else {
                ((c + 0.055) / 1.055).powf(2.4)
            }
        };
        let [r, g, b] = self.rgb.map(linear);
        let y = 0.2126 * r + 0.7152 * g + 0.0722 * b;
        if y > 0.008856 {
            116.0 * y.cbrt() - 16.0
        } else {
            903.3 * y
        }
    }

    /// Whether two can't be told apart without colour.
    pub fn looks_like(&self, other: &Paint) -> bool {
        self.style == other.style && (self.lightness() - other.lightness()).abs() < APART
    }
}

impl Default for Colours {
    fn default() -> Self {
        let table: Vec<(Of, Paint)> = TABLE.iter().map(|&(of, rgb, style)| (of, Paint { rgb, style })).collect();
        let mixed = table[table.len() - 1].1;
        Colours { table, mixed }
    }
}

impl Colours {
    fn get(&self, of: Of) -> Option<Paint> {
        self.table.iter().find(|(key, _)| *key == of).map(|(_, paint)| *paint)
    }

    pub fn of(&self, kv: f64) -> Paint {
        let kind = if kv > 0.0 && kv < 1.0 { Of::Below } else { Of::Other };
        self.get(Of::Kv(kv)).or_else(|| self.get(kind)).unwrap_or(self.mixed)
    }

    fn set(&mut self, of: Of, paint: Paint) {
        match self.table.iter_mut().find(|(key, _)| *key == of) {
            Some(row) => row.1 = paint,
            None => self.table.push((of, paint)),
        }
        if of == Of::Mixed {
            self.mixed = paint;
        }
    }

    /// The table with the rows of a file in place of its own: columns kv, colour and style, in this order.
    pub fn read(bytes: &[u8], file: &str) -> Result<Self, Fault> {
        let mut colours = Colours::default();
        let mut lines = rows(decode::text(bytes, file)?, file)?.into_iter();
        let start = Place { line: 1, column: 1 };
        let header = lines.next().unwrap_or_default();
        let heads: Vec<String> = header.iter().map(|cell| cell.text.trim().to_lowercase()).collect();
        if heads != ["kv", "colour", "style"] {
            return Err(Fault::content(file, start, "expected the header line kv,colour,style"));
        }
        let mut seen: Vec<Of> = Vec::new();
        for cells in lines {
            let [kv, colour, style] = &cells[..] else {
                return Err(Fault::content(file, cells[0].place, format!("expected 3 fields, found {}", cells.len())));
            };
            let wrong = |cell: &crate::csv::Cell, what: &str| {
                Fault::content(file, cell.place, format!("expected {what}, found {}", shown(&cell.text)))
            };
            let of = voltage(kv.text.trim())
                .ok_or_else(|| wrong(kv, "a voltage in kV above 0, or 'below 1', 'other' or 'mixed'"))?;
            let rgb = rgb(colour.text.trim()).ok_or_else(|| wrong(colour, "a colour as #rrggbb"))?;
            let style = self::style(style.text.trim()).ok_or_else(|| wrong(style, "solid, double, long or short"))?;
            if seen.contains(&of) {
                return Err(wrong(kv, "each voltage once"));
            }
            seen.push(of);
            colours.set(of, Paint { rgb, style });
        }
        Ok(colours)
    }
}

fn voltage(text: &str) -> Option<Of> {
    match text.to_lowercase().as_str() {
        "below 1" => Some(Of::Below),
        "other" => Some(Of::Other),
        "mixed" => Some(Of::Mixed),
        number => decimal(number).filter(|kv| *kv > 0.0).map(Of::Kv),
    }
}

fn rgb(text: &str) -> Option<[u8; 3]> {
    let digits = text.strip_prefix('#').filter(|d| d.len() == 6 && d.bytes().all(|b| b.is_ascii_hexdigit()))?;
    let part = |i: usize| u8::from_str_radix(&digits[2 * i..2 * i + 2], 16).ok();
    Some([part(0)?, part(1)?, part(2)?])
}

fn style(text: &str) -> Option<Style> {
    Style::ALL.iter().find(|(name, _)| name.eq_ignore_ascii_case(text)).map(|(_, style)| *style)
}

#[cfg(test)]
mod tests {
    use super::*;

    /// What a reader who can't see red, green or blue light sees of a colour (Machado, Oliveira and Fernandes, 2009).
    const SEEN: [[[f64; 3]; 3]; 3] = [
        [[0.152286, 1.052583, -0.204868], [0.114503, 0.786281, 0.099216], [-0.003882, -0.048116, 1.051998]],
        [[0.367322, 0.860646, -0.227968], [0.280085, 0.672501, 0.047413], [-0.011820, 0.042940, 0.968881]],
        [[1.255528, -0.076749, -0.178779], [-0.078411, 0.930809, 0.147602], [0.004733, 0.691367, 0.303900]],
    ];

    fn seen(paint: Paint, by: [[f64; 3]; 3]) -> Paint {
        let linear = |v: u8| (f64::from(v) / 255.0).powf(2.2);
        let [r, g, b] = paint.rgb.map(linear);
        let back = |row: [f64; 3]| {
            let c = (row[0] * r + row[1] * g + row[2] * b).clamp(0.0, 1.0);
            (c.powf(1.0 / 2.2) * 255.0).round() as u8
        };
        Paint { rgb: by.map(back), style: paint.style }
    }

    #[test]
    fn told_apart_without_colour() {
        let table = Colours::default().table;
        for (i, (of, a)) in table.iter().enumerate() {
            assert!(a.lightness() < 64.0, "{of:?} is dark enough for a thin line");
            for (other, b) in &table[..i] {
                assert!(!a.looks_like(b), "{of:?} and {other:?} in grey");
                for by in SEEN {
                    assert!(!seen(*a, by).looks_like(&seen(*b, by)), "{of:?} and {other:?} by a colour-blind reader");
                }
            }
        }
    }

    #[test]
    fn colours_belong_to_voltages() {
        let colours = Colours::default();
        assert_eq!([66.0, 11.0].map(|kv| colours.of(kv).hex()), ["#17468f", "#b45f06"]);
        assert_eq!((colours.of(0.4), colours.of(0.23)), (colours.of(0.415), colours.of(0.9)));
        assert_eq!((colours.of(20.0), colours.of(0.0)), (colours.of(345.0), colours.of(1.0)));
    }

    #[test]
    fn a_file_changes_rows() {
        let colours = Colours::read(b"kv,colour,style\n20,#123456,double\nmixed,#ABCDEF,solid\n", "f").unwrap();
        assert_eq!((colours.of(20.0).hex(), colours.of(20.0).style), ("#123456".to_string(), Style::Double));
        assert_eq!((colours.mixed.hex(), colours.of(66.0)), ("#abcdef".to_string(), Colours::default().of(66.0)));
        for (text, expected) in [
            ("", "f:1:1: expected the header line kv,colour,style"),
            ("kv,colour,style\n20,#12345,long\n", "f:2:4: expected a colour as #rrggbb, found '#12345'"),
            ("kv,colour,style\n20,#123456,dotted\n", "f:2:12: expected solid, double, long or short, found 'dotted'"),
            (
                "kv,colour,style\n20,#123456,long\n20.0,#123456,long\n",
                "f:3:1: expected each voltage once, found '20.0'",
            ),
            (
                "kv,colour,style\n0,#123456,long\n",
                "f:2:1: expected a voltage in kV above 0, or 'below 1', 'other' or 'mixed', found '0'",
            ),
            ("kv,colour,style\n20,#123456\n", "f:2:1: expected 3 fields, found 2"),
        ] {
            assert_eq!(Colours::read(text.as_bytes(), "f").err().unwrap().to_string(), expected);
        }
    }
}
