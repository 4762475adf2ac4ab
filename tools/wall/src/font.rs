//! The fonts that PDF sheets carry: which glyph a character has, and how wide it is.
use std::collections::BTreeMap;
use std::sync::OnceLock;

/// A TrueType file of font/, made by font/make.
pub struct Font {
    pub file: &'static [u8],
    pub name: &'static str,
    glyphs: BTreeMap<char, u16>,
    /// The same for the first characters, by number; 0 where there is none.
    plain: Vec<u16>,
    /// Of each glyph, in thousandths of the size.
    advances: Vec<u32>,
}

fn two(file: &[u8], at: usize) -> usize {
    usize::from(u16::from_be_bytes([file[at], file[at + 1]]))
}

fn four(file: &[u8], at: usize) -> usize {
    two(file, at) << 16 | two(file, at + 2)
}

/// Where a table begins.
fn table(file: &[u8], tag: &[u8; 4]) -> usize {
    let at = (0..two(file, 4)).map(|i| 12 + 16 * i).find(|&at| &file[at..at + 4] == tag);
    four(file, at.expect("a font has this table") + 8)
}

/// The characters of a map of format 4, with their glyphs.
fn glyphs(file: &[u8]) -> BTreeMap<char, u16> {
    let start = table(file, b"cmap");
    let map = start + four(file, start + 8);
    let count = two(file, map + 6) / 2;
    let (ends, starts) = (map + 14, map + 16 + 2 * count);
    let (deltas, ranges) = (starts + 2 * count, starts + 4 * count);
    let mut list = BTreeMap::new();
    for i in 0..count {
        let (first, range) = (two(file, starts + 2 * i), two(file, ranges + 2 * i));
        for code in first..=two(file, ends + 2 * i) {
            let glyph = match range {
                0 => code,
                _ => two(file, ranges + 2 * i + range + 2 * (code - first)),
            };
            let glyph = (glyph + two(file, deltas + 2 * i)) as u16;
            list.extend(char::from_u32(code as u32).filter(|_| glyph != 0 && code != 0xFFFF).map(|c| (c, glyph)));
        }
    }
    list
}

fn advances(file: &[u8]) -> Vec<u32> {
    let (count, em) = (two(file, table(file, b"maxp") + 4), two(file, table(file, b"head") + 18));
    let (known, start) = (two(file, table(file, b"hhea") + 34), table(file, b"hmtx"));
    (0..count).map(|i| (two(file, start + 4 * i.min(known - 1)) * 1000 / em) as u32).collect()
}

impl Font {
    fn read(file: &'static [u8], name: &'static str) -> Self {
        let glyphs = glyphs(file);
        let plain = ('\0'..'\u{180}').map(|c| glyphs.get(&c).copied().unwrap_or(0)).collect();
        Font { file, name, glyphs, plain, advances: advances(file) }
    }

    /// The regular or the bold one.
    pub fn of(bold: bool) -> &'static Font {
        static FONTS: [OnceLock<Font>; 2] = [OnceLock::new(), OnceLock::new()];
        FONTS[usize::from(bold)].get_or_init(|| match bold {
            false => Font::read(include_bytes!("../font/regular.ttf"), "DejaVuSansCondensed"),
            true => Font::read(include_bytes!("../font/bold.ttf"), "DejaVuSansCondensed-Bold"),
        })
    }

    pub fn glyph(&self, c: char) -> Option<u16> {
        match self.plain.get(c as usize) {
            Some(&glyph) => Some(glyph).filter(|&glyph| glyph > 0),
            None => self.glyphs.get(&c).copied(),
        }
    }

    /// How wide a character is, in thousandths of the size, where the font has it.
    pub fn advance(&self, c: char) -> Option<u32> {
        self.glyph(c).map(|glyph| self.advances[usize::from(glyph)])
    }

    pub fn advances(&self) -> &[u32] {
        &self.advances
    }

    /// Its characters and their glyphs.
    pub fn characters(&self) -> impl Iterator<Item = (char, u16)> + '_ {
        self.glyphs.iter().map(|(&c, &glyph)| (c, glyph))
    }
}

#[cfg(test)]
mod tests {
    use super::*;

    #[test]
    fn characters_and_widths() {
        for bold in [false, true] {
            let font = Font::of(bold);
            assert!((' '..='~')
                .chain('\u{A0}'..='\u{17F}')
                .chain(['Ж', 'Ω', '…', '−'])
                .all(|c| font.glyph(c).is_some()));
            assert_eq!((font.glyph('א'), font.glyph('水')), (None, None));
        }
        assert_eq!((Font::of(false).advance('5'), Font::of(true).advance('5')), (Some(572), Some(625)));
    }
}
