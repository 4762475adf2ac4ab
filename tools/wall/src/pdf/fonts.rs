//! The two fonts in a PDF file: TrueType, with a map from glyphs to characters, so that texts can be searched.
use super::file::File;
use crate::font::Font;

/// Adds both; gives the numbers of the regular and of the bold one.
pub fn added(file: &mut File) -> [usize; 2] {
    [false, true].map(|bold| one(file, Font::of(bold)))
}

fn one(file: &mut File, font: &Font) -> usize {
    let name = format!("WALLSH+{}", font.name);
    let data = file.stream(&format!("/Length1 {}", font.file.len()), font.file);
    let descriptor = file.add(format!(
        "<< /Type /FontDescriptor /FontName /{name} /Flags 32 /FontBBox [-1000 -500 2000 1300] /ItalicAngle 0 \
         /Ascent 928 /Descent -236 /CapHeight 729 /StemV 80 /FontFile2 {data} 0 R >>"
    ));
    let widths: Vec<String> = font.advances().iter().map(u32::to_string).collect();
    let inner = file.add(format!(
        "<< /Type /Font /Subtype /CIDFontType2 /BaseFont /{name} /CIDToGIDMap /Identity /FontDescriptor {descriptor} 0 R \
         /CIDSystemInfo << /Registry (Adobe) /Ordering (Identity) /Supplement 0 >> /W [0 [{}]] >>",
        widths.join(" ")
    ));
    let map = file.stream("", characters(font).as_bytes());
    file.add(format!(
        "<< /Type /Font /Subtype /Type0 /BaseFont /{name} /Encoding /Identity-H /DescendantFonts [{inner} 0 R] \
         /ToUnicode {map} 0 R >>"
    ))
}

/// The character of each glyph, in blocks of at most a hundred.
fn characters(font: &Font) -> String {
    let mut text = String::from(
        "/CIDInit /ProcSet findresource begin\n12 dict begin\nbegincmap\n/CMapName /Characters def\n/CMapType 2 def\n\
         /CIDSystemInfo << /Registry (Adobe) /Ordering (UCS) /Supplement 0 >> def\n\
         1 begincodespacerange\n<0000> <FFFF>\nendcodespacerange\n",
    );
    let pairs: Vec<String> =
        font.characters().map(|(c, glyph)| format!("<{glyph:04X}> <{:04X}>\n", c as u32)).collect();
    for part in pairs.chunks(100) {
        text.push_str(&format!("{} beginbfchar\n{}endbfchar\n", part.len(), part.concat()));
    }
    text + "endcmap\nCMapName currentdict /CMap defineresource pop\nend\nend\n"
}
