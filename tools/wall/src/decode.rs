//! A file's bytes as text: UTF-8, with or without a byte order mark.
use crate::fault::{shown, Fault, Place};
use std::borrow::Cow;

/// The text, without its byte order mark.
pub fn text<'a>(bytes: &'a [u8], file: &str) -> Result<&'a str, Fault> {
    if bytes.starts_with(&[0xFF, 0xFE]) || bytes.starts_with(&[0xFE, 0xFF]) {
        return Err(Fault::content(file, start(), "expected UTF-8 text; this file is in UTF-16: export it as UTF-8"));
    }
    let bytes = bytes.strip_prefix(&[0xEF, 0xBB, 0xBF]).unwrap_or(bytes);
    let text = std::str::from_utf8(bytes).map_err(|error| {
        let before = String::from_utf8_lossy(&bytes[..error.valid_up_to()]).into_owned();
        let byte = bytes[error.valid_up_to()];
        Fault::content(file, end_of(&before), format!("expected UTF-8 text, found the byte {byte:02X}"))
    })?;
    match text.char_indices().find(|&(_, c)| forbidden(c)) {
        Some((at, c)) => Err(Fault::content(
            file,
            end_of(&text[..at]),
            format!("expected text, found the control character U+{:04X}", c as u32),
        )),
        None => Ok(text),
    }
}

/// The text of an export's file in UTF-8, UTF-16 or Windows-1252, and a remark where it isn't UTF-8.
pub fn any<'a>(bytes: &'a [u8], file: &str) -> Result<(Cow<'a, str>, Option<String>), Fault> {
    if let Some(text) = wide(bytes, file)? {
        let note = format!("note: {file}: read as UTF-16, as its byte order mark says");
        return Ok((Cow::Owned(allowed(text, file)?), Some(note)));
    }
    let plain = bytes.strip_prefix(&[0xEF, 0xBB, 0xBF]).unwrap_or(bytes);
    let Err(error) = std::str::from_utf8(plain) else { return Ok((Cow::Borrowed(text(bytes, file)?), None)) };
    if bytes.len() != plain.len() {
        return text(bytes, file).map(|text| (Cow::Borrowed(text), None));
    }
    let text: String = plain.iter().map(|&byte| western(byte)).collect();
    let before = String::from_utf8_lossy(&plain[..error.valid_up_to()]).into_owned();
    let (place, byte) = (end_of(&before), plain[error.valid_up_to()]);
    let note = format!(
        "note: {file}: read as Windows-1252 (Latin-1), since it isn't UTF-8: the byte {byte:02X} at {}:{} is taken as {}",
        place.line,
        place.column,
        shown(&western(byte).to_string())
    );
    Ok((Cow::Owned(allowed(text, file)?), Some(note)))
}

/// The text of bytes in UTF-16 with its byte order mark; none where they have no such mark.
fn wide(bytes: &[u8], file: &str) -> Result<Option<String>, Fault> {
    let unit: fn([u8; 2]) -> u16 = match bytes.get(..2) {
        Some([0xFF, 0xFE]) => u16::from_le_bytes,
        Some([0xFE, 0xFF]) => u16::from_be_bytes,
        _ => return Ok(None),
    };
    let units = bytes[2..].chunks(2).map(|two| match two {
        [a, b] => unit([*a, *b]),
        _ => 0xDC00,
    });
    let mut text = String::new();
    for c in char::decode_utf16(units) {
        match c {
            Ok(c) => text.push(c),
            Err(_) => return Err(Fault::content(file, end_of(&text), "expected UTF-16 text, found half a character")),
        }
    }
    Ok(Some(text))
}

/// The characters of Windows-1252 from 80 to 9F; where it has none, a control character.
const WESTERN: &str = "€\u{81}‚ƒ„…†‡ˆ‰Š‹Œ\u{8D}Ž\u{8F}\u{90}‘’“”•–—˜™š›œ\u{9D}žŸ";

fn western(byte: u8) -> char {
    match byte {
        0x80..=0x9F => WESTERN.chars().nth(usize::from(byte - 0x80)).unwrap_or(char::from(byte)),
        _ => char::from(byte),
    }
}

/// The text, where it has no character that a sheet can't hold.
fn allowed(text: String, file: &str) -> Result<String, Fault> {
    match text.char_indices().find(|&(_, c)| forbidden(c)) {
        Some((at, c)) => {
            let expected = format!("expected text, found the control character U+{:04X}", c as u32);
            Err(Fault::content(file, end_of(&text[..at]), expected))
        }
        None => Ok(text),
    }
}

/// Characters that a sheet can't hold: XML has no way to write them.
fn forbidden(c: char) -> bool {
    matches!(c, '\0'..='\u{8}' | '\u{B}' | '\u{C}' | '\u{E}'..='\u{1F}' | '\u{7F}'..='\u{9F}' | '\u{FFFE}' | '\u{FFFF}')
}

fn start() -> Place {
    Place { line: 1, column: 1 }
}

/// The place just after a text.
fn end_of(text: &str) -> Place {
    let line = text.matches('\n').count() + 1;
    let last = text.rsplit('\n').next().unwrap_or("");
    Place { line, column: last.chars().count() + 1 }
}

#[cfg(test)]
mod tests {
    use super::*;

    #[test]
    fn a_mark_is_left_out() {
        assert_eq!(text(b"\xEF\xBB\xBFname", "f").unwrap(), "name");
    }

    #[test]
    fn other_encodings() {
        let read = |bytes: &[u8]| any(bytes, "f").map(|(text, note)| (text.into_owned(), note.is_some()));
        assert_eq!(read(b"S\xFCd \x80").unwrap(), ("Süd €".to_string(), true));
        assert_eq!(read(b"\xFF\xFES\0\xFC\0").unwrap(), ("Sü".to_string(), true));
        assert_eq!(read(b"\xFE\xFF\0S\0\xFC").unwrap(), ("Sü".to_string(), true));
        assert_eq!(read("\u{FEFF}Süd".as_bytes()).unwrap(), ("Süd".to_string(), false));
        for (bytes, expected) in [
            (&b"\xFF\xFES\0\xFC"[..], "f:1:2: expected UTF-16 text, found half a character"),
            (b"\xFF\xFE\0\xD8a\0", "f:1:1: expected UTF-16 text, found half a character"),
            (b"a\x81", "f:1:2: expected text, found the control character U+0081"),
            (b"\xEF\xBB\xBFa\xFC", "f:1:2: expected UTF-8 text, found the byte FC"),
        ] {
            assert_eq!(any(bytes, "f").unwrap_err().to_string(), expected);
        }
    }

    #[test]
    fn a_bad_byte_has_its_place() {
        let fault = text(b"name\nab\xFFc", "f").unwrap_err();
        assert_eq!(fault.to_string(), "f:2:3: expected UTF-8 text, found the byte FF");
    }
}
