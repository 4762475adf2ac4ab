//! Names as they are shown: on one line, with characters that can't be seen written as escapes.

/// Whether a character turns the direction of the text around it.
pub fn turns(c: char) -> bool {
    matches!(c, '\u{61C}' | '\u{200E}' | '\u{200F}' | '\u{202A}'..='\u{202E}' | '\u{2066}'..='\u{2069}')
}

/// Whether a character takes no room and leaves no ink.
pub fn unseen(c: char) -> bool {
    matches!(c, '\u{AD}' | '\u{34F}' | '\u{115F}' | '\u{1160}' | '\u{17B4}' | '\u{17B5}' | '\u{180B}'..='\u{180F}')
        || matches!(c, '\u{200B}'..='\u{200D}' | '\u{2060}'..='\u{2065}' | '\u{206A}'..='\u{206F}' | '\u{3164}')
        || matches!(c, '\u{FE00}'..='\u{FE0F}' | '\u{FEFF}' | '\u{FFA0}' | '\u{FFF0}'..='\u{FFFB}')
        || matches!(c, '\u{1D173}'..='\u{1D17A}' | '\u{E0000}'..='\u{E0FFF}')
}

/// The text with directions and characters that can't be seen written as escapes: `<U+202E>`.
pub fn visible(text: &str) -> String {
    if text.is_ascii() {
        return text.to_string();
    }
    let mut out = String::with_capacity(text.len());
    for c in text.chars() {
        if turns(c) || unseen(c) {
            out.push_str(&format!("<U+{:04X}>", c as u32));
        } else {
            out.push(c);
        }
    }
    out
}

/// The same on one line: blanks and line breaks become single spaces.
pub fn one_line(text: &str) -> String {
    spaced(&visible(text))
}

/// The words of a text with single spaces between them.
pub fn spaced(text: &str) -> String {
    let mut out = String::with_capacity(text.len());
    for word in text.split_whitespace() {
        if !out.is_empty() {
            out.push(' ');
        }
        out.push_str(word);
    }
    out
}

#[cfg(test)]
mod tests {
    use super::*;

    #[test]
    fn what_cannot_be_seen_is_written() {
        assert_eq!(one_line("Bay\u{202E}21\u{202C} \n x"), "Bay<U+202E>21<U+202C> x");
        assert_eq!(one_line("a\u{A0}\u{200B}b"), "a <U+200B>b");
        assert_eq!(visible("Süd\nspare"), "Süd\nspare");
    }
}
