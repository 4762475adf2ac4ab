//! Words of text: whole numbers in decimal, floats as the 16 capital hexadecimal digits of their bits.

/// A decimal whole number, with a minus only before a nonzero one where `signed`, and no leading zero; none where the text is another or the number is outside.
pub fn whole(word: &[u8], signed: bool, least: i128, most: i128) -> Option<i128> {
    let (minus, digits) = match word {
        [b'-', rest @ ..] if signed => (true, rest),
        all => (false, all),
    };
    if digits.is_empty() || !digits.iter().all(u8::is_ascii_digit) {
        return None;
    }
    if digits[0] == b'0' && (minus || digits.len() > 1) {
        return None;
    }
    let mut size: i128 = 0;
    for d in digits {
        size = (size * 10 + i128::from(d - b'0')).min(1 << 100);
    }
    let value = if minus { -size } else { size };
    (least <= value && value <= most).then_some(value)
}

/// The bits that 16 capital hexadecimal digits spell.
pub fn bits(word: &[u8]) -> Option<u64> {
    let digit = |d: &u8| match d {
        b'0'..=b'9' => Some(u64::from(d - b'0')),
        b'A'..=b'F' => Some(u64::from(d - b'A') + 10),
        _ => None,
    };
    if word.len() != 16 {
        return None;
    }
    word.iter().try_fold(0, |sum, d| Some(sum << 4 | digit(d)?))
}

pub fn hex(bits: u64) -> String {
    format!("{bits:016X}")
}

/// A float's bits, every NaN as one and, where `plain`, every zero as +0.
pub fn float(x: f64, plain: bool) -> String {
    if x.is_nan() {
        hex(0x7FF8_0000_0000_0000)
    } else if plain && x == 0.0 {
        hex(0)
    } else {
        hex(x.to_bits())
    }
}

/// A line: its name, then its words, one space before each.
pub fn line(name: &str, words: impl IntoIterator<Item = String>) -> String {
    let mut out = name.to_string();
    for w in words {
        out.push(' ');
        out.push_str(&w);
    }
    out.push('\n');
    out
}
