//! Decimal numbers as people write them, and how numbers are shown.

/// A finite decimal number: digits with an optional sign, point and exponent.
pub fn decimal(text: &str) -> Option<f64> {
    let unsigned = text.strip_prefix(['-', '+']).unwrap_or(text);
    let (mantissa, exponent) = match unsigned.split_once(['e', 'E']) {
        Some((mantissa, exponent)) => (mantissa, Some(exponent)),
        None => (unsigned, None),
    };
    let (whole, part) = mantissa.split_once('.').unwrap_or((mantissa, ""));
    let digits = |s: &str| s.bytes().all(|b| b.is_ascii_digit());
    let power = |e: &str| {
        let e = e.strip_prefix(['-', '+']).unwrap_or(e);
        !e.is_empty() && digits(e)
    };
    if whole.len() + part.len() == 0 || !digits(whole) || !digits(part) || !exponent.is_none_or(power) {
        return None;
    }
    text.parse().ok().filter(|x: &f64| x.is_finite())
}

/// A figure with about three digits.
pub fn short(x: f64) -> String {
    if x.is_infinite() {
        return "none".to_string();
    }
    match x.abs() {
        a if a >= 1e7 || (a != 0.0 && a < 0.001) => format!("{x:.2e}"),
        a if a >= 100.0 => format!("{x:.0}"),
        a if a >= 10.0 => format!("{x:.1}"),
        _ => format!("{x:.2}"),
    }
}

/// A whole number with commas between thousands.
pub fn thousands(n: usize) -> String {
    let digits = n.to_string();
    let mut groups: Vec<&str> = Vec::new();
    let mut rest = digits.as_str();
    while rest.len() > 3 {
        let (front, back) = rest.split_at(rest.len() - 3);
        groups.push(back);
        rest = front;
    }
    groups.push(rest);
    groups.reverse();
    groups.join(",")
}

/// A voltage in kV.
pub fn voltage(kv: f64) -> String {
    match kv.abs() {
        a if a.is_finite() && (0.001..1e6).contains(&a) => format!("{kv} kV"),
        _ => format!("{kv:e} kV"),
    }
}

/// What a text stands by in a list: its small letters, with numbers in it by their size.
pub fn list_key(text: &str) -> String {
    let small = text.to_lowercase();
    let mut key = String::new();
    let mut rest = small.as_str();
    while let Some(start) = rest.find(|c: char| c.is_ascii_digit()) {
        let (before, from) = rest.split_at(start);
        let (digits, after) = from.split_at(from.find(|c: char| !c.is_ascii_digit()).unwrap_or(from.len()));
        key.push_str(before);
        key.push_str(&format!("{digits:0>20}"));
        rest = after;
    }
    key + rest
}

/// The middle one of the finite numbers, in order.
pub fn median(list: &[f64]) -> Option<f64> {
    let mut finite: Vec<f64> = list.iter().copied().filter(|x| x.is_finite()).collect();
    finite.sort_by(f64::total_cmp);
    finite.get(finite.len() / 2).copied()
}

#[cfg(test)]
mod tests {
    use super::*;

    #[test]
    fn decimals() {
        assert_eq!(decimal("-12.50"), Some(-12.5));
        assert_eq!(decimal("+.5e3"), Some(500.0));
        for wrong in ["", ".", "e5", "1e", "1,5", "inf", "NaN", "0x1", "1 2", "1e999", "--1"] {
            assert_eq!(decimal(wrong), None, "{wrong}");
        }
    }

    #[test]
    fn shown_numbers() {
        assert_eq!([short(0.0), short(1.234), short(45.67), short(1234.5)], ["0.00", "1.23", "45.7", "1234"]);
        assert_eq!([thousands(7), thousands(4096), thousands(1234567)], ["7", "4,096", "1,234,567"]);
        let mut names = ["b 10", "B 9", "a10", "A 2", "b 9 x"];
        names.sort_by_cached_key(|name| list_key(name));
        assert_eq!(names, ["A 2", "a10", "B 9", "b 9 x", "b 10"]);
        assert_eq!([voltage(66.0), voltage(0.4), voltage(5e-324)], ["66 kV", "0.4 kV", "5e-324 kV"]);
    }
}
