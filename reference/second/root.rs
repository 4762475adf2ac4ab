//! `hypot`: the exact root of the sum of two squares, rounded to nearest, ties to even, decided over numbers of 256 bits.

/// High and low half.
type Wide = (u128, u128);

fn raised(x: u128, by: u32) -> Wide {
    match by {
        0 => (0, x),
        1..=127 => (x >> (128 - by), x << by),
        _ => (x << (by - 128), 0),
    }
}

fn plus(a: Wide, b: Wide) -> Wide {
    let (low, carry) = a.1.overflowing_add(b.1);
    (a.0 + b.0 + u128::from(carry), low)
}

/// A float of at least 0 as significand and exponent above that of the least subnormal.
fn taken_apart(x: f64) -> (u128, u32) {
    let (stored, fraction) = ((x.to_bits() >> 52) as u32, u128::from(x.to_bits() << 12 >> 12));
    if stored == 0 { (fraction, 0) } else { (fraction + (1 << 52), stored - 1) }
}

/// q × 2^e of the least subnormals, q at most 2^53.
fn put_together(q: u64, e: u32) -> f64 {
    // One carry from the significand raises the exponent, also from the subnormals up and from the largest to infinity.
    let bits = if q < 1 << 52 { q } else { (u64::from(e) << 52) + q };
    if bits >= 0x7FF << 52 { f64::INFINITY } else { f64::from_bits(bits) }
}

pub fn hypot(x: f64, y: f64) -> f64 {
    if x.is_infinite() || y.is_infinite() {
        return f64::INFINITY;
    }
    if x.is_nan() || y.is_nan() {
        return f64::NAN;
    }
    let (mut a, mut b) = (x.abs(), y.abs());
    if a < b {
        (a, b) = (b, a);
    }
    let ((ma, ea), (mb, eb)) = (taken_apart(a), taken_apart(b));
    let apart = ea - eb;
    // The root is less than b × b / (2 × a) above a: far below half of a's last place.
    if mb == 0 || apart > 40 {
        return a;
    }
    // Four times the sum of squares, in units of 2^eb squared.
    let four = plus(raised(ma * ma, 2 * apart + 2), raised(mb * mb, 2));
    // Whether twice the root is above `twice` × 2^k; or at it.
    let above = |twice: u64, k: u32| four > raised(u128::from(twice) * u128::from(twice), 2 * k);
    let at = |twice: u64, k: u32| four == raised(u128::from(twice) * u128::from(twice), 2 * k);
    let (high, low) = ((ma << apart) as f64, mb as f64);
    let about = (high * high + low * low).sqrt() as u128;
    let mut k = (128 - about.leading_zeros()).saturating_sub(53);
    // The least k that leaves at most 53 bits: the root is below 2^(53 + k).
    while k > 0 && !above(1 << 53, k) && !at(1 << 53, k) {
        k -= 1;
    }
    while above(1 << 54, k) || at(1 << 54, k) {
        k += 1;
    }
    let mut q = (about >> k) as u64;
    while above(2 * q + 1, k) || q % 2 == 1 && at(2 * q + 1, k) {
        q += 1;
    }
    while q > 0 && (!above(2 * q - 1, k) && !at(2 * q - 1, k) || q % 2 == 1 && at(2 * q - 1, k)) {
        q -= 1;
    }
    put_together(q, k + eb)
}
