//! `hypot` by docs/RULES.md, 'Hypot': the root of the sum of both squares, rounded once, decided over whole numbers.
use std::cmp::Ordering;

pub trait ExactHypot {
    fn exact_hypot(self, other: f64) -> f64;
}

impl ExactHypot for f64 {
    fn exact_hypot(self, other: f64) -> f64 {
        hypot(self, other)
    }
}

/// A finite float's size as m × 2^e units of 2^-1074.
fn parts(x: f64) -> (u64, u32) {
    let bits = x.to_bits() & !(1 << 63);
    let (e, f) = ((bits >> 52) as u32, bits & ((1 << 52) - 1));
    if e == 0 {
        (f, 0)
    } else {
        (f | 1 << 52, e - 1)
    }
}

/// q × 2^e units, q at most 2^53, as a float; infinity where it is too large.
fn packed(q: u64, e: u32) -> f64 {
    let (q, e) = if q == 1 << 53 { (q >> 1, e + 1) } else { (q, e) };
    let bits = if e == 0 { q } else { ((e as u64) << 52) + q };
    f64::from_bits(bits.min(f64::INFINITY.to_bits()))
}

/// How m compares with twice the root of a² + b², for b > 0: m² − (2a)² against (2b)².
fn side(m: u128, a: u128, b: u128) -> Ordering {
    if m <= 2 * a {
        return Ordering::Less;
    }
    match (m - 2 * a).checked_mul(m + 2 * a) {
        None => Ordering::Greater,
        Some(p) => p.cmp(&(4 * b * b)),
    }
}

/// The root of a² + b² in units of 2^k, rounded to nearest, ties to even, and k: the least that leaves 53 bits.
fn root(a: u128, b: u128) -> (u64, u32) {
    // A first guess only: what follows is right whatever it is.
    let guess = ((a as f64) * (a as f64) + (b as f64) * (b as f64)).sqrt() as u128;
    let mut k = (128 - guess.leading_zeros()).saturating_sub(53);
    while k > 0 && side(2 << (52 + k), a, b) == Ordering::Greater {
        k -= 1;
    }
    while side(2 << (53 + k), a, b) != Ordering::Greater {
        k += 1;
    }
    let mut q = guess >> k;
    while match side((2 * q + 1) << k, a, b) {
        Ordering::Less => true,
        Ordering::Equal => q % 2 == 1,
        Ordering::Greater => false,
    } {
        q += 1;
    }
    while match side((2 * q - 1) << k, a, b) {
        Ordering::Less => false,
        Ordering::Equal => q % 2 == 1,
        Ordering::Greater => true,
    } {
        q -= 1;
    }
    (q as u64, k)
}

pub fn hypot(x: f64, y: f64) -> f64 {
    if x.is_infinite() || y.is_infinite() {
        return f64::INFINITY;
    }
    if x.is_nan() || y.is_nan() {
        return f64::NAN;
    }
    let (x, y) = (x.abs(), y.abs());
    let (large, small) = if x < y { (y, x) } else { (x, y) };
    if small == 0.0 {
        return large;
    }
    let ((a, ea), (b, eb)) = (parts(large), parts(small));
    // Then the root is above `large` by less than half of its last place.
    if ea - eb > 30 {
        return large;
    }
    let (q, k) = root((a as u128) << (ea - eb), b as u128);
    packed(q, k + eb)
}
