//! Lent lists: filled with odd content before a call, and looked at after it.

/// A number that a list holds.
pub trait Number: Copy + std::fmt::Debug {
    /// Content that no call may rely on.
    fn odd(i: usize) -> Self;
    /// Equal as a number: +0 equals -0.
    fn same(self, other: Self) -> bool;
    fn bits(self) -> u64;
}

macro_rules! whole {
    ($($t:ty)*) => { $(impl Number for $t {
        fn odd(i: usize) -> Self {
            (i as u64).wrapping_mul(0x9E37_79B9_7F4A_7C15).rotate_left(23) as $t | 1
        }
        fn same(self, other: Self) -> bool {
            self == other
        }
        fn bits(self) -> u64 {
            self as u64
        }
    })* };
}
whole!(u8 u32 u64);

impl Number for f64 {
    fn odd(i: usize) -> Self {
        match i % 5 {
            0 => f64::NAN,
            1 => f64::NEG_INFINITY,
            2 => -1e300,
            _ => i as f64 + 0.5,
        }
    }
    fn same(self, other: Self) -> bool {
        self == other || self.is_nan() && other.is_nan()
    }
    fn bits(self) -> u64 {
        self.to_bits()
    }
}

#[derive(Clone)]
pub struct Lent<T>(pub Vec<T>);

impl<T: Number> Lent<T> {
    pub fn of(length: usize) -> Self {
        Self((0..length).map(T::odd).collect())
    }

    /// The front holds these numbers, the rest its old content.
    pub fn holds(&self, name: &str, front: &[T], wrong: &mut Vec<String>) {
        if self.0.len() < front.len() {
            wrong.push(format!("{name}: {} numbers, {} wanted", self.0.len(), front.len()));
            return;
        }
        let (f, rest) = self.0.split_at(front.len());
        if let Some(i) = (0..f.len()).find(|&i| !f[i].same(front[i])) {
            wrong.push(format!("{name}[{i}]: {:?}, oracle {:?}", f[i], front[i]));
        }
        if let Some(i) = (0..rest.len()).find(|&i| rest[i].bits() != T::odd(front.len() + i).bits()) {
            wrong.push(format!("{name}[{}] past its used length is changed to {:?}", front.len() + i, rest[i]));
        }
    }

    /// Zeros throughout where `cleared`, else the old content.
    pub fn work(&self, name: &str, cleared: bool, wrong: &mut Vec<String>) {
        let left = |i: usize| if cleared { 0 } else { T::odd(i).bits() };
        if let Some(i) = (0..self.0.len()).find(|&i| self.0[i].bits() != left(i)) {
            let what = if cleared { "isn't cleared" } else { "is changed by an early refusal" };
            wrong.push(format!("work list {name}[{i}] {what}: {:?}", self.0[i]));
        }
    }
}
