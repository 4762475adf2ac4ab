//! Paper sizes (ISO 216), in millimetres.

#[derive(Clone, Copy, Debug, PartialEq, Eq)]
pub enum Paper {
    A0,
    A1,
    A2,
    A3,
    A4,
}

impl Paper {
    pub const ALL: [Paper; 5] = [Paper::A0, Paper::A1, Paper::A2, Paper::A3, Paper::A4];

    pub fn named(name: &str) -> Option<Self> {
        Self::ALL.into_iter().find(|paper| paper.name().eq_ignore_ascii_case(name))
    }

    pub fn name(self) -> &'static str {
        match self {
            Paper::A0 => "A0",
            Paper::A1 => "A1",
            Paper::A2 => "A2",
            Paper::A3 => "A3",
            Paper::A4 => "A4",
        }
    }

    /// The largest paper that isn't larger, and that can be held in the hand.
    pub fn at_hand(self) -> Self {
        match self {
            Paper::A4 => Paper::A4,
            _ => Paper::A3,
        }
    }

    /// The longer and the shorter side.
    pub fn sides(self) -> (f64, f64) {
        match self {
            Paper::A0 => (1189.0, 841.0),
            Paper::A1 => (841.0, 594.0),
            Paper::A2 => (594.0, 420.0),
            Paper::A3 => (420.0, 297.0),
            Paper::A4 => (297.0, 210.0),
        }
    }

    /// The size of the plain text in the title block.
    pub fn text(self) -> f64 {
        match self {
            Paper::A0 => 5.0,
            Paper::A1 => 4.0,
            Paper::A2 => 3.2,
            Paper::A3 => 2.8,
            Paper::A4 => 2.5,
        }
    }
}
