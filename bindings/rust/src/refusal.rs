//! Why a network isn't drawn, or a drawing isn't audited.
use std::fmt;

/// A refusal: the first that applies, by docs/RULES.md of the repository, 'Order of refusals'; 15 comes directly after 4.
///
/// [`tx_schematic_layout`](crate::tx_schematic_layout) gives 1 to 4, 15, 5, 6, 8 and 9,
/// [`tx_layout_quality`](crate::tx_layout_quality) 1 to 4, 15, 6, 13 and 8,
/// [`tx_schematic_largest_fill`](crate::tx_schematic_largest_fill) 1 to 4, 15, 5, 6 and 18. Numbers 7, 10 and 11 are about lists that
/// a caller lends; here the calls lend them, long enough.
///
/// ```
/// use tansygate::Refusal;
///
/// assert_eq!(Refusal::Mesh.number(), 9);
/// assert_eq!(Refusal::Mesh.to_string(), "refused 9: the mesh is ill-formed");
/// ```
#[derive(Clone, Copy, Debug, PartialEq, Eq, PartialOrd, Ord, Hash)]
#[repr(u32)]
pub enum Refusal {
    /// Above 4,096 buses, or above 8,192 branches.
    TooMany = 1,
    /// `kv` and `bus_substation` differ in length.
    KvLength = 2,
    /// `to` and `from` differ in length.
    ToLength = 3,
    /// A substation number that isn't below the number of buses.
    StationNumber = 4,
    /// An option is out of range.
    Option = 5,
    /// Both coordinates of a bus are finite, one is beyond 10^12.
    TooFar = 6,
    /// A lent list is shorter than its needed length.
    ListTooShort = 7,
    /// The longest side of the occupied substations' boxes is 0, or a corner of these (or, in the audit, a
    /// segment's end) divided by that side isn't within 2^40.
    IllSized = 8,
    /// The mesh is ill-formed.
    Mesh = 9,
    /// More crossings, cleared walks counted, than the crossing list holds.
    Crossings = 10,
    /// Segments outnumber the lent lists.
    Pieces = 11,
    /// The audited drawing doesn't fit its network.
    NoFit = 13,
    /// A voltage that is 0, negative, infinite or NaN.
    Voltage = 15,
    /// Of the fills from 1/64 to 64/64 none is drawn with a free place for every box.
    NoFill = 18,
}

impl Refusal {
    /// All refusals, by number.
    pub const ALL: [Refusal; 14] = [
        Refusal::TooMany,
        Refusal::KvLength,
        Refusal::ToLength,
        Refusal::StationNumber,
        Refusal::Option,
        Refusal::TooFar,
        Refusal::ListTooShort,
        Refusal::IllSized,
        Refusal::Mesh,
        Refusal::Crossings,
        Refusal::Pieces,
        Refusal::NoFit,
        Refusal::Voltage,
        Refusal::NoFill,
    ];

    /// Its number, 1 to 11, 13, 15 or 18.
    pub fn number(self) -> u32 {
        self as u32
    }

    /// Its meaning in words.
    pub fn words(self) -> &'static str {
        match self {
            Refusal::TooMany => "more than 4,096 buses or 8,192 branches",
            Refusal::KvLength => "kv isn't as long as the bus list",
            Refusal::ToLength => "to isn't as long as from",
            Refusal::StationNumber => "a substation number is not below the bus count",
            Refusal::Option => "an option is out of range",
            Refusal::TooFar => "a bus with two finite coordinates has one above 10^12 in size",
            Refusal::ListTooShort => "a result or work list of fixed length is too short",
            Refusal::IllSized => "the largest side of an occupied substation's box is 0, or a corner of these boxes (in the audit, also a segment's end) divided by it isn't at most 2^40 in size",
            Refusal::Mesh => "the mesh is ill-formed",
            Refusal::Crossings => "crossings, those of cleared paths included, outnumber the lent crossing list",
            Refusal::Pieces => "segments outnumber the lent lists",
            Refusal::NoFit => "the audited drawing doesn't fit its network",
            Refusal::Voltage => "a kv isn't finite and above zero",
            Refusal::NoFill => "no fill from 1/64 to 64/64 is drawn with a free place for every box",
        }
    }

    /// The answer with this number: 0 is no refusal.
    pub(crate) fn check(number: u32) -> Result<(), Refusal> {
        if number == 0 {
            return Ok(());
        }
        let named = Refusal::ALL.into_iter().find(|r| r.number() == number);
        Err(named.expect("the library answers 0 to 11, 13, 15 or 18"))
    }
}

impl fmt::Display for Refusal {
    fn fmt(&self, f: &mut fmt::Formatter<'_>) -> fmt::Result {
        write!(f, "refused {}: {}", self.number(), self.words())
    }
}

impl std::error::Error for Refusal {}
