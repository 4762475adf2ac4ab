//! The kinds of what may be misread.

/// In the order of gravity: what may put a wrong end on a switching sheet comes first.
#[derive(Clone, Copy, Debug, PartialEq, Eq, PartialOrd, Ord)]
pub enum Kind {
    /// A line under a bar of another substation in its colour.
    Bar,
    /// A line over the dot or the ring of another branch.
    Dot,
    /// A line at the tip of a bar of its colour that it isn't joined to.
    Tip,
    /// A line along its own bar, or across it away from its end.
    Along,
    /// A line across its own box, beyond its row.
    Across,
    /// A line over the box of another substation.
    Box,
    /// A line along the edge of a box, or a bend there.
    Edge,
    /// A line that runs back on itself.
    Hairpin,
    /// A bend of a line on another's stroke.
    Bend,
    /// A line that comes out from under a box in another direction than it went in.
    Bent,
    /// Two lines that pass under one box side by side.
    Beside,
    /// A line under the name of a substation or a bus.
    Hidden,
    /// Open branches that end in one ring.
    Ring,
    /// A cross without its number, or with it nearer to another cross.
    Cross,
    /// A substation's name that stands nearer to another box.
    Name,
    /// A box without a name or a sign.
    Unnamed,
    /// A box whose rows have to be counted, without a band or a sign.
    Rows,
}

impl Kind {
    pub const ALL: [Kind; 17] = [
        Kind::Bar,
        Kind::Dot,
        Kind::Tip,
        Kind::Along,
        Kind::Across,
        Kind::Box,
        Kind::Edge,
        Kind::Hairpin,
        Kind::Bend,
        Kind::Bent,
        Kind::Beside,
        Kind::Hidden,
        Kind::Ring,
        Kind::Cross,
        Kind::Name,
        Kind::Unnamed,
        Kind::Rows,
    ];

    /// What looks joined where it isn't.
    pub const JOINTS: [Kind; 6] = [Kind::Bar, Kind::Dot, Kind::Tip, Kind::Along, Kind::Across, Kind::Box];

    /// What the audit's figures call it.
    pub fn figure(self) -> &'static str {
        match self {
            Kind::Bar => "Under bars of their colour",
            Kind::Dot => "Over other branches' dots",
            Kind::Tip => "At tips of other bars",
            Kind::Along => "Along their own bars",
            Kind::Across => "Across their own boxes",
            Kind::Box => "Over other boxes",
            Kind::Edge => "Along edges of boxes",
            Kind::Hairpin => "Hairpins",
            Kind::Bend => "Bends on another line",
            Kind::Bent => "Bends under boxes",
            Kind::Beside => "Side by side under boxes",
            Kind::Hidden => "Lines under names",
            Kind::Ring => "Rings of several branches",
            Kind::Cross => "Crosses without their number",
            Kind::Name => "Names nearer to another box",
            Kind::Unnamed => "Boxes without a name or sign",
            Kind::Rows => "Boxes by row without a sign",
        }
    }

    /// What the index and messages call it.
    pub fn words(self) -> &'static str {
        match self {
            Kind::Bar => "under a bar of its colour",
            Kind::Dot => "over another branch's dot or ring",
            Kind::Tip => "at the tip of a bar",
            Kind::Along => "along its own bar",
            Kind::Across => "across its own box",
            Kind::Box => "over another box",
            Kind::Edge => "along the edge of a box",
            Kind::Hairpin => "runs back on itself",
            Kind::Bend => "bends on another line",
            Kind::Bent => "bends under a box",
            Kind::Beside => "passes under a box beside another",
            Kind::Hidden => "under a name",
            Kind::Ring => "ends in one ring",
            Kind::Cross => "cross without its number",
            Kind::Name => "name nearer to another box",
            Kind::Unnamed => "box without a name or sign",
            Kind::Rows => "rows without a sign",
        }
    }
}
