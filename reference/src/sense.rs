//! The two extremes, so that what is done for both is written once.

/// Which extreme of the window areas is looked for.
#[derive(Clone, Copy, Debug, PartialEq, Eq)]
pub enum Sense {
    Greatest,
    Least,
}

impl Sense {
    pub const BOTH: [Sense; 2] = [Sense::Greatest, Sense::Least];

    /// Whether an area is strictly better than another: greater, or less.
    pub fn improves(self, area: u64, other: u64) -> bool {
        match self {
            Sense::Greatest => area > other,
            Sense::Least => area < other,
        }
    }

    /// The best of some areas and the one given.
    pub fn best(self, given: u64, areas: impl Iterator<Item = u64>) -> u64 {
        match self {
            Sense::Greatest => areas.fold(given, u64::max),
            Sense::Least => areas.fold(given, u64::min),
        }
    }

    /// An area that improves on no other.
    pub fn worst(self) -> u64 {
        match self {
            Sense::Greatest => 0,
            Sense::Least => u64::MAX,
        }
    }

    /// Low and high end of a bracket. A window that is named has at most the
    /// greatest area and at least the least one; the limit is the other end.
    pub fn bracket(self, named: u64, limit: u64) -> (u64, u64) {
        match self {
            Sense::Greatest => (named, limit),
            Sense::Least => (limit, named),
        }
    }
}
