//! What the phases of an answer return, each shown as its answer line.

use crate::sense::Sense;
use std::fmt::{self, Display, Formatter};

/// A window by its area and lower left corner.
#[derive(Clone, Copy, Debug, PartialEq, Eq)]
pub struct Window {
    pub area: u64,
    pub x: u64,
    pub y: u64,
}

impl Window {
    /// This window, or the other one if that is strictly better.
    pub fn or_better(self, other: Window, sense: Sense) -> Window {
        if sense.improves(other.area, self.area) {
            other
        } else {
            self
        }
    }

    /// Corners X1 Y1 X2 Y2 of the window, which has this side.
    pub fn corners(self, side: u64) -> [u64; 4] {
        [self.x, self.y, self.x + side, self.y + side]
    }
}

/// A window as an answer shows it.
#[derive(Clone, Copy, Debug, PartialEq, Eq)]
pub struct Shown {
    pub window: Window,
    /// How many shapes share a unit square with the window.
    pub shapes: u64,
}

/// The greatest and the least window over all positions, as found or as shown.
#[derive(Clone, Copy, Debug, PartialEq, Eq)]
pub struct Exact<W = Window> {
    pub max: W,
    pub min: W,
}

impl<W: Copy> Exact<W> {
    /// The extreme window of a sense.
    pub fn window(&self, sense: Sense) -> W {
        match sense {
            Sense::Greatest => self.max,
            Sense::Least => self.min,
        }
    }

    /// The same with another form of its windows.
    pub fn map<T>(self, form: impl Fn(W) -> T) -> Exact<T> {
        Exact {
            max: form(self.max),
            min: form(self.min),
        }
    }
}

/// How a quick run ended.
#[derive(Clone, Copy, Debug, PartialEq, Eq)]
pub enum End {
    Met,
    Stopped,
    Exact,
}

/// A quick run's bracket of the greatest or the least window area, its window
/// as found or as shown.
#[derive(Clone, Copy, Debug, PartialEq, Eq)]
pub struct Quick<W = Window> {
    pub sense: Sense,
    pub end: End,
    pub levels: u64,
    /// The best window found: the floor, or the high end of the least.
    pub named: W,
    /// An area that no window passes: the ceiling, or the low end of the least.
    pub limit: u64,
    pub kept: u64,
}

impl Quick {
    /// Low and high end of the bracket.
    pub fn bracket(&self) -> (u64, u64) {
        self.sense.bracket(self.named.area, self.limit)
    }
}

impl<W> Quick<W> {
    /// The same with another form of its window.
    pub fn map<T>(self, form: impl Fn(W) -> T) -> Quick<T> {
        Quick {
            sense: self.sense,
            end: self.end,
            levels: self.levels,
            named: form(self.named),
            limit: self.limit,
            kept: self.kept,
        }
    }
}

/// The bound that fails: the upper one is passed over, the lower one under.
#[derive(Clone, Copy, Debug, PartialEq, Eq)]
pub enum Side {
    Over,
    Under,
}

/// The first tile start at which a bound fails.
#[derive(Clone, Copy, Debug, PartialEq, Eq)]
pub struct Failure {
    pub side: Side,
    pub column: u64,
    pub row: u64,
}

/// Whether the windows keep both bounds under the fills.
#[derive(Clone, Copy, Debug, PartialEq, Eq)]
pub enum Verdict {
    Safe,
    Broken(Failure),
    Undecided(Failure),
}

/// How many window positions there are of each kind by their areas. Planned fill
/// has no part in it.
#[derive(Clone, Copy, Debug, Default, PartialEq, Eq)]
pub struct Positions {
    /// Those that fail the lower bound.
    pub under: u64,
    /// Those that keep both bounds.
    pub within: u64,
    /// Those that fail the upper bound.
    pub over: u64,
}

/// All that an answer tells.
#[derive(Debug, PartialEq, Eq)]
pub struct Outcome {
    pub exact: Exact<Shown>,
    pub greatest: Quick<Shown>,
    pub least: Quick<Shown>,
    /// In ten-thousandths, midway between the ends of the greatest's bracket.
    pub density: u64,
    pub positions: Positions,
    pub verdict: Verdict,
}

impl Display for Shown {
    fn fmt(&self, f: &mut Formatter) -> fmt::Result {
        let Window { area, x, y } = self.window;
        write!(f, "{area} {x} {y} {}", self.shapes)
    }
}

impl Display for Exact<Shown> {
    fn fmt(&self, f: &mut Formatter) -> fmt::Result {
        write!(f, "(exact (max {}) (min {}))", self.max, self.min)
    }
}

impl Display for End {
    fn fmt(&self, f: &mut Formatter) -> fmt::Result {
        f.write_str(match self {
            End::Met => "met",
            End::Stopped => "stopped",
            End::Exact => "exact",
        })
    }
}

impl Display for Quick<Shown> {
    fn fmt(&self, f: &mut Formatter) -> fmt::Result {
        let Quick {
            sense,
            end,
            levels,
            named,
            limit,
            kept,
        } = self;
        match sense {
            Sense::Greatest => write!(
                f,
                "(zoom {end} (levels {levels}) (floor {named}) (ceiling {limit}) (kept {kept}))"
            ),
            Sense::Least => write!(
                f,
                "(zoommin {end} (levels {levels}) (low {limit}) (high {named}) (kept {kept}))"
            ),
        }
    }
}

impl Display for Positions {
    fn fmt(&self, f: &mut Formatter) -> fmt::Result {
        let Positions {
            under,
            within,
            over,
        } = self;
        write!(f, "(positions {under} {within} {over})")
    }
}

impl Display for Failure {
    fn fmt(&self, f: &mut Formatter) -> fmt::Result {
        let side = match self.side {
            Side::Over => "over",
            Side::Under => "under",
        };
        write!(f, "{side} {} {}", self.column, self.row)
    }
}

impl Display for Verdict {
    fn fmt(&self, f: &mut Formatter) -> fmt::Result {
        match self {
            Verdict::Safe => f.write_str("(fill safe)"),
            Verdict::Broken(failure) => write!(f, "(fill broken {failure})"),
            Verdict::Undecided(failure) => write!(f, "(fill undecided {failure})"),
        }
    }
}

impl Display for Outcome {
    fn fmt(&self, f: &mut Formatter) -> fmt::Result {
        writeln!(f, "{}", self.exact)?;
        writeln!(f, "{}", self.greatest)?;
        writeln!(f, "{}", self.least)?;
        writeln!(f, "(density {})", self.density)?;
        writeln!(f, "{}", self.positions)?;
        writeln!(f, "{}", self.verdict)
    }
}
