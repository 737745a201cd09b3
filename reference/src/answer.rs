//! From the bytes of a job to the bytes of its answer.

use crate::job::{Fault, Job, Refusal};
use crate::outcome::{Exact, Outcome, Positions, Quick, Shown, Verdict, Window};
use crate::sense::Sense;
use crate::{brute, fast};

/// A buffer of this length, which is the unit's own, has room for every answer.
pub const ANSWER_ROOM: usize = 808;

/// Which implementation of the phases to use.
#[derive(Clone, Copy)]
pub enum Method {
    /// Square by square, for layouts up to [`brute::LARGEST_SIDE`].
    Brute,
    /// For every legal job.
    Fast,
}

/// What a caller with an answer buffer gets back.
#[derive(Debug, PartialEq, Eq)]
pub enum Reply {
    /// The length of the answer at the front of the buffer.
    Accepted(usize),
    /// Number and line of the first fault.
    Refused { number: u32, line: u32 },
}

impl From<&Refusal> for Reply {
    fn from(&Refusal { number, line }: &Refusal) -> Reply {
        Reply::Refused { number, line }
    }
}

impl Method {
    fn read(self, bytes: &[u8]) -> Result<Job, Refusal> {
        match self {
            Method::Brute => brute::read(bytes),
            Method::Fast => fast::read(bytes),
        }
    }

    /// All phases on a job that was read.
    pub fn outcome(self, job: &Job) -> Outcome {
        match self {
            Method::Brute => {
                let grid = brute::Grid::new(job);
                let exact = brute::exact_run(job, &grid);
                let found = Found {
                    exact,
                    quick: Sense::BOTH.map(|sense| brute::quick_run(job, &grid, sense, &exact)),
                    positions: brute::positions(job, &grid),
                    verdict: brute::verdict(job, &grid),
                };
                found.shown(job, |[x1, y1, x2, y2]| grid.shapes(x1..x2, y1..y2))
            }
            Method::Fast => {
                let cover = fast::metal_cover(job);
                let exact = fast::exact_run(job, &cover);
                let found = Found {
                    exact,
                    quick: Sense::BOTH.map(|sense| fast::quick_run(job, &cover, sense, &exact)),
                    positions: fast::positions(job, &cover),
                    verdict: fast::verdict(job, &cover),
                };
                found.shown(job, |corners| fast::shapes(job, corners))
            }
        }
    }
}

/// What the phases found.
struct Found {
    exact: Exact,
    /// The runs for the greatest and for the least.
    quick: [Quick; 2],
    positions: Positions,
    verdict: Verdict,
}

impl Found {
    /// What an answer tells of it. `shapes` counts those of the box with these
    /// corners, and is asked only for the windows that are shown.
    fn shown(self, job: &Job, shapes: impl Fn([u64; 4]) -> u64) -> Outcome {
        let counted = |window: Window| Shown {
            window,
            shapes: shapes(window.corners(job.window)),
        };
        let [greatest, least] = self.quick;
        Outcome {
            exact: self.exact.map(counted),
            greatest: greatest.map(counted),
            least: least.map(counted),
            density: density(job, &greatest),
            positions: self.positions,
            verdict: self.verdict,
        }
    }
}

/// The density midway between the ends of the greatest's bracket, in whole
/// ten-thousandths.
fn density(job: &Job, greatest: &Quick) -> u64 {
    let (low, high) = greatest.bracket();
    rounded(10_000 * (low + high), 2 * job.window * job.window)
}

/// The whole number nearest to a quotient, and the even one where two are
/// equally near. The denominator is positive, and both together fit 64 bits.
pub fn rounded(numerator: u64, denominator: u64) -> u64 {
    let lower = numerator / denominator;
    let upper = lower + 1;
    // A neighbour's distance from the quotient, times the denominator, and then
    // whether it is odd: just one of the two is, so they never rank alike.
    let rank = |whole: u64| (numerator.abs_diff(whole * denominator), whole % 2);
    if rank(lower) < rank(upper) {
        lower
    } else {
        upper
    }
}

/// What is to be said to a job: its answer or its refusal.
pub struct Answer(Result<String, Refusal>);

impl Answer {
    pub fn new(method: Method, job: &[u8]) -> Answer {
        let outcome = method.read(job).map(|job| method.outcome(&job));
        Answer(outcome.map(|outcome| outcome.to_string()))
    }

    /// Writes it into a lent buffer. Only an accepted job's answer is written, and
    /// nothing behind it.
    pub fn write(&self, out: &mut [u8]) -> Reply {
        let text = match &self.0 {
            Ok(text) => text,
            Err(refusal) => return refusal.into(),
        };
        match out.get_mut(..text.len()) {
            Some(front) => front.copy_from_slice(text.as_bytes()),
            None => return (&Refusal::new(Fault::ShortBuffer, 0)).into(),
        }
        Reply::Accepted(text.len())
    }
}

/// Answers a job into a lent buffer.
pub fn answer(job: &[u8], out: &mut [u8]) -> Reply {
    Answer::new(Method::Fast, job).write(out)
}

/// What the program prints for a job: its answer or its refusal.
pub fn printed(method: Method, job: &[u8]) -> String {
    match Answer::new(method, job).0 {
        Ok(text) => text,
        Err(Refusal { number, line }) => format!("(refused {number} {line})\n"),
    }
}
