//! Jobs on which implementations are compared: random small ones, faulty and
//! damaged ones, those at the limits, those with bounds at frequent areas, and the
//! heaviest legal ones.
//!
//! Everything follows from the seed of a [`Random`], so a failing job can be
//! made again.

mod boundary;
mod bounds;
mod corners;
mod damage;
mod faulty;
mod kinds;
mod large;
mod line;
mod random;
mod small;

pub use boundary::{boundary_jobs, BoundaryJob};
pub use bounds::{bounded_job, large_bounded_job};
pub use corners::{cautious_areas, corner_job, large_corner_job};
pub use damage::damaged_job;
pub use faulty::{faulty_job, job_with_fault, SPOILABLE};
pub use large::{large_job, large_jobs, within_limit, LargeJob, SHORTER_SIDE};
pub use line::{bytes_of, Line};
pub use random::Random;
pub use small::{small_job, small_lines};

use std::ops::Range;

/// The seeds of the small jobs on which implementations are compared. Named
/// here, so that a test can count what these very jobs reach.
pub const COMPARED_SEEDS: Range<u64> = 1_000_000..1_009_000;
/// Those of the faulty jobs.
pub const COMPARED_FAULTY_SEEDS: Range<u64> = 2_000_000..2_005_000;
/// Those of the damaged jobs.
pub const COMPARED_DAMAGED_SEEDS: Range<u64> = 3_000_000..3_005_000;
/// Those of the large random jobs.
pub const COMPARED_LARGE_SEEDS: Range<u64> = 5_000_000..5_000_060;
/// Those of the jobs with a full tile at a round corner, and of the same jobs with
/// one square more in it.
pub const COMPARED_CORNER_SEEDS: Range<u64> = 6_000_000..6_001_000;
/// Those of such jobs at full size.
pub const COMPARED_LARGE_CORNER_SEEDS: Range<u64> = 7_000_000..7_000_024;

/// Those of the jobs with bounds at or beside frequent areas.
pub const COMPARED_BOUNDED_SEEDS: Range<u64> = 8_000_000..8_003_000;
/// Those of such jobs at full size.
pub const COMPARED_LARGE_BOUNDED_SEEDS: Range<u64> = 9_000_000..9_000_400;

/// Any small job: half of them valid, the others faulty or damaged.
pub fn mixed_job(random: &mut Random) -> Vec<u8> {
    match random.below(4) {
        0 => faulty_job(random),
        1 => damaged_job(random),
        _ => small_job(random),
    }
}
