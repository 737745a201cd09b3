//! How many of the compared jobs have window positions of each kind, and bounds
//! that many positions meet exactly or miss by one square.

mod counts;

use counts::Counts;
use reference::fast;
use reference::generate::{
    bounded_job, large_bounded_job, large_job, small_job, Random, COMPARED_BOUNDED_SEEDS,
    COMPARED_LARGE_BOUNDED_SEEDS, COMPARED_LARGE_SEEDS, COMPARED_SEEDS,
};
use reference::job::Job;
use reference::outcome::Positions;
use std::ops::Range;

/// What may be said of the positions of a job.
const SEEN: [&str; 16] = [
    "several positions",
    "under, within and over",
    "all under",
    "all within",
    "all over",
    "under and over alone",
    "lower bound met exactly by many",
    "lower bound missed by one square by many",
    "upper bound met exactly by many",
    "upper bound missed by one square by many",
    "lower bound met exactly by all",
    "lower bound missed by one square by all",
    "upper bound met exactly by all",
    "upper bound missed by one square by all",
    "both bounds met exactly at once",
    "fill beside positions that fail",
];

/// How many positions meet a bound exactly, and how many miss it by one square. A
/// bound that nothing can fail counts as none.
#[derive(Default)]
struct AtBound {
    met: u64,
    missed: u64,
}

fn at_bounds(job: &Job) -> [AtBound; 2] {
    let cover = fast::metal_cover(job);
    let with_area = |area: u64| {
        let [below, above] = fast::positions_below(job, &cover, [area, area + 1]);
        above - below
    };
    let square = job.window * job.window;
    let exactly = |bound: u64, area: u64| match bound * square == 10_000 * area {
        true => with_area(area),
        false => 0,
    };
    let (least, greatest) = (job.least_kept(), job.greatest_kept());
    let at_lower = || AtBound {
        met: exactly(job.lower, least),
        missed: with_area(least - 1),
    };
    let at_upper = || AtBound {
        met: exactly(job.upper, greatest),
        missed: with_area(greatest + 1),
    };
    let lower = (job.lower > 0).then(at_lower);
    let upper = (job.upper < 10_000).then(at_upper);
    [lower, upper].map(Option::unwrap_or_default)
}

/// Which of that is true of a job; nothing if it has one position alone.
fn seen(job: &Job) -> [bool; 16] {
    let Positions {
        under,
        within,
        over,
    } = fast::positions(job, &fast::metal_cover(job));
    let all = job.positions();
    let [lower, upper] = at_bounds(job);
    let are_many = |count: u64| 100 * count >= all && count < all;
    let is_true = [
        true,
        under > 0 && within > 0 && over > 0,
        under == all,
        within == all,
        over == all,
        under > 0 && within == 0 && over > 0,
        are_many(lower.met),
        are_many(lower.missed),
        are_many(upper.met),
        are_many(upper.missed),
        lower.met == all,
        lower.missed == all,
        upper.met == all,
        upper.missed == all,
        job.lower == job.upper && lower.met > 0,
        job.fills.iter().any(|&amount| amount > 0) && within < all,
    ];
    is_true.map(|is_true| is_true && all > 1)
}

/// Counts the jobs of these seeds, and requires so many of each kind.
fn require(seeds: Range<u64>, make: fn(&mut Random) -> Vec<u8>, least: [u64; 16]) {
    let mut counts = Counts::default();
    for seed in seeds {
        let job = fast::read(&make(&mut Random::new(seed))).expect("a valid job");
        for (is_true, name) in seen(&job).into_iter().zip(SEEN) {
            counts.see_if(is_true, name);
        }
    }
    for (name, least) in SEEN.into_iter().zip(least) {
        counts.require(least, [name.to_string()]);
    }
}

#[test]
fn bounded_jobs_are_at_their_bounds() {
    let least = [
        2000, 150, 50, 500, 30, 100, 400, 500, 400, 400, 150, 15, 150, 20, 400, 600,
    ];
    require(COMPARED_BOUNDED_SEEDS, bounded_job, least);
}

#[test]
fn large_bounded_jobs_are_at_their_bounds() {
    let least = [200, 20, 30, 40, 15, 15, 10, 6, 10, 10, 15, 8, 20, 5, 20, 20];
    require(COMPARED_LARGE_BOUNDED_SEEDS, large_bounded_job, least);
}

#[test]
fn other_jobs_have_positions_of_all_kinds() {
    let least = [
        6500, 150, 500, 4000, 150, 20, 80, 500, 80, 300, 100, 60, 80, 40, 100, 1000,
    ];
    require(COMPARED_SEEDS, small_job, least);
    let least = [20, 3, 8, 3, 3, 0, 0, 0, 0, 0, 0, 0, 0, 0, 0, 8];
    require(COMPARED_LARGE_SEEDS, large_job, least);
}
