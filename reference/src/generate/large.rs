//! The heaviest legal jobs, at any side of the layout, and random ones of full size.
//!
//! The lengths of a heavy job are parts of the side; its shapes, tiles and levels
//! are as many at every side. So the times of one job at two sides tell what the
//! length of the side costs; only arcs that are nearly flat have less to them at a
//! shorter side, where they bend by less than a square.

mod bars;
mod bounds;
mod gaps;
mod random_job;

pub(super) use random_job::large_fills;
pub use random_job::large_job;

use super::corners::cautious_areas;
use super::kinds::drawn;
use super::line::{bytes_of, lines_of, Line};
use super::random::Random;
use crate::fast;
use crate::job::{Job, Kind, LARGEST_FILE, LARGEST_SIDE, MOST_TILES};

/// A side at which heavy jobs take little time. Units from before request 8 knew no
/// longer one.
pub const SHORTER_SIDE: u64 = 65_535;

/// A named job of full size.
pub struct LargeJob {
    pub name: &'static str,
    pub job: Vec<u8>,
}

impl LargeJob {
    /// The job without its fill lines.
    pub fn without_fills(&self) -> Vec<u8> {
        let lines = self.job.split_inclusive(|&byte| byte == b'\n');
        lines
            .filter(|line| !line.starts_with(b"(fill"))
            .flatten()
            .copied()
            .collect()
    }

    /// The job without its fill lines, and with bounds that about a third of the
    /// positions are under and a third over where areas differ, so that many areas
    /// must be told from a bound.
    pub fn with_bounds_among_areas(&self) -> Vec<u8> {
        let job = fast::read(&self.without_fills()).expect("large jobs are valid");
        within_limit(&bounds::with_bounds_among_areas(job))
    }
}

/// One job for each way of being heavy, in a layout of this side or little less: a
/// whole number of tiles must fit. Lengths that have a name are those at the
/// longest side.
pub fn large_jobs(side: u64) -> Vec<LargeJob> {
    let jobs = [
        ("different sides, W = N/64", different_sides(side, 1)),
        ("different sides, W = N/8", different_sides(side, 8)),
        ("different sides, W = N/2", different_sides(side, 32)),
        ("different sides, W = N", different_sides(side, 64)),
        ("most starts", bars::most_starts(side)),
        ("soon met", bars::soon_met(side)),
        ("windows alike", bars::windows_alike(side)),
        ("wide windows", bars::wide_windows(side)),
        ("bars and fills", bars::bars_and_fills(side)),
        ("bars and dummies", bars::bars_and_dummies(side)),
        ("most tiles", most_tiles(side)),
        ("ragged starts", ragged_starts(side)),
        ("single squares", single_squares(side)),
        ("covered wholly", covered_wholly(side)),
        ("filled wholly", filled_wholly(side)),
    ];
    let jobs = jobs
        .into_iter()
        .chain(gaps::jobs(side))
        .chain(bounds::jobs(side));
    let named = |(name, job): (&'static str, Job)| LargeJob {
        name,
        job: within_limit(&job),
    };
    jobs.map(named).collect()
}

/// A length of the longest layout, as long a part of one of this side. Some length
/// stays some.
fn scaled(length: u64, side: u64) -> u64 {
    (length * side).div_ceil(LARGEST_SIDE)
}

/// A job without shapes and fills, bounds that hold always, and the quick
/// runs as long as they get.
fn bare_job(tile: u64, tiles: u64, cut: u64) -> Job {
    Job {
        size: tile * tiles,
        window: tile * cut,
        cut,
        upper: 10_000,
        levels: 6,
        fills: vec![0; (tiles * tiles) as usize],
        ..Job::default()
    }
}

/// As many tiles as there may be, as wide as this side lets them be.
fn with_most_tiles(side: u64, cut: u64) -> Job {
    bare_job(side / MOST_TILES, MOST_TILES, cut)
}

/// The job's file, its last fills left out as far as it would be too long.
pub fn within_limit(job: &Job) -> Vec<u8> {
    let mut lines = lines_of(job);
    let mut bytes = bytes_of(&lines);
    while bytes.len() > LARGEST_FILE {
        let excess = (bytes.len() - LARGEST_FILE) / 27 + 1;
        lines.truncate(lines.len() - 1 - excess);
        lines.push(Line::End);
        bytes = bytes_of(&lines);
    }
    bytes
}

/// Boxes in a grid of up to 16 across, no two with a side on one line.
pub(super) fn grid_of_different_sides(
    random: &mut Random,
    size: u64,
    across: u64,
) -> Vec<[u64; 4]> {
    let cell = size / across;
    let step = cell / (2 * across);
    let mut line = |place: u64, slot: u64| place * cell + slot * step + random.below(step);
    let mut boxes = Vec::new();
    for row in 0..across {
        for column in 0..across {
            // Slots scrambled by a prime above `across`, so that all differ but
            // the sides do not form a staircase.
            let (down, over) = (row * 19 % across, column * 19 % across);
            let (x1, y1) = (line(column, down), line(row, over));
            let (x2, y2) = (line(column, across + down), line(row, across + over));
            boxes.push([x1, y1, x2, y2]);
        }
    }
    boxes
}

/// Every side of 256 shapes gives candidates of its own to the exact run, under
/// windows of so many of the 64 tiles across.
fn different_sides(side: u64, cut: u64) -> Job {
    let mut random = Random::new(1);
    let mut job = with_most_tiles(side, cut);
    job.gap = scaled(1500, side);
    job.dummy_gap = job.gap;
    job.shapes = drawn(grid_of_different_sides(&mut random, job.size, 16));
    job.fills = cautious_areas(&job);
    job
}

/// 4096 tiles, as many of them filled as the file has room for.
fn most_tiles(side: u64) -> Job {
    let mut random = Random::new(3);
    let mut job = with_most_tiles(side, 32);
    job.gap = scaled(300, side);
    job.dummy_gap = job.gap;
    job.lower = 1;
    let mut boxes = grid_of_different_sides(&mut random, job.size, 10);
    for [x1, _, x2, _] in &mut boxes {
        *x2 = *x1 + scaled(7600, side);
    }
    job.shapes = drawn(boxes);
    let sure = cautious_areas(&job);
    job.fills = sure.into_iter().map(|most| most.min(7)).collect();
    job
}

/// The last position is a start at no level.
fn ragged_starts(side: u64) -> Job {
    let mut random = Random::new(5);
    let mut job = with_most_tiles(side, 48);
    job.shapes = drawn(grid_of_different_sides(&mut random, job.size, 16));
    job.accuracy = 1;
    job
}

/// Shapes that stay single squares at every side.
fn single_squares(side: u64) -> Job {
    let mut random = Random::new(6);
    let mut job = bare_job(side / 17, 17, 8);
    let mut boxes = grid_of_different_sides(&mut random, job.size, 16);
    for [x1, y1, x2, y2] in &mut boxes {
        (*x2, *y2) = (*x1 + 1, *y1 + 1);
    }
    job.shapes = drawn(boxes);
    job.fills = cautious_areas(&job);
    job
}

/// As much metal and as many tiles as there can be, under one window.
fn covered_wholly(side: u64) -> Job {
    let mut job = with_most_tiles(side, MOST_TILES);
    job.shapes = drawn(vec![[0, 0, job.size, job.size]]);
    job.lower = 10_000;
    job
}

fn filled_wholly(side: u64) -> Job {
    let mut job = bare_job(side, 1, 1);
    job.fills = vec![side * side];
    job
}

/// Makes every third shape a dummy, and sets both gaps.
fn with_dummies(job: Job, gap: u64, dummy_gap: u64) -> Job {
    let mut shapes = job.shapes;
    let thirds = shapes.iter_mut().step_by(3);
    thirds.for_each(|shape| shape.kind = Kind::Dummy);
    Job {
        gap,
        dummy_gap,
        shapes,
        ..job
    }
}
