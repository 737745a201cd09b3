//! Random valid jobs of large numbers.

use super::{bare_job, grid_of_different_sides, within_limit};
use crate::fast;
use crate::generate::kinds::of_random_kinds;
use crate::generate::random::Random;
use crate::job::{GAP, LARGEST_SIDE, MOST_TILES};

/// Gaps of all widths: some far below a tile, some as wide as many tiles.
const GAPS: [u64; 8] = [0, 1, 10, 1000, 15_000, 65_536, 300_000, GAP.1];

/// A random valid job of large numbers.
pub fn large_job(random: &mut Random) -> Vec<u8> {
    let tiles = random.between(1, MOST_TILES);
    let cut = random.between(1, tiles);
    let longest = LARGEST_SIDE / tiles;
    let mut tile = random.between(longest / 2, longest);
    if random.one_in(2) {
        tile -= tile % 16;
    }
    let mut job = bare_job(tile, tiles, cut);
    job.gap = random.pick(&GAPS);
    job.dummy_gap = if random.one_in(2) {
        job.gap
    } else {
        random.pick(&GAPS)
    };
    job.accuracy = random.pick(&[0, 0, 1, 10, 100, 1000]);
    job.levels = random.between(1, 6);
    job.lower = random.below(3000);
    job.upper = random.between(job.lower, 10_000);
    let boxes = large_boxes(random, job.size);
    job.shapes = of_random_kinds(random, boxes);
    job.fills = large_fills(random, &fast::fillable_areas(&job));
    within_limit(&job)
}

/// An amount for some of the tiles, often all that the tile can take.
pub(in crate::generate) fn large_fills(random: &mut Random, fillable: &[u64]) -> Vec<u64> {
    let share = random.pick(&[0, 10, 50, 100]);
    let mut amount = |&most: &u64| {
        if !random.percent(share) {
            0
        } else if random.one_in(2) {
            most
        } else {
            random.below(most + 1)
        }
    };
    fillable.iter().map(&mut amount).collect()
}

/// Boxes for shapes, no two of which overlap.
fn large_boxes(random: &mut Random, size: u64) -> Vec<[u64; 4]> {
    let across = random.between(1, 16);
    let mut boxes = match random.below(3) {
        0 => touching_grid(size, across),
        _ => grid_of_different_sides(random, size, across),
    };
    let share = random.pick(&[10, 60, 100]);
    boxes.retain(|_| random.percent(share));
    random.shuffle(&mut boxes);
    boxes
}

fn touching_grid(size: u64, across: u64) -> Vec<[u64; 4]> {
    let line = |k: u64| k * size / across;
    let cell = |k: u64| {
        let (column, row) = (k % across, k / across);
        [line(column), line(row), line(column + 1), line(row + 1)]
    };
    (0..across * across).map(cell).collect()
}
