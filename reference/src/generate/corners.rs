//! Jobs that fill a tile at a round corner with all that it can take, or with one
//! square more.

use super::kinds::of_random_kind;
use super::line::{bytes_of, Line};
use super::random::Random;
use super::small::{choose_bounds, dropped, fills, lines_in_any_order};
use crate::cover::Cover;
use crate::fast;
use crate::job::{Job, Shape, GAP, LARGEST_SIDE};

/// What each tile can take for sure, row by row: its squares off the boxes of all
/// shapes, each widened by its gap on all four sides. At the corners of these boxes
/// there may be room for more.
pub fn cautious_areas(job: &Job) -> Vec<u64> {
    let widened = |shape: &Shape| {
        let ([x1, y1, x2, y2], gap) = (shape.corners, job.gap_to(shape.kind));
        let before = |side: u64| side.saturating_sub(gap);
        let after = |side: u64| (side + gap).min(job.size);
        [before(x1), before(y1), after(x2), after(y2)]
    };
    let boxes: Vec<[u64; 4]> = job.shapes.iter().map(widened).collect();
    let side = job.tile_side();
    let within = Cover::new(job.size, &boxes).tile_areas(side, job.tiles());
    within.into_iter().map(|area| side * side - area).collect()
}

/// A job whose squares can be counted. In some tile there is room only because
/// corners are round, and it is filled with all that it can take and so much more.
/// For the same source the jobs differ in nothing else.
pub fn corner_job(random: &mut Random, excess: u64) -> Vec<u8> {
    bytes_of(&filled_at_a_corner(random, small_job, excess))
}

/// The same at full size.
pub fn large_corner_job(random: &mut Random, excess: u64) -> Vec<u8> {
    bytes_of(&filled_at_a_corner(random, large_job, excess))
}

fn filled_at_a_corner(random: &mut Random, make: fn(&mut Random) -> Job, excess: u64) -> Vec<Line> {
    let (mut job, fillable, tile) = loop {
        let job = make(random);
        let fillable = fast::fillable_areas(&job);
        let tiles = tiles_at_corners(&job, &fillable);
        if !tiles.is_empty() {
            break (job, fillable, random.pick(&tiles));
        }
    };
    job.fills = fills(random, &fillable);
    job.fills[tile] = fillable[tile];
    choose_bounds(random, &mut job);
    job.fills[tile] += excess;
    lines_in_any_order(random, &job)
}

/// Tiles with room that they have only because corners are round, given what each
/// tile can take.
pub(super) fn tiles_at_corners(job: &Job, fillable: &[u64]) -> Vec<usize> {
    let cautious = cautious_areas(job);
    let gains = |&tile: &usize| fillable[tile] > cautious[tile];
    (0..fillable.len()).filter(gains).collect()
}

fn small_job(random: &mut Random) -> Job {
    let tile = random.between(2, 24);
    let tiles = random.between(1, (128 / tile).min(32));
    sparse_job(random, tile, tiles, 40)
}

fn large_job(random: &mut Random) -> Job {
    let tiles = random.between(1, 32).max(random.between(1, 32));
    let longest = LARGEST_SIDE / tiles;
    let tile = longest - random.below(longest / 8);
    let widest = random.pick(&[20, 1000, 15_000, 100_000, 400_000, GAP.1]);
    sparse_job(random, tile, tiles, widest)
}

/// A job with few shapes and no fills, its gaps up to this one.
fn sparse_job(random: &mut Random, tile: u64, tiles: u64, widest: u64) -> Job {
    let (size, cut) = (tile * tiles, random.between(1, tiles));
    let gap = random.between(4, widest);
    let dummy_gap = match random.below(3) {
        0 => gap,
        1 => (gap + random.between(1, 2)).min(GAP.1),
        _ => random.below(widest + 1),
    };
    let count = random.between(1, 10);
    let boxes = dropped(random, size, count, size.div_ceil(6));
    let shape = |corners| of_random_kind(random, corners);
    let shapes = boxes.into_iter().map(shape).collect();
    Job {
        size,
        window: cut * tile,
        cut,
        gap,
        dummy_gap,
        levels: random.between(1, 6),
        shapes,
        ..Job::default()
    }
}
