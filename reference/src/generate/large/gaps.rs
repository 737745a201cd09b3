//! Jobs that are heavy for the counting of fillable areas, by the gap they ask.

use super::{bare_job, grid_of_different_sides, scaled, with_dummies, with_most_tiles};
use crate::fast;
use crate::generate::corners::{cautious_areas, tiles_at_corners};
use crate::generate::kinds::drawn;
use crate::generate::random::Random;
use crate::job::{Job, LARGEST_SIDE, MOST_SHAPES};

/// Each with the arrangement of shapes that leaves most of their arcs open at its
/// gap: four for each shape but where they are on a diagonal or on a circle.
pub(super) fn jobs(side: u64) -> [(&'static str, Job); 11] {
    let [narrow, middle, open, wide] = [1000, 15_000, 31_000, 250_000].map(|gap| scaled(gap, side));
    let (tiles, one) = (in_most_tiles, in_one_tile);
    [
        ("gap of 0", tiles(side, 0, different_sides)),
        ("gap of 1,000", tiles(side, narrow, different_sides)),
        ("gap of 1,000, one tile", one(side, narrow, different_sides)),
        ("gap of 15,000", tiles(side, middle, short_sides)),
        ("gap of 15,000, one tile", one(side, middle, short_sides)),
        ("gap of 31,000", tiles(side, open, single_squares)),
        ("gap of 250,000", tiles(side, wide, middle_row)),
        ("gap of 250,000, one tile", one(side, wide, middle_row)),
        ("gap of 250,000, diagonal", tiles(side, wide, diagonal)),
        ("gap of 1,000,000", around_a_circle(side)),
        ("gaps that differ", gaps_that_differ(side)),
    ]
}

/// The boxes of the shapes in a layout of this size.
type Arrangement = fn(u64) -> Vec<[u64; 4]>;

fn with_gap(bare: Job, gap: u64, arrangement: Arrangement) -> Job {
    Job {
        gap,
        dummy_gap: gap,
        shapes: drawn(arrangement(bare.size)),
        ..bare
    }
}

/// So many fill lines surely fit in a file beside as many shapes as may stand.
const FILLS: usize = 3400;

/// One square in each tile that has room for it, as far as these fit in a file;
/// before all others where arcs cross a tile, since only these take long to measure.
fn in_most_tiles(side: u64, gap: u64, arrangement: Arrangement) -> Job {
    let job = with_gap(with_most_tiles(side, 32), gap, arrangement);
    let areas = fast::fillable_areas(&job);
    let crossed = tiles_at_corners(&job, &areas);
    let with_room = (0..areas.len()).filter(|&tile| areas[tile] > 0);
    let mut fills = vec![0; areas.len()];
    let mut count = 0;
    for tile in crossed.into_iter().chain(with_room) {
        if fills[tile] == 0 && count < FILLS {
            fills[tile] = 1;
            count += 1;
        }
    }
    Job { fills, ..job }
}

/// The whole layout is one tile, and filled with all that it can take.
fn in_one_tile(side: u64, gap: u64, arrangement: Arrangement) -> Job {
    let job = with_gap(bare_job(side, 1, 1), gap, arrangement);
    Job {
        fills: fast::fillable_areas(&job),
        ..job
    }
}

/// 256 shapes with sides on different lines.
fn different_sides(size: u64) -> Vec<[u64; 4]> {
    grid_of_different_sides(&mut Random::new(7), size, 16)
}

/// The same with short sides, so that a wider gap leaves something.
fn short_sides(size: u64) -> Vec<[u64; 4]> {
    let mut random = Random::new(8);
    let mut boxes = grid_of_different_sides(&mut random, size, 16);
    let longest = scaled(4500, size);
    for [x1, y1, x2, y2] in &mut boxes {
        *x2 = *x1 + 1 + random.below(longest);
        *y2 = *y1 + 1 + random.below(longest);
    }
    boxes
}

fn square([x, y]: [u64; 2]) -> [u64; 4] {
    [x, y, x + 1, y + 1]
}

/// Single squares in the middles of a grid's cells. With a gap of nearly half a cell
/// the circles around them are as long as they can be and all open.
fn single_squares(size: u64) -> Vec<[u64; 4]> {
    let across = MOST_SHAPES.isqrt() as u64;
    let middle = |cell: u64| (2 * cell + 1) * size / (2 * across);
    let place = |cell: u64| [middle(cell % across), middle(cell / across)];
    (0..across * across)
        .map(|cell| square(place(cell)))
        .collect()
}

/// As many single squares as may stand, at these places of a layout of this size.
fn squares(size: u64, place: impl Fn(u64) -> [u64; 2]) -> Vec<[u64; 4]> {
    let count = MOST_SHAPES as u64;
    let step = size / count;
    (0..count).map(|k| square(place(k * step))).collect()
}

/// Single squares in one row. What they bar is a band, and each of them has a part
/// in both of its sides. These are flat: at a short side of the layout they bend by
/// less than a square, and the job is lighter for that too.
fn middle_row(size: u64) -> Vec<[u64; 4]> {
    squares(size, |x| [x, size / 2])
}

/// Single squares along the diagonal. Many of them have a part in both sides of the
/// band that they bar, and its sides cross many tiles.
fn diagonal(size: u64) -> Vec<[u64; 4]> {
    squares(size, |x| [x, x])
}

/// Single squares on a quarter circle around the layout's corner.
fn quarter_circle(size: u64) -> Vec<[u64; 4]> {
    let radius = scaled(46_665, size);
    squares(radius, |x| [x, (radius * radius - x * x).isqrt()])
}

/// What a gap as wide as the layout leaves lies in the corner opposite the circle,
/// and many squares have a part in its edge. Only round corners leave anything
/// there. Each tile is filled wholly.
fn around_a_circle(side: u64) -> Job {
    let gap = scaled(LARGEST_SIDE, side);
    let job = with_gap(with_most_tiles(side, 32), gap, quarter_circle);
    Job {
        fills: fast::fillable_areas(&job),
        ..job
    }
}

/// Wide gaps to drawn metal and narrower ones to dummies, under one window; each
/// tile is filled with all that it can take for sure.
fn gaps_that_differ(side: u64) -> Job {
    let bare = with_most_tiles(side, 64);
    let drawn = with_gap(bare, 0, short_sides);
    let job = with_dummies(drawn, scaled(18_000, side), scaled(6000, side));
    Job {
        fills: cautious_areas(&job),
        ..job
    }
}
