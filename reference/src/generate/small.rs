//! Random valid jobs whose layouts are small enough to count squares.

use super::kinds::of_random_kinds;
use super::line::{bytes_of, lines_of, Line};
use super::random::Random;
use crate::fast::{self, LoadSums};
use crate::job::{overlap, Job, GAP, MOST_SHAPES};
use std::ops::Range;

/// Longest side of a random small layout, but for those with long windows.
const LARGEST_SIDE: u64 = 28;
/// A window that could be halved once more than a quick run does.
const LONGEST_WINDOW: u64 = 32;

/// A random valid job.
pub fn small_job(random: &mut Random) -> Vec<u8> {
    bytes_of(&small_lines(random))
}

/// The lines of a random valid job, the fills in random order.
pub fn small_lines(random: &mut Random) -> Vec<Line> {
    let mut job = bare_job(random);
    job.gap = gap(random);
    job.dummy_gap = dummy_gap(random, job.gap);
    job.accuracy = match random.below(6) {
        0..=2 => 0,
        3 => 1000,
        4 => random.between(1, 200),
        _ => random.between(1, 999),
    };
    job.levels = random.between(1, 6).max(random.between(1, 6));
    let boxes = boxes(random, job.size);
    job.shapes = of_random_kinds(random, boxes);
    job.fills = fills(random, &fast::fillable_areas(&job));
    choose_bounds(random, &mut job);
    let mut lines = lines_in_any_order(random, &job);
    if random.one_in(4) {
        state_dummy_gap(&mut lines[0], job.dummy_gap);
    }
    lines
}

/// A gap. From 4 on round corners leave squares that square ones would not.
fn gap(random: &mut Random) -> u64 {
    match random.below(10) {
        0..=2 => 0,
        3..=4 => 1,
        5 => 2,
        6..=7 => random.between(4, 9),
        8 => random.between(3, LARGEST_SIDE),
        _ => random.pick(&[27, 28, 1000, 65_535, 65_536, GAP.1]),
    }
}

/// A dummy gap: half of the times the gap itself, else often one so near that
/// few squares tell the two apart.
fn dummy_gap(random: &mut Random, gap_to_drawn: u64) -> u64 {
    match random.below(6) {
        0..=2 => gap_to_drawn,
        3 => (gap_to_drawn + random.between(1, 2)).min(GAP.1),
        4 => gap_to_drawn.saturating_sub(random.between(1, 2)),
        _ => gap(random),
    }
}

/// The lines of a job, its fills in random order.
pub(super) fn lines_in_any_order(random: &mut Random, job: &Job) -> Vec<Line> {
    let mut lines = lines_of(job);
    let fills = 1 + job.shapes.len()..lines.len() - 1;
    random.shuffle(&mut lines[fills]);
    lines
}

/// Spells the head with both gaps, also where one would do.
fn state_dummy_gap(head: &mut Line, dummy_gap: u64) {
    if let Line::Head(_, stated) = head {
        *stated = Some(dummy_gap);
    }
}

/// A job with size, window and cut alone.
fn bare_job(random: &mut Random) -> Job {
    let (tile, cut) = match random.below(9) {
        0..=3 => halving_window(random, 16),
        4 => halving_window(random, LONGEST_WINDOW),
        _ => {
            let tile = random.between(1, 6);
            let most = random.between(1, LARGEST_SIDE / tile);
            (tile, random.between(1, most))
        }
    };
    let largest = LARGEST_SIDE.max(tile * cut + 8);
    let tiles = random.between(cut, largest / tile);
    Job {
        size: tiles * tile,
        window: cut * tile,
        cut,
        ..Job::default()
    }
}

/// Tile side and cut of a window that can be halved, half of the time the
/// longest one.
fn halving_window(random: &mut Random, longest: u64) -> (u64, u64) {
    let window = random.pick(&[2, 4, 8, longest, longest, longest]);
    let halvings = random.between(1, u64::from(window.trailing_zeros()));
    let cut = 1 << random.between(1, halvings);
    (window / cut, cut)
}

/// Boxes for shapes, no two of which overlap.
pub(super) fn boxes(random: &mut Random, size: u64) -> Vec<[u64; 4]> {
    let whole = [0, 0, size, size];
    let mut boxes = match random.below(10) {
        0 => Vec::new(),
        1 => vec![whole],
        2 => far_from_origin(random, size),
        3..=4 => scattered(random, size),
        5 => single_squares(random, size),
        _ => {
            let (mut pieces, share) = (Vec::new(), random.between(10, 90));
            slice(random, whole, &mut pieces);
            pieces.retain(|_| random.percent(share));
            pieces
        }
    };
    random.shuffle(&mut boxes);
    boxes.truncate(MOST_SHAPES);
    boxes
}

fn scattered(random: &mut Random, size: u64) -> Vec<[u64; 4]> {
    let longest = random.between(1, size);
    let count = random.between(1, 20);
    dropped(random, size, count, longest)
}

/// So many boxes with sides up to this length, dropped at random, those that
/// overlap left out.
pub(super) fn dropped(random: &mut Random, size: u64, count: u64, longest: u64) -> Vec<[u64; 4]> {
    let mut boxes: Vec<[u64; 4]> = Vec::new();
    for _ in 0..count {
        let (x, y) = (random.below(size), random.below(size));
        let width = random.between(1, longest.min(size - x));
        let height = random.between(1, longest.min(size - y));
        let dropped = [x, y, x + width, y + height];
        if !boxes.iter().any(|other| overlap(other, &dropped)) {
            boxes.push(dropped);
        }
    }
    boxes
}

/// One small box, where the starts of early levels often miss it.
fn far_from_origin(random: &mut Random, size: u64) -> Vec<[u64; 4]> {
    let mut corner = || size - 1 - random.below(size).min(random.below(size));
    let (x, y) = (corner(), corner());
    let mut side = |from: u64| (from + random.between(1, 3)).min(size);
    vec![[x, y, side(x), side(y)]]
}

/// Unit squares, many of which touch.
fn single_squares(random: &mut Random, size: u64) -> Vec<[u64; 4]> {
    let share = random.between(1, 60);
    let mut squares = Vec::new();
    for y in 0..size {
        for x in 0..size {
            if random.percent(share) {
                squares.push([x, y, x + 1, y + 1]);
            }
        }
    }
    squares
}

/// Cuts a box into pieces that touch along whole sides or parts of them.
fn slice(random: &mut Random, piece: [u64; 4], pieces: &mut Vec<[u64; 4]>) {
    let [x1, y1, x2, y2] = piece;
    if random.one_in(6) || (x2 - x1 == 1 && y2 - y1 == 1) {
        pieces.push(piece);
    } else if y2 - y1 == 1 || (x2 - x1 > 1 && random.one_in(2)) {
        let x = random.between(x1 + 1, x2 - 1);
        slice(random, [x1, y1, x, y2], pieces);
        slice(random, [x, y1, x2, y2], pieces);
    } else {
        let y = random.between(y1 + 1, y2 - 1);
        slice(random, [x1, y1, x2, y], pieces);
        slice(random, [x1, y, x2, y2], pieces);
    }
}

/// An amount for some of the tiles, often all that the tile can take.
pub(super) fn fills(random: &mut Random, fillable: &[u64]) -> Vec<u64> {
    let share = random.pick(&[0, 20, 60, 100]);
    let greedy = random.pick(&[0, 30, 100]);
    let mut amount = |&most: &u64| {
        if most == 0 || !random.percent(share) {
            0
        } else if random.percent(greedy) {
            most
        } else {
            random.between(1, most)
        }
    };
    fillable.iter().map(&mut amount).collect()
}

/// Bounds anywhere, or at the extreme loads so that each verdict is near.
pub(super) fn choose_bounds(random: &mut Random, job: &mut Job) {
    (job.lower, job.upper) = match random.below(8) {
        0 => (0, 10_000),
        1 => (random.below(10_001), random.below(10_001)),
        _ => (aimed_lower(random, job), aimed_upper(random, job)),
    };
    if job.lower > job.upper {
        (job.lower, job.upper) = (job.upper, job.lower);
    }
}

fn aimed_upper(random: &mut Random, job: &Job) -> u64 {
    let cut = job.cut as usize;
    let places = random.pick(&[(0, cut), (0, cut + 1), (0, cut + 1)]);
    let most = window_loads(job, places.0..places.1).max().unwrap_or(0);
    let tight = (10_000 * most).div_ceil(job.window * job.window);
    let aimed = random.pick(&[tight.saturating_sub(1), tight, tight, tight + 1, 10_000]);
    aimed.min(10_000)
}

fn aimed_lower(random: &mut Random, job: &Job) -> u64 {
    let cut = job.cut as usize;
    let places = random.pick(&[(0, cut), (1, cut), (1, cut)]);
    let least = window_loads(job, places.0..places.1).min().unwrap_or(0);
    let tight = job.bound_at(least);
    let aimed = random.pick(&[tight.saturating_sub(1), tight, tight, tight + 1, 0]);
    aimed.min(10_000)
}

/// Loads of the windows at all tile starts; on each axis a window has these
/// places counted from the start, as far as there are tiles.
fn window_loads(job: &Job, places: Range<usize>) -> impl Iterator<Item = u64> {
    let sums = LoadSums::new(job, &fast::metal_cover(job));
    fast::tile_starts(job).map(move |start| sums.window(start, &places))
}
