//! Jobs with bounds at or beside areas that many of their windows have.

use super::kinds::of_random_kinds;
use super::large::{grid_of_different_sides, large_fills, within_limit};
use super::line::bytes_of;
use super::random::Random;
use super::small::{boxes, fills, lines_in_any_order};
use crate::answer::rounded;
use crate::cover::Cover;
use crate::fast;
use crate::job::{overlap, Job, LARGEST_SIDE, MOST_SHAPES, MOST_TILES};

/// The sides of windows in which a square is a whole number of ten-thousandths,
/// so that each area can be a bound.
const EXACT_SIDES: [u64; 9] = [1, 2, 4, 5, 10, 20, 25, 50, 100];

/// Longest side of a small layout, but for those with long windows.
const LARGEST_SMALL_SIDE: u64 = 24;
/// How much longer than a long window a layout may be.
const LONGEST_REST: u64 = 8;

/// A job whose squares can be counted.
pub fn bounded_job(random: &mut Random) -> Vec<u8> {
    let mut job = small_bare_job(random);
    let boxes = boxes(random, job.size);
    job.shapes = of_random_kinds(random, boxes);
    job.fills = fills(random, &fast::fillable_areas(&job));
    choose_bounds(random, &mut job);
    bytes_of(&lines_in_any_order(random, &job))
}

/// A job of full size. Its window is a whole number of hundreds long, and much of
/// its metal is measured in hundredths of that, so that areas are bounds here too.
pub fn large_bounded_job(random: &mut Random) -> Vec<u8> {
    let mut job = large_bare_job(random);
    let mut boxes = regular_boxes(random, &job);
    // Beyond an edge of what is regular, windows differ from those before it.
    if boxes.len() > 1 && random.one_in(2) {
        let edge = random.between(job.size / 2, job.size);
        boxes.retain(|[x1, y1, ..]| *x1 <= edge && *y1 <= edge);
    }
    if !random.one_in(3) {
        flip_a_square_of_each_window(random, &job, &mut boxes);
    }
    job.shapes = of_random_kinds(random, boxes);
    if random.one_in(3) {
        job.fills = large_fills(random, &fast::fillable_areas(&job));
    }
    choose_bounds(random, &mut job);
    within_limit(&job)
}

/// A job with its head's numbers but the bounds.
fn bare_job(random: &mut Random, tile: u64, tiles: u64, cut: u64) -> Job {
    Job {
        size: tile * tiles,
        window: tile * cut,
        cut,
        gap: random.below(3),
        dummy_gap: random.below(3),
        levels: random.between(1, 6),
        fills: vec![0; (tiles * tiles) as usize],
        ..Job::default()
    }
}

fn small_bare_job(random: &mut Random) -> Job {
    let window = match random.below(4) {
        0 => random.between(3, 16),
        1 => random.pick(&EXACT_SIDES),
        _ => random.pick(&EXACT_SIDES[2..5]),
    };
    let cuts: Vec<u64> = (1..=window.min(MOST_TILES - LONGEST_REST))
        .filter(|&cut| window.is_multiple_of(cut))
        .collect();
    let cut = random.pick(&cuts);
    let largest = LARGEST_SMALL_SIDE.max(window + LONGEST_REST);
    let tile = window / cut;
    let tiles = random.between(cut, largest / tile);
    bare_job(random, tile, tiles, cut)
}

fn large_bare_job(random: &mut Random) -> Job {
    if random.one_in(4) {
        let cut = random.pick(&[20, 40]);
        return bare_job(random, LARGEST_SIDE / 50, 50, cut);
    }
    let tiles = random.between(2, MOST_TILES);
    let longest = LARGEST_SIDE / tiles;
    let cut = random.between(1, tiles - 1);
    bare_job(random, longest - longest % 100, tiles, cut)
}

/// Boxes for shapes, no two of which overlap.
fn regular_boxes(random: &mut Random, job: &Job) -> Vec<[u64; 4]> {
    match random.below(9) {
        0..=1 => one_box(random, job),
        2 => few_boxes(random, job),
        3..=4 => bars(random, job),
        5..=7 => repeated_boxes(random, job),
        _ => {
            let across = random.between(2, 16);
            grid_of_different_sides(random, job.size, across)
        }
    }
}

/// A length of so many hundredths of a window.
fn hundredths(job: &Job, count: u64) -> u64 {
    job.window / 100 * count
}

/// A box shorter than a window: every window that holds it has the same area.
fn one_box(random: &mut Random, job: &Job) -> Vec<[u64; 4]> {
    let mut ends = || {
        let length = hundredths(job, random.between(1, 70));
        let start = random.below(job.size - length + 1);
        [start, start + length]
    };
    let ([x1, x2], [y1, y2]) = (ends(), ends());
    vec![[x1, y1, x2, y2]]
}

/// Several such boxes, those that overlap left out.
fn few_boxes(random: &mut Random, job: &Job) -> Vec<[u64; 4]> {
    let mut boxes: Vec<[u64; 4]> = Vec::new();
    for _ in 0..random.between(2, 8) {
        let dropped = one_box(random, job)[0];
        if !boxes.iter().any(|other| overlap(other, &dropped)) {
            boxes.push(dropped);
        }
    }
    boxes
}

/// Spans of one length along an axis, whose distance is a part of the window: all
/// windows have as much of them. At most so many fit in the layout, or none.
fn repeated_spans(random: &mut Random, job: &Job, most: u64) -> Vec<[u64; 2]> {
    let fits = |parts: &u64| job.size / hundredths(job, *parts) + 1 < most;
    let periods: Vec<u64> = [4, 5, 10, 20, 25, 50, 100]
        .into_iter()
        .filter(fits)
        .collect();
    if periods.is_empty() {
        return Vec::new();
    }
    let parts = random.pick(&periods);
    let period = hundredths(job, parts);
    let length = hundredths(job, random.between(1, parts - 1));
    let first = random.below(period);
    let ends = (0..).map(|number| first + number * period);
    ends.take_while(|end| *end < job.size + length)
        .map(|end| [end.saturating_sub(length), end.min(job.size)])
        .filter(|[start, end]| start < end)
        .collect()
}

/// Upright or lying bars from side to side, under which all windows are alike.
fn bars(random: &mut Random, job: &Job) -> Vec<[u64; 4]> {
    let upright = random.one_in(2);
    let spans = repeated_spans(random, job, MOST_SHAPES as u64);
    let bar = |[start, end]: [u64; 2]| match upright {
        true => [start, 0, end, job.size],
        false => [0, start, job.size, end],
    };
    spans.into_iter().map(bar).collect()
}

/// Boxes repeated on both axes, under which all windows are alike; bars where they
/// would be too many.
fn repeated_boxes(random: &mut Random, job: &Job) -> Vec<[u64; 4]> {
    let most = MOST_SHAPES.isqrt() as u64;
    let columns = repeated_spans(random, job, most);
    let rows = repeated_spans(random, job, most);
    if columns.is_empty() || rows.is_empty() {
        return bars(random, job);
    }
    let in_row = |[y1, y2]: [u64; 2]| columns.iter().map(move |[x1, x2]| [*x1, y1, *x2, y2]);
    rows.into_iter().flat_map(in_row).collect()
}

/// Uncovers squares that are a window's side apart, or covers them: each window
/// has just one of them, and an area that differs by one. Nothing is done where
/// there would be too many shapes.
fn flip_a_square_of_each_window(random: &mut Random, job: &Job, boxes: &mut Vec<[u64; 4]>) {
    // Half of the times one that is covered is asked for: there may be little metal.
    let [x1, y1, x2, y2] = match boxes.is_empty() || random.one_in(2) {
        true => [0, 0, job.size, job.size],
        false => random.pick(boxes),
    };
    let (x, y) = (random.between(x1, x2 - 1), random.between(y1, y2 - 1));
    let apart = |place: u64| (place % job.window..job.size).step_by(job.window as usize);
    let mut flipped = boxes.clone();
    for y in apart(y) {
        for x in apart(x) {
            flip_square(&mut flipped, x, y);
        }
    }
    if flipped.len() <= MOST_SHAPES {
        *boxes = flipped;
    }
}

fn flip_square(boxes: &mut Vec<[u64; 4]>, x: u64, y: u64) {
    let square = [x, y, x + 1, y + 1];
    let Some(place) = boxes.iter().position(|corners| overlap(corners, &square)) else {
        boxes.push(square);
        return;
    };
    let [x1, y1, x2, y2] = boxes.swap_remove(place);
    let around = [
        [x1, y1, x2, y],
        [x1, y, x, y + 1],
        [x + 1, y, x2, y + 1],
        [x1, y + 1, x2, y2],
    ];
    let is_some = |corners: &[u64; 4]| corners[0] < corners[2] && corners[1] < corners[3];
    boxes.extend(around.into_iter().filter(is_some));
}

/// Bounds at or beside areas of the job, often both at the same one, or one of
/// them open.
fn choose_bounds(random: &mut Random, job: &mut Job) {
    let cover = fast::metal_cover(job);
    let [one, other] = [(); 2].map(|()| {
        let area = area_of_many(random, job, &cover);
        bound_near(random, job, area)
    });
    (job.lower, job.upper) = match random.below(8) {
        0 => (0, one),
        1 => (one, 10_000),
        2..=4 => (one, one),
        _ => (one.min(other), one.max(other)),
    };
}

/// The area of a random window, so likeliest one that many of them have; else the
/// greatest, which is that of all windows around a single box, or the least.
fn area_of_many(random: &mut Random, job: &Job, cover: &Cover) -> u64 {
    match random.below(8) {
        0..=2 => fast::exact_run(job, cover).max.area,
        3 => fast::exact_run(job, cover).min.area,
        _ => {
            let positions = job.last_position() + 1;
            let (x, y) = (random.below(positions), random.below(positions));
            cover.area([x, y, x + job.window, y + job.window])
        }
    }
}

/// A bound that is exactly this area, if there is one, or near it.
fn bound_near(random: &mut Random, job: &Job, area: u64) -> u64 {
    let (parts, square) = (10_000 * area, job.window * job.window);
    let (below, above) = (parts / square, parts.div_ceil(square));
    let nearest = rounded(parts, square);
    let farther = [below.saturating_sub(1), above + 1];
    let near = [nearest, nearest, below, above, farther[0], farther[1]];
    random.pick(&near).min(10_000)
}
