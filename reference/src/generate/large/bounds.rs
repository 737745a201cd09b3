//! Jobs that are heavy for the counting of positions, by where their bounds are.

use super::bars::windows_alike;
use super::{bare_job, grid_of_different_sides};
use crate::fast;
use crate::generate::kinds::drawn;
use crate::generate::random::Random;
use crate::job::Job;

pub(super) fn jobs(side: u64) -> [(&'static str, Job); 5] {
    [
        ("one rectangle", one_rectangle(side)),
        ("bars at a bound", bars_at_a_bound(side)),
        ("bounds under bars", bounds_under_bars(side)),
        (
            "bounds, small windows",
            bounds_among_different_sides(side, 2),
        ),
        (
            "bounds, wide windows",
            bounds_among_different_sides(side, 16),
        ),
    ]
}

/// 50 tiles across, under windows of so many of them. The side of a tile is a
/// multiple of 5, and that of a window of 20 tiles one of 100.
fn fifty_tiles(side: u64, cut: u64) -> Job {
    let longest = side / 50;
    bare_job(longest - longest % 5, 50, cut)
}

/// The ten-thousandth part of a window, which is a whole number of squares.
fn bound_step(job: &Job) -> u64 {
    let square = job.window * job.window;
    assert!(square.is_multiple_of(10_000));
    square / 10_000
}

/// A rectangle that has one square more than the upper bound, so that its windows
/// are over the bound just if they hold all of it. Half of it is the lower bound,
/// along a curve.
fn one_rectangle(side: u64) -> Job {
    let bare = fifty_tiles(side, 20);
    let (step, middle) = (bound_step(&bare), bare.size / 2);
    let lengths = bare.window / 2..bare.window;
    let is_beside = |width: u64| move |height: &u64| width * height % step == 1;
    let (width, height) = lengths
        .clone()
        .find_map(|width| Some((width, lengths.clone().find(is_beside(width))?)))
        .expect("a rectangle of such an area");
    let ends = |length: u64| [middle - length / 2, middle - length / 2 + length];
    let ([x1, x2], [y1, y2]) = (ends(width), ends(height));
    let upper = width * height / step;
    Job {
        lower: upper / 2,
        upper,
        shapes: drawn(vec![[x1, y1, x2, y2]]),
        ..bare
    }
}

/// Bars that cover a quarter of every window, and single squares of which every
/// window has one: all positions are over the bound by that.
fn bars_at_a_bound(side: u64) -> Job {
    let bare = fifty_tiles(side, 20);
    let (size, room) = (bare.size, bare.window / 25);
    let bar = |left: u64| [left, 0, left + room / 4, size];
    let bars = (0..size - room / 4).step_by(room as usize).map(bar);
    // Off the bars, whose rooms all windows' sides are a multiple of.
    let places = |first: u64| (first..size).step_by(bare.window as usize);
    let square = |x: u64, y: u64| [x, y, x + 1, y + 1];
    let squares = places(room / 2).flat_map(|x| places(0).map(move |y| square(x, y)));
    let shapes = drawn(bars.chain(squares).collect());
    Job {
        lower: 2500,
        upper: 2500,
        shapes,
        ..bare
    }
}

/// Bars under which windows differ by little, and along the bars not at all.
fn bounds_under_bars(side: u64) -> Job {
    with_bounds_among_areas(windows_alike(side))
}

/// 256 shapes with sides on different lines, under windows of so many tiles.
fn bounds_among_different_sides(side: u64, cut: u64) -> Job {
    let bare = fifty_tiles(side, cut);
    let boxes = grid_of_different_sides(&mut Random::new(9), bare.size, 16);
    with_bounds_among_areas(Job {
        shapes: drawn(boxes),
        ..bare
    })
}

/// Bounds that about a third of the positions are under, and a third over.
pub(super) fn with_bounds_among_areas(job: Job) -> Job {
    let mut random = Random::new(10);
    let cover = fast::metal_cover(&job);
    let mut place = || random.below(job.last_position() + 1);
    let mut area = || {
        let (x, y) = (place(), place());
        cover.area([x, y, x + job.window, y + job.window])
    };
    let mut areas: Vec<u64> = (0..3000).map(|_| area()).collect();
    areas.sort_unstable();
    Job {
        lower: job.bound_at(areas[1000]),
        upper: job.bound_at(areas[2000]),
        ..job
    }
}
