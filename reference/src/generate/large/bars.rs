//! Jobs that are heavy for the exact run and the quick runs: bars over nearly the
//! full height, which all windows along them hold.

use super::{bare_job, scaled, with_dummies, with_most_tiles};
use crate::generate::kinds::drawn;
use crate::job::{Job, MOST_SHAPES, MOST_TILES};

/// Upright bars side by side, as many as may stand. `bar` gives each by its
/// number, the left end of its room and the layout's size.
fn barred(bare: Job, bar: impl Fn(u64, u64, u64) -> [u64; 4]) -> Job {
    let bars = MOST_SHAPES as u64;
    let room = bare.size / bars;
    let boxes = (0..bars).map(|k| bar(k, k * room, bare.size)).collect();
    Job {
        shapes: drawn(boxes),
        ..bare
    }
}

/// The least by which sides differ that are meant to, for this size.
fn step(size: u64) -> u64 {
    scaled(15, size)
}

/// A bar of about this width, given for the longest layout, over nearly the full
/// height. Those of different numbers and rooms have no two sides on one line.
fn different_bar(width: u64) -> impl Fn(u64, u64, u64) -> [u64; 4] {
    move |k, room, size| {
        let step = step(size);
        let left = room + scaled(750, size) + k % 3 * step;
        let right = left + scaled(width, size) + k % 2 * step;
        [left, k * step, right, size - k * step]
    }
}

/// 64 windows across and the window side a multiple of 16, so that there are
/// 1009 starts on an axis at the last level.
fn small_windows(side: u64) -> Job {
    let longest = side / MOST_TILES;
    bare_job(longest - longest % 16, MOST_TILES, 1)
}

/// Nearly all starts are kept by the run for the greatest, because the bars
/// make windows nearly alike. All sides differ here too.
pub(super) fn most_starts(side: u64) -> Job {
    barred(small_windows(side), different_bar(1500))
}

/// The same bars, for an accuracy that level 1 meets: the other levels and the
/// exact search are not needed. The run for the least needs one level more.
pub(super) fn soon_met(side: u64) -> Job {
    Job {
        accuracy: 1000,
        ..most_starts(side)
    }
}

/// The run for the least keeps every start of every level, and that for the
/// greatest all but one. Bars that grow shorter towards one side have a poorest
/// corner, and many a shrunk window has more metal than that; these are of
/// nearly one length, and wide.
pub(super) fn windows_alike(side: u64) -> Job {
    barred(small_windows(side), |k, room, size| {
        let step = step(size);
        let (left, inset) = (room + k % 3 * step, k % 16 * step);
        let right = left + scaled(3720, size) + k % 5 * step;
        [left, inset, right, size - inset]
    })
}

/// The bars of most starts under windows a quarter of the layout across: each
/// holds 64 of them, and nearly every strip holds them all.
pub(super) fn wide_windows(side: u64) -> Job {
    barred(with_most_tiles(side, 16), different_bar(1500))
}

/// The heaviest job known: small windows under bars, and as many fills as the
/// file has room for, all in tiles that bars cross. The bars are thin, so that the
/// fill is safe and every tile start is judged. Each height is that of two bars,
/// which leaves them so much alike that the run for the least passes no start over.
pub(super) fn bars_and_fills(side: u64) -> Job {
    let thin = different_bar(15);
    let mut job = barred(small_windows(side), |k, room, size| {
        thin(k % 128, room, size)
    });
    job.fills.fill(7);
    job
}

/// The heaviest job with dummies among its bars. All bars leave room for the
/// fill between them.
pub(super) fn bars_and_dummies(side: u64) -> Job {
    with_dummies(bars_and_fills(side), scaled(300, side), scaled(900, side))
}
