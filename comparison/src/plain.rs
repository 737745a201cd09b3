//! The exact run as two plain Rust loops, to measure the proved run by.
//!
//! Both try the positions that the proved run tries and add anew at each of
//! them: one the shapes of the window's strip, the other all of the job.

use reference::job::Job;
use reference::sense::Sense;

/// Low and high side of a shape or a window on one axis.
type Sides = [u64; 2];

/// The greatest and the least area, summed over the strip at each position.
pub fn summing_strips(job: &Job) -> [u64; 2] {
    extremes(job, Strip::area)
}

/// The greatest and the least area, summed over all shapes at each position.
pub fn summing_all(job: &Job) -> [u64; 2] {
    extremes(job, |strip, columns| {
        job.boxes()
            .map(|[x1, y1, x2, y2]| common([x1, x2], columns) * common([y1, y2], strip.rows))
            .sum()
    })
}

/// The extremes of both senses; `area` gives that of a strip's window by its
/// columns.
fn extremes(job: &Job, area: impl Fn(&Strip, Sides) -> u64) -> [u64; 2] {
    Sense::BOTH.map(|sense| {
        let rows = job.boxes().map(|[_, y1, _, y2]| [y1, y2]);
        let mut best = sense.worst();
        for y in candidates(job, sense, rows) {
            let strip = Strip::new(job, y);
            let columns = strip.parts.iter().map(|part| part.columns);
            let areas = candidates(job, sense, columns)
                .into_iter()
                .map(|x| area(&strip, [x, x + job.window]));
            best = sense.best(best, areas);
        }
        best
    })
}

/// 0, the last position, and where an edge of the window meets one of these
/// sides, each once. At a first maximum the window's low edge meets a low side
/// or its high edge a high side; at a first minimum it is the other way round.
fn candidates(job: &Job, sense: Sense, sides: impl Iterator<Item = Sides>) -> Vec<u64> {
    let last = job.last_position();
    let mut positions = vec![0, last];
    for [low, high] in sides {
        let (at_low_edge, at_high_edge) = match sense {
            Sense::Greatest => (low, high),
            Sense::Least => (high, low),
        };
        positions.push(at_low_edge);
        positions.extend(at_high_edge.checked_sub(job.window));
    }
    positions.retain(|&position| position <= last);
    positions.sort_unstable();
    positions.dedup();
    positions
}

/// The shapes that meet a window's rows. No other has a side where the area
/// of a window in these rows bends, so they alone give its columns.
struct Strip {
    rows: Sides,
    parts: Vec<Part>,
}

/// What a strip has of a shape.
struct Part {
    columns: Sides,
    height: u64,
}

impl Strip {
    fn new(job: &Job, y: u64) -> Strip {
        let rows = [y, y + job.window];
        let part = |[x1, y1, x2, y2]: [u64; 4]| Part {
            columns: [x1, x2],
            height: common([y1, y2], rows),
        };
        let parts = job.boxes().map(part);
        Strip {
            rows,
            parts: parts.filter(|part| part.height > 0).collect(),
        }
    }

    fn area(&self, columns: Sides) -> u64 {
        let parts = self.parts.iter();
        parts
            .map(|part| common(part.columns, columns) * part.height)
            .sum()
    }
}

/// The length that two pairs of sides have in common.
fn common([low, high]: Sides, [other_low, other_high]: Sides) -> u64 {
    high.min(other_high).saturating_sub(low.max(other_low))
}

#[cfg(test)]
mod tests {
    use super::*;
    use crate::{on_large_stack, LINKED};
    use reference::fast;
    use reference::generate::{large_jobs, small_job, Random};
    use reference::job::LARGEST_SIDE;

    /// Holds both loops and the proved run to the second implementation.
    fn compare_runs(file: &[u8]) {
        let job = fast::read(file).expect("generated jobs are valid");
        let exact = fast::exact_run(&job, &fast::metal_cover(&job));
        let areas = [exact.max.area, exact.min.area];
        let shown = String::from_utf8_lossy(file);
        assert_eq!(summing_strips(&job), areas, "{shown}");
        assert_eq!(summing_all(&job), areas, "{shown}");
        assert_eq!(LINKED.phase(file, 1), exact.max.area, "{shown}");
    }

    #[test]
    fn the_runs_agree() {
        on_large_stack(|| {
            for seed in 0..1000 {
                compare_runs(&small_job(&mut Random::new(seed)));
            }
            for large in large_jobs(LARGEST_SIDE) {
                compare_runs(&large.without_fills());
            }
        });
    }
}
