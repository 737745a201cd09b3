//! The same answers for every legal job, in little time.

use crate::barred;
use crate::cells;
use crate::cover::{Cover, Span, Strip};
use crate::job::{self, overlap, Job, Refusal};
use crate::outcome::{End, Exact, Failure, Positions, Quick, Side, Verdict, Window};
use crate::sense::Sense;
use std::ops::Range;

/// Reads a job file.
pub fn read(bytes: &[u8]) -> Result<Job, Refusal> {
    job::read_with(bytes, fillable_areas)
}

/// The metal of a job, drawn and dummy, ready for area questions.
pub fn metal_cover(job: &Job) -> Cover {
    let boxes: Vec<[u64; 4]> = job.boxes().collect();
    Cover::new(job.size, &boxes)
}

/// How many shapes share a unit square with the box X1 Y1 X2 Y2, which is not
/// empty.
pub fn shapes(job: &Job, corners: [u64; 4]) -> u64 {
    let sharing = job.boxes().filter(|shape| overlap(shape, &corners));
    sharing.count() as u64
}

/// Fillable area of each tile, row by row.
pub fn fillable_areas(job: &Job) -> Vec<u64> {
    barred::free_areas(job)
}

/// The extremes over all window positions.
///
/// Between two candidates of an axis the area changes linearly, so the first
/// position with an extreme area is a candidate on both axes.
pub fn exact_run(job: &Job, cover: &Cover) -> Exact {
    let side = job.window;
    let xs = candidates(job, cover.column_cuts());
    let spans: Vec<Span> = xs.iter().map(|&x| cover.span(x, x + side)).collect();
    let first = window_at_origin(job, cover);
    let (mut max, mut min) = (first, first);
    for y in candidates(job, cover.row_cuts()) {
        let strip = cover.strip(y, y + side);
        for (&x, span) in xs.iter().zip(&spans) {
            let area = strip.area(span);
            if area > max.area {
                max = Window { area, x, y };
            } else if area < min.area {
                min = Window { area, x, y };
            }
        }
    }
    Exact { max, min }
}

/// Positions at which an edge of the window meets a cut, in rising order; the
/// cuts 0 and N give the first and the last position.
fn candidates(job: &Job, cuts: &[u64]) -> Vec<u64> {
    let low_edges = cuts.iter().copied();
    let high_edges = cuts.iter().filter_map(|cut| cut.checked_sub(job.window));
    let mut positions: Vec<u64> = low_edges
        .chain(high_edges)
        .filter(|&position| position <= job.last_position())
        .collect();
    positions.sort_unstable();
    positions.dedup();
    positions
}

fn window_at_origin(job: &Job, cover: &Cover) -> Window {
    Window {
        area: cover.area([0, 0, job.window, job.window]),
        x: 0,
        y: 0,
    }
}

/// The stretch of a window along either axis, with its span across.
struct Stretch {
    ends: Range<u64>,
    span: Span,
}

impl Stretch {
    fn new(cover: &Cover, ends: Range<u64>) -> Stretch {
        let span = cover.span(ends.start, ends.end);
        Stretch { ends, span }
    }

    fn strip(&self, cover: &Cover) -> Strip {
        cover.strip(self.ends.start, self.ends.end)
    }
}

/// A start of a quick run on either axis.
struct Start {
    standard: Stretch,
    /// Of the window that bounds all those from this start to before the next:
    /// the bloated one lies around each of them, the shrunk one inside each.
    bounding: Stretch,
}

impl Start {
    /// All starts of the level with this tile side.
    fn all(job: &Job, cover: &Cover, sense: Sense, tile: u64) -> Vec<Start> {
        let start = |index: u64| {
            let at = index * tile;
            let end = at + job.window;
            let bounding = match sense {
                Sense::Greatest => at..(end + tile).min(job.size),
                Sense::Least => at + tile..end,
            };
            Start {
                standard: Stretch::new(cover, at..end),
                bounding: Stretch::new(cover, bounding),
            }
        };
        (0..=job.last_position() / tile).map(start).collect()
    }

    fn at(&self) -> u64 {
        self.standard.ends.start
    }
}

/// A level of a quick run.
struct Level {
    sense: Sense,
    /// Starts on each axis.
    across: usize,
    /// The best standard window up to this level.
    named: Window,
    /// Bounding area of each start, row by row; the worst where it was passed
    /// over.
    bounding: Vec<u64>,
}

impl Level {
    /// Does the level with this tile side.
    ///
    /// A start's bloated window lies in that of its parent, the start at or
    /// before it one level up, and its shrunk window holds the parent's. So if
    /// the parent was not kept, the start can move neither end of the bracket
    /// nor be kept itself, and is passed over.
    fn new(job: &Job, cover: &Cover, sense: Sense, tile: u64, previous: Option<&Level>) -> Level {
        let starts = Start::all(job, cover, sense, tile);
        let across = starts.len();
        let mut level = Level {
            sense,
            across,
            named: previous.map_or_else(|| window_at_origin(job, cover), |p| p.named),
            bounding: vec![sense.worst(); across * across],
        };
        for row in 0..across {
            let columns = match previous {
                Some(parents) => parents.children(row, across),
                None => (0..across).collect(),
            };
            if !columns.is_empty() {
                level.examine(cover, &starts, row, &columns);
            }
        }
        level
    }

    /// Columns of the next level's row that have a kept parent.
    fn children(&self, row: usize, across: usize) -> Vec<usize> {
        let parents = &self.bounding[row / 2 * self.across..][..self.across];
        let kept = |&(_, &area): &(usize, &u64)| self.keeps(area);
        parents
            .iter()
            .enumerate()
            .filter(kept)
            .flat_map(|(column, _)| [2 * column, 2 * column + 1])
            .filter(|&column| column < across)
            .collect()
    }

    fn examine(&mut self, cover: &Cover, starts: &[Start], row: usize, columns: &[usize]) {
        let down = &starts[row];
        let standard = down.standard.strip(cover);
        let bounding = down.bounding.strip(cover);
        for &column in columns {
            let across = &starts[column];
            let limit = bounding.area(&across.bounding.span);
            self.bounding[row * self.across + column] = limit;
            // A standard window is no better than its bounding one.
            if self.keeps(limit) {
                let area = standard.area(&across.standard.span);
                let (x, y) = (across.at(), down.at());
                self.named = self.named.or_better(Window { area, x, y }, self.sense);
            }
        }
    }

    fn keeps(&self, bounding: u64) -> bool {
        self.sense.improves(bounding, self.named.area)
    }

    fn kept(&self) -> u64 {
        self.bounding.iter().filter(|&&b| self.keeps(b)).count() as u64
    }

    /// The best bounding area; one passed over is no better than the named
    /// window's.
    fn limit(&self) -> u64 {
        let examined = self.bounding.iter().copied();
        self.sense.best(self.named.area, examined)
    }

    fn quick(&self, end: End, levels: u64) -> Quick {
        Quick {
            sense: self.sense,
            end,
            levels,
            named: self.named,
            limit: self.limit(),
            kept: self.kept(),
        }
    }

    /// The exact search in place of one more level.
    fn exact(&self, levels: u64, extreme: Window) -> Quick {
        Quick {
            sense: self.sense,
            end: End::Exact,
            levels,
            named: self.named.or_better(extreme, self.sense),
            limit: extreme.area,
            kept: 0,
        }
    }
}

/// A quick run; the exact extremes are for the case that all levels are done
/// without an end.
pub fn quick_run(job: &Job, cover: &Cover, sense: Sense, exact: &Exact) -> Quick {
    let mut level = Level::new(job, cover, sense, job.window, None);
    let mut levels = 1;
    loop {
        let (low, high) = sense.bracket(level.named.area, level.limit());
        if job.is_met(low, high) {
            return level.quick(End::Met, levels);
        }
        if levels == job.levels {
            return level.quick(End::Stopped, levels);
        }
        if levels > job.halvings() {
            return level.exact(levels + 1, exact.window(sense));
        }
        level = Level::new(job, cover, sense, job.window >> levels, Some(&level));
        levels += 1;
    }
}

/// How many window positions fail or keep the bounds.
pub fn positions(job: &Job, cover: &Cover) -> Positions {
    // Areas are whole, so that each bound parts them between two neighbours.
    let limits = [job.least_kept(), job.greatest_kept() + 1];
    let [under, not_over] = positions_below(job, cover, limits);
    Positions {
        under,
        within: not_over - under,
        over: job.positions() - not_over,
    }
}

/// How many window positions have less than each of these areas.
pub fn positions_below<const K: usize>(job: &Job, cover: &Cover, limits: [u64; K]) -> [u64; K] {
    let breakpoints = |cuts| {
        let mut positions = candidates(job, cuts);
        positions.push(job.last_position() + 1);
        positions
    };
    let (xs, ys) = (
        breakpoints(cover.column_cuts()),
        breakpoints(cover.row_cuts()),
    );
    cells::positions_below(cover, job.window, [&xs, &ys], limits)
}

/// Covered area plus fill of each tile, row by row.
fn tile_loads(job: &Job, cover: &Cover) -> Vec<u64> {
    let covered = cover.tile_areas(job.tile_side(), job.tiles());
    let amounts = job.fills.iter();
    covered.iter().zip(amounts).map(|(c, p)| c + p).collect()
}

/// Sums of the tile loads left of and below each tile corner.
pub(crate) struct LoadSums {
    tiles: usize,
    sums: Vec<u64>,
}

impl LoadSums {
    pub(crate) fn new(job: &Job, cover: &Cover) -> LoadSums {
        let tiles = job.tiles() as usize;
        let width = tiles + 1;
        let mut sums = vec![0; width * width];
        for (row, loads) in tile_loads(job, cover).chunks_exact(tiles).enumerate() {
            let mut row_sum = 0;
            for (column, load) in loads.iter().enumerate() {
                row_sum += load;
                let corner = (row + 1) * width + column + 1;
                sums[corner] = sums[corner - width] + row_sum;
            }
        }
        LoadSums { tiles, sums }
    }

    fn corner(&self, column: usize, row: usize) -> u64 {
        self.sums[row.min(self.tiles) * (self.tiles + 1) + column.min(self.tiles)]
    }

    /// Load of a box of tiles, cut off at the layout's edge.
    fn load(&self, columns: Range<usize>, rows: Range<usize>) -> u64 {
        let upto = |row| self.corner(columns.end, row) - self.corner(columns.start, row);
        upto(rows.end) - upto(rows.start)
    }

    /// The load of the window whose tiles, on each axis, are these places
    /// counted from the start.
    pub(crate) fn window(&self, (column, row): (usize, usize), places: &Range<usize>) -> u64 {
        let tiles = |start: usize| start + places.start..start + places.end;
        self.load(tiles(column), tiles(row))
    }
}

/// Column and row of each tile start, row by row.
pub(crate) fn tile_starts(job: &Job) -> impl Iterator<Item = (usize, usize)> {
    let starts = 0..=job.last_tile_start() as usize;
    let columns = starts.clone();
    starts.flat_map(move |row| columns.clone().map(move |column| (column, row)))
}

/// The verdict on a job's fills.
pub fn verdict(job: &Job, cover: &Cover) -> Verdict {
    let sums = LoadSums::new(job, cover);
    let cut = job.cut as usize;
    let (standard, bloated, shrunk) = (0..cut, 0..cut + 1, 1..cut);
    match first_failure(job, &sums, &standard, &standard) {
        Some(failure) => Verdict::Broken(failure),
        None => match first_failure(job, &sums, &bloated, &shrunk) {
            Some(failure) => Verdict::Undecided(failure),
            None => Verdict::Safe,
        },
    }
}

/// The first start that fails: the upper bound on the window of the places
/// `most`, or the lower bound on that of the places `least`.
fn first_failure(
    job: &Job,
    sums: &LoadSums,
    most: &Range<usize>,
    least: &Range<usize>,
) -> Option<Failure> {
    tile_starts(job).find_map(|start| {
        let side = if !job.keeps_upper(sums.window(start, most)) {
            Side::Over
        } else if !job.keeps_lower(sums.window(start, least)) {
            Side::Under
        } else {
            return None;
        };
        let (column, row) = (start.0 as u64, start.1 as u64);
        Some(Failure { side, column, row })
    })
}
