//! Random jobs: the two methods against each other, and the promises of an
//! answer against what they promise. The seed of a failing job is printed.

mod common;
mod seeds;

use common::printed_by_both;
use reference::answer::Method;
use reference::brute::{self, Grid};
use reference::fast;
use reference::generate::{
    bytes_of, damaged_job, faulty_job, small_job, small_lines, Line, Random,
};
use reference::job::{Job, Kind, Shape, LARGEST_SIDE};
use reference::outcome::{End, Failure, Outcome, Quick, Shown, Side, Verdict, Window};
use reference::sense::Sense;
use seeds::for_seeds;
use std::cell::Cell;

#[test]
fn brute_and_fast_agree_on_valid_jobs() {
    for_seeds(10_000, 8000, |random| {
        let printed = printed_by_both(&small_job(random));
        assert!(!printed.starts_with("(refused"), "{printed}");
    });
}

#[test]
fn brute_and_fast_agree_on_faulty_jobs() {
    for_seeds(20_000, 4000, |random| {
        printed_by_both(&faulty_job(random));
    });
}

#[test]
fn brute_and_fast_agree_on_damaged_jobs() {
    for_seeds(30_000, 4000, |random| {
        let job = damaged_job(random);
        if stated_size(&job).is_none_or(|size| size <= 64) {
            printed_by_both(&job);
        }
    });
}

/// The size that a file's first line states, if it begins as a head does.
fn stated_size(file: &[u8]) -> Option<u64> {
    let digits = file.strip_prefix(b"(job (size ")?;
    let end = digits.iter().position(|byte| !byte.is_ascii_digit())?;
    std::str::from_utf8(&digits[..end]).ok()?.parse().ok()
}

fn valid_job(random: &mut Random) -> Job {
    fast::read(&small_job(random)).expect("small jobs are valid")
}

#[test]
fn named_windows_and_brackets() {
    for_seeds(50_000, 3000, |random| {
        let job = valid_job(random);
        let (grid, cover) = (Grid::new(&job), fast::metal_cover(&job));
        let exact = fast::exact_run(&job, &cover);
        let positions = 0..job.last_position() + 1;
        for (x, y) in brute::squares(positions.clone(), positions) {
            let area = area_at(&job, &grid, x, y);
            assert!(exact.min.area <= area && area <= exact.max.area);
        }
        for sense in Sense::BOTH {
            let quick = fast::quick_run(&job, &cover, sense, &exact);
            let extreme = exact.window(sense);
            for window in [extreme, quick.named] {
                assert_eq!(window.area, area_at(&job, &grid, window.x, window.y));
            }
            assert_bracket(&job, &quick, extreme.area);
        }
    });
}

/// The extreme lies in the bracket, and after "met" near its middle.
fn assert_bracket(job: &Job, quick: &Quick, extreme: u64) {
    let (low, high) = quick.bracket();
    assert!(low <= extreme && extreme <= high, "{quick:?}");
    if quick.end == End::Met {
        let distance = (low + high).abs_diff(2 * extreme);
        assert!(1000 * distance <= 2 * job.accuracy * extreme, "{quick:?}");
    }
}

/// A window without metal has no shapes, any other has some. They are at most
/// all that there are, and each has a square of the window for itself.
#[test]
fn shapes_under_every_window() {
    for_seeds(90_000, 3000, |random| {
        let job = valid_job(random);
        let grid = Grid::new(&job);
        let positions = 0..job.last_position() + 1;
        for (x, y) in brute::squares(positions.clone(), positions) {
            let area = area_at(&job, &grid, x, y);
            let shapes = shapes_at(&job, &grid, x, y);
            let corners = Window { area, x, y }.corners(job.window);
            assert_eq!(fast::shapes(&job, corners), shapes);
            assert_eq!(shapes == 0, area == 0);
            assert!(shapes <= area.min(job.shapes.len() as u64));
        }
        let Outcome {
            exact,
            greatest,
            least,
            ..
        } = Method::Fast.outcome(&job);
        for Shown { window, shapes } in [exact.max, exact.min, greatest.named, least.named] {
            assert_eq!(shapes, shapes_at(&job, &grid, window.x, window.y));
        }
    });
}

/// More levels never widen a bracket, and change nothing in a run that ends
/// before it has used up those it may do.
#[test]
fn more_levels_narrow_the_bracket() {
    for_seeds(80_000, 3000, |random| {
        let mut job = valid_job(random);
        let cover = fast::metal_cover(&job);
        let exact = fast::exact_run(&job, &cover);
        for sense in Sense::BOTH {
            let runs = [1, 2, 3, 4, 5, 6].map(|levels| {
                job.levels = levels;
                fast::quick_run(&job, &cover, sense, &exact)
            });
            runs.windows(2)
                .for_each(|pair| assert_narrows(&pair[0], &pair[1]));
        }
    });
}

fn assert_narrows(fewer: &Quick, more: &Quick) {
    let ((low, high), (higher_low, lower_high)) = (fewer.bracket(), more.bracket());
    let narrows = low <= higher_low && lower_high <= high;
    assert!(narrows, "{fewer:?} {more:?}");
    if fewer.end != End::Stopped {
        assert_eq!(fewer, more);
    }
}

fn area_at(job: &Job, grid: &Grid, x: u64, y: u64) -> u64 {
    grid.area(x..x + job.window, y..y + job.window)
}

fn shapes_at(job: &Job, grid: &Grid, x: u64, y: u64) -> u64 {
    grid.shapes(x..x + job.window, y..y + job.window)
}

/// Chosen squares of a layout, row by row.
struct Placement(Vec<bool>);

/// Which eligible squares a placement prefers, given a window position.
#[derive(Clone, Copy)]
enum Preference {
    None,
    Inside,
    Outside,
}

impl Placement {
    fn new(random: &mut Random, job: &Job, preference: Preference) -> Placement {
        let end = job.last_position() + 1;
        let (left, bottom) = (random.below(end), random.below(end));
        let inside = |&(x, y): &(u64, u64)| {
            let within = |at: u64, start: u64| (start..start + job.window).contains(&at);
            within(x, left) && within(y, bottom)
        };
        let mut chosen = vec![false; (job.size * job.size) as usize];
        let tiles = brute::squares(0..job.tiles(), 0..job.tiles());
        for ((column, row), &amount) in tiles.zip(&job.fills) {
            let mut squares: Vec<(u64, u64)> = brute::tile_squares(job, column, row)
                .filter(|&square| brute::is_eligible(job, square))
                .collect();
            random.shuffle(&mut squares);
            match preference {
                Preference::None => (),
                Preference::Inside => squares.sort_by_key(|square| !inside(square)),
                Preference::Outside => squares.sort_by_key(inside),
            }
            for (x, y) in &squares[..amount as usize] {
                chosen[(y * job.size + x) as usize] = true;
            }
        }
        Placement(chosen)
    }

    /// Covered and chosen squares of the window at a position.
    fn sum_at(&self, job: &Job, grid: &Grid, x: u64, y: u64) -> u64 {
        let is_taken = |&(x, y): &(u64, u64)| self.0[(y * job.size + x) as usize];
        let squares = brute::squares(x..x + job.window, y..y + job.window);
        area_at(job, grid, x, y) + squares.filter(is_taken).count() as u64
    }
}

#[test]
fn verdicts_hold_for_placements() {
    for_seeds(60_000, 1500, |random| {
        let job = valid_job(random);
        let grid = Grid::new(&job);
        let verdict = Method::Fast.outcome(&job).verdict;
        for preference in [Preference::None, Preference::Inside, Preference::Outside] {
            let placement = Placement::new(random, &job, preference);
            match verdict {
                Verdict::Safe => assert_keeps_both(&job, &grid, &placement),
                Verdict::Broken(named) => assert_breaks(&job, &grid, &placement, named),
                Verdict::Undecided(_) => (),
            }
        }
    });
}

fn assert_keeps_both(job: &Job, grid: &Grid, placement: &Placement) {
    let positions = 0..job.last_position() + 1;
    for (x, y) in brute::squares(positions.clone(), positions) {
        let sum = placement.sum_at(job, grid, x, y);
        assert!(job.keeps_upper(sum) && job.keeps_lower(sum), "{job:?}");
    }
}

fn assert_breaks(job: &Job, grid: &Grid, placement: &Placement, named: Failure) {
    let (x, y) = (named.column * job.tile_side(), named.row * job.tile_side());
    let sum = placement.sum_at(job, grid, x, y);
    let keeps = match named.side {
        Side::Over => job.keeps_upper(sum),
        Side::Under => job.keeps_lower(sum),
    };
    assert!(!keeps, "{job:?}");
}

/// Lines with each shape's kind as the function says.
fn with_kinds(mut lines: Vec<Line>, mut kind: impl FnMut(Kind) -> Kind) -> Vec<Line> {
    for line in &mut lines {
        if let Line::Shape(shape) = line {
            shape.kind = kind(shape.kind);
        }
    }
    lines
}

/// Lines whose heads have the gaps that the function gives for theirs.
fn with_gaps(
    mut lines: Vec<Line>,
    gaps: impl Fn(u64, Option<u64>) -> (u64, Option<u64>),
) -> Vec<Line> {
    for line in &mut lines {
        if let Line::Head(numbers, dummy_gap) = line {
            (numbers[3], *dummy_gap) = gaps(numbers[3], *dummy_gap);
        }
    }
    lines
}

fn printed_lines(lines: &[Line]) -> String {
    printed_by_both(&bytes_of(lines))
}

fn is_dummy(line: &Line) -> bool {
    matches!(
        line,
        Line::Shape(Shape {
            kind: Kind::Dummy,
            ..
        })
    )
}

/// A file that knows of no dummy means the same with any dummy gap stated.
#[test]
fn without_dummies_their_gap_is_nothing() {
    let checked = Cell::new(0);
    for_seeds(100_000, 1500, |random| {
        let old = with_gaps(small_lines(random), |gap, _| (gap, None));
        if old.iter().any(is_dummy) {
            return;
        }
        let printed = printed_lines(&old);
        assert!(!printed.starts_with("(refused"), "{printed}");
        for dummy_gap in [0, 1, random.below(30), LARGEST_SIDE] {
            let stated = with_gaps(old.clone(), |gap, _| (gap, Some(dummy_gap)));
            assert_eq!(printed_lines(&stated), printed, "dummy gap {dummy_gap}");
        }
        checked.set(checked.get() + 1);
    });
    assert!(checked.get() > 600, "{} files", checked.get());
}

/// With one gap for both, drawn metal may be declared dummies and dummies drawn.
/// Where the gaps differed before, the fills may be too much now, whatever the
/// kinds.
#[test]
fn with_one_gap_the_kinds_are_nothing() {
    let accepted = Cell::new(0);
    for_seeds(110_000, 1500, |random| {
        let one_gap = with_gaps(small_lines(random), |gap, _| (gap, None));
        let both_gaps = with_gaps(one_gap.clone(), |gap, _| (gap, Some(gap)));
        let printed = printed_lines(&one_gap);
        accepted.set(accepted.get() + u64::from(!printed.starts_with("(refused")));
        for lines in [
            both_gaps.clone(),
            with_kinds(one_gap.clone(), |_| Kind::Drawn),
            with_kinds(one_gap, |_| Kind::Dummy),
            with_kinds(both_gaps, |_| Kind::BOTH[random.below(2) as usize]),
        ] {
            assert_eq!(printed_lines(&lines), printed);
        }
    });
    assert!(accepted.get() > 1000, "{} accepted", accepted.get());
}

/// Nothing tells the two kinds apart but which of the gaps is theirs.
#[test]
fn kinds_may_change_places_with_their_gaps() {
    for_seeds(120_000, 1500, |random| {
        let lines = small_lines(random);
        let swapped = with_kinds(lines.clone(), |kind| match kind {
            Kind::Drawn => Kind::Dummy,
            Kind::Dummy => Kind::Drawn,
        });
        let swapped = with_gaps(swapped, |gap, dummy_gap| {
            (dummy_gap.unwrap_or(gap), Some(gap))
        });
        assert_eq!(printed_lines(&swapped), printed_lines(&lines));
    });
}

/// Gaps, and with them kinds, decide on fills alone.
#[test]
fn without_fills_gaps_and_kinds_are_nothing() {
    for_seeds(130_000, 1500, |random| {
        let mut lines = small_lines(random);
        lines.retain(|line| !matches!(line, Line::Fill(_)));
        let (gap, dummy_gap) = (random.below(30), Some(random.below(30)));
        let others = with_gaps(lines.clone(), |_, _| (gap, dummy_gap));
        let others = with_kinds(others, |_| Kind::BOTH[random.below(2) as usize]);
        assert_eq!(printed_lines(&others), printed_lines(&lines));
    });
}

/// Magnifying a job by an odd factor keeps the number of halvings, so all of the
/// answer is the small one's, magnified, its shapes as many. This holds the fast
/// method at full size to the squares counted at small size.
///
/// Fillable areas are an exception: the finer the squares, the more of them fit
/// beside an arc. So there is room for all magnified fills, and often for more.
/// Positions are the other one: most of the large job's lie between those of the
/// small one. They have tests of their own.
#[test]
fn magnified_jobs_have_magnified_answers() {
    for_seeds(70_000, 2000, |random| {
        let (small, factor, large) = job_and_magnified(random);
        let found = Method::Fast.outcome(&large);
        let expected = Outcome {
            positions: found.positions,
            ..magnified(Method::Brute.outcome(&small), factor)
        };
        assert_eq!(found, expected, "{small:?}");
    });
}

#[test]
fn magnified_jobs_have_as_much_room() {
    for_seeds(75_000, 400, |random| {
        let (small, factor, large) = job_and_magnified(random);
        let areas = brute::fillable_areas(&small).into_iter();
        for (area, magnified) in areas.zip(fast::fillable_areas(&large)) {
            assert!(area * factor * factor <= magnified, "{small:?}");
        }
    });
}

/// A small job, a factor that leaves about the widest layout, and the job magnified.
fn job_and_magnified(random: &mut Random) -> (Job, u64, Job) {
    let mut lines = small_lines(random);
    let small = brute::read(&bytes_of(&lines)).unwrap();
    let factor = (LARGEST_SIDE / small.size - random.below(3)).saturating_sub(1) | 1;
    for line in &mut lines {
        magnify(line, factor);
    }
    (small, factor, fast::read(&bytes_of(&lines)).unwrap())
}

fn magnify(line: &mut Line, factor: u64) {
    match line {
        Line::Head([size, window, _, gap, ..], dummy_gap) => {
            *size *= factor;
            *window *= factor;
            // A gap that would be out of range becomes the widest, which leaves
            // no less than itself would.
            for gap in [Some(gap), dummy_gap.as_mut()].into_iter().flatten() {
                *gap = (*gap * factor).min(LARGEST_SIDE);
            }
        }
        Line::Shape(shape) => shape.corners.iter_mut().for_each(|side| *side *= factor),
        Line::Fill([_, _, amount]) => *amount *= factor * factor,
        Line::End => (),
    }
}

fn magnified(small: Outcome, factor: u64) -> Outcome {
    let area = |area: u64| area * factor * factor;
    let shown = |Shown { window, shapes }| Shown {
        window: Window {
            area: area(window.area),
            x: window.x * factor,
            y: window.y * factor,
        },
        shapes,
    };
    let quick = |found: Quick<Shown>| Quick {
        limit: area(found.limit),
        ..found.map(shown)
    };
    Outcome {
        exact: small.exact.map(shown),
        greatest: quick(small.greatest),
        least: quick(small.least),
        ..small
    }
}
