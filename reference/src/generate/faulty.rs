//! Random jobs that are well spelled but break the rules, often several.

use super::corners::tiles_at_corners;
use super::kinds::{of_random_kind, of_random_kinds};
use super::line::{bytes_of, Line};
use super::random::Random;
use super::small::small_lines;
use crate::fast;
use crate::job::{Job, Ranges, CORNER_RANGES, FILL_RANGES, GAP, HEAD_RANGES, MOST_SHAPES};

/// The faults that [`job_with_fault`] can bring about.
pub const SPOILABLE: [u32; 10] = [3, 4, 5, 6, 7, 8, 9, 10, 11, 12];

/// A job with one to three faults.
pub fn faulty_job(random: &mut Random) -> Vec<u8> {
    let faults = 1 + random.index(3);
    let faults: Vec<u32> = (0..faults).map(|_| random.pick(&SPOILABLE)).collect();
    bytes_of(&spoiled(random, &faults))
}

/// A job spoiled so as to have this fault, though another may come first.
pub fn job_with_fault(random: &mut Random, fault: u32) -> Vec<u8> {
    bytes_of(&spoiled(random, &[fault]))
}

fn spoiled(random: &mut Random, faults: &[u32]) -> Vec<Line> {
    let mut lines = if faults.contains(&8) {
        crowded_lines(random)
    } else {
        small_lines(random)
    };
    let job = fast::read(&bytes_of(&lines)).expect("generated jobs are valid");
    for fault in faults {
        spoil(random, &mut lines, &job, *fault);
    }
    lines
}

/// A job with as many shapes as may stand.
fn crowded_lines(random: &mut Random) -> Vec<Line> {
    let size = random.between(17, 24);
    let mut squares: Vec<[u64; 4]> = (0..size * size)
        .map(|square| unit_square(square % size, square / size))
        .collect();
    random.shuffle(&mut squares);
    squares.truncate(MOST_SHAPES);
    let mut lines = vec![Line::Head([size, 1, 1, 0, 0, 10_000, 0, 6], None)];
    lines.extend(
        of_random_kinds(random, squares)
            .into_iter()
            .map(Line::Shape),
    );
    lines.push(Line::End);
    lines
}

fn unit_square(x: u64, y: u64) -> [u64; 4] {
    [x, y, x + 1, y + 1]
}

fn spoil(random: &mut Random, lines: &mut Vec<Line>, job: &Job, fault: u32) {
    match fault {
        3 => leave_a_range(random, lines),
        4 => disturb_the_order(random, lines),
        5 => upset_the_head(random, lines),
        6 => insert_shape(random, lines, |random| bad_corners(random, job)),
        7 => insert_fill(random, lines, |random| absent_tile(random, job)),
        8 => insert_shape(random, lines, |random| free_square(random, job)),
        9 => insert_shape(random, lines, |random| overlapping(random, job)),
        10 => repeat_a_fill(random, lines),
        11 if random.one_in(2) => widen_a_gap(random, lines),
        11 => overfill(random, lines, job),
        12 => lines.retain(|line| *line != Line::End),
        _ => unreachable!("only the faults of well spelled jobs"),
    }
}

/// Puts one number of one line outside its range, often of the first line, which
/// has most of the ranges.
fn leave_a_range(random: &mut Random, lines: &mut [Line]) {
    let place = if random.one_in(4) {
        0
    } else {
        random.index(lines.len())
    };
    match &mut lines[place] {
        Line::Head(_, Some(gap)) if random.one_in(4) => *gap = outside(random, GAP),
        Line::Head(numbers, _) => leave_one(random, numbers, &HEAD_RANGES),
        Line::Shape(shape) => leave_one(random, &mut shape.corners, &CORNER_RANGES),
        Line::Fill(numbers) => leave_one(random, numbers, &FILL_RANGES),
        Line::End => (),
    }
}

fn leave_one<const K: usize>(random: &mut Random, numbers: &mut [u64; K], ranges: &Ranges<K>) {
    let place = random.index(K);
    numbers[place] = outside(random, ranges[place]);
}

fn outside(random: &mut Random, (least, greatest): (u64, u64)) -> u64 {
    let below = least.checked_sub(1).unwrap_or(greatest + 1);
    random.pick(&[below, greatest + 1, greatest + 1, 9_999_999_999_999])
}

/// Moves, repeats or adds a line where it has no turn, or just elsewhere.
fn disturb_the_order(random: &mut Random, lines: &mut Vec<Line>) {
    let (from, to) = (random.index(lines.len()), random.index(lines.len()));
    match random.below(4) {
        0 => {
            let line = lines.remove(from);
            lines.insert(to, line);
        }
        1 => lines.insert(to, lines[from]),
        2 => lines.push(lines[from]),
        _ => {
            let shape = Line::Shape(of_random_kind(random, unit_square(0, 0)));
            let mut stranger = random.pick(&[Line::End, Line::Fill([0, 0, 1]), shape, lines[0]]);
            if let Line::Head(head, _) = &mut stranger {
                head[1] = random.pick(&[head[1], head[0] + 1]);
            }
            lines.insert(to, stranger);
        }
    }
}

/// The numbers of a head and the dummy gap that it states, or could.
fn head_of(lines: &mut [Line]) -> Option<(&mut [u64; 8], &mut Option<u64>)> {
    lines.iter_mut().find_map(|line| match line {
        Line::Head(head, dummy_gap) => Some((head, dummy_gap)),
        _ => None,
    })
}

/// Makes the head disagree in one way, where the numbers allow it.
fn upset_the_head(random: &mut Random, lines: &mut [Line]) {
    let Some((head, _)) = head_of(lines) else {
        return;
    };
    let [size, window, cut, _, lower, upper, ..] = head;
    match random.below(5) {
        0 => *window = *size + 1,
        1 => *cut = *window % 63 + 2,
        2 => *size += random.between(1, (*window).max(1)),
        3 => (*size, *window, *cut) = (65, random.between(1, 9), 1),
        _ => (*lower, *upper) = (random.between(5001, 10_000), random.below(5001)),
    }
}

/// Inserts a shape of either kind before, between or after those that stand.
fn insert_shape(
    random: &mut Random,
    lines: &mut Vec<Line>,
    corners: impl Fn(&mut Random) -> [u64; 4],
) {
    let is_shape = |line: &Line| matches!(line, Line::Shape(_));
    let after_head = lines.len().min(1);
    let place = place_among(random, lines, is_shape, after_head);
    let corners = corners(random);
    lines.insert(place, Line::Shape(of_random_kind(random, corners)));
}

/// Inserts a fill before, between or after those that stand.
fn insert_fill(random: &mut Random, lines: &mut Vec<Line>, fill: impl Fn(&mut Random) -> [u64; 3]) {
    let is_fill = |line: &Line| matches!(line, Line::Fill(_));
    let before_end = lines.len().saturating_sub(1);
    let place = place_among(random, lines, is_fill, before_end);
    lines.insert(place, Line::Fill(fill(random)));
}

/// A place among the lines of a kind, or the one given if there are none.
fn place_among(
    random: &mut Random,
    lines: &[Line],
    is_kind: impl Fn(&Line) -> bool,
    otherwise: usize,
) -> usize {
    match lines.iter().position(&is_kind) {
        None => otherwise,
        Some(first) => {
            let last = lines.iter().rposition(is_kind).unwrap_or(first);
            first + random.index(last - first + 2)
        }
    }
}

fn anywhere(random: &mut Random, job: &Job) -> [u64; 4] {
    let (x, y) = (random.below(job.size), random.below(job.size));
    let (x2, y2) = (
        random.between(x, job.size - 1),
        random.between(y, job.size - 1),
    );
    [x, y, x2 + 1, y2 + 1]
}

/// A unit square that is no shape, found by trying; the layout of a crowded job
/// has some.
fn free_square(random: &mut Random, job: &Job) -> [u64; 4] {
    loop {
        let square = unit_square(random.below(job.size), random.below(job.size));
        if !job.boxes().any(|shape| shape == square) {
            return square;
        }
    }
}

fn bad_corners(random: &mut Random, job: &Job) -> [u64; 4] {
    let mut corners = anywhere(random, job);
    let axis = random.index(2);
    match random.below(3) {
        0 => corners[axis] = corners[axis + 2],
        1 => corners.swap(axis, axis + 2),
        _ => corners[axis + 2] = job.size + random.between(1, 3),
    }
    corners
}

fn absent_tile(random: &mut Random, job: &Job) -> [u64; 3] {
    let mut fill = [random.below(job.tiles()), random.below(job.tiles()), 1];
    fill[random.index(2)] = random.pick(&[job.tiles(), job.tiles() + 1, 63]).min(63);
    fill
}

/// A box that shares squares with a shape that stands, often one square.
fn overlapping(random: &mut Random, job: &Job) -> [u64; 4] {
    if job.shapes.is_empty() {
        return anywhere(random, job);
    }
    let [x1, y1, x2, y2] = random.pick(&job.shapes).corners;
    match random.below(4) {
        0 => [x1, y1, x2, y2],
        1 => [x1, y1, x1 + 1, y1 + 1],
        2 => [x2 - 1, y2 - 1, job.size, job.size],
        _ => [0, y2 - 1, x1 + 1, job.size],
    }
}

fn repeat_a_fill(random: &mut Random, lines: &mut Vec<Line>) {
    let fills: Vec<[u64; 3]> = lines
        .iter()
        .filter_map(|line| match line {
            Line::Fill(fill) => Some(*fill),
            _ => None,
        })
        .collect();
    if !fills.is_empty() {
        let [column, row, amount] = random.pick(&fills);
        let again = [column, row, random.pick(&[1, amount, amount + 1])];
        insert_fill(random, lines, |_| again);
    }
}

/// Widens one of the gaps and leaves the other, so that a fill of all the room
/// in its tile is too much.
fn widen_a_gap(random: &mut Random, lines: &mut [Line]) {
    let Some(([_, _, _, gap, ..], stated)) = head_of(lines) else {
        return;
    };
    let dummy_gap = stated.get_or_insert(*gap);
    let widened = if random.one_in(2) { gap } else { dummy_gap };
    *widened = (*widened + random.between(1, 3)).min(GAP.1);
}

/// Fills a tile with too much, in place of the fill that it has.
fn overfill(random: &mut Random, lines: &mut Vec<Line>, job: &Job) {
    let [column, row, amount] = too_much(random, job);
    let is_of_tile =
        |line: &Line| matches!(*line, Line::Fill([i, j, _]) if [i, j] == [column, row]);
    lines.retain(|line| !is_of_tile(line));
    insert_fill(random, lines, |_| [column, row, amount]);
}

/// One square more than a tile can take; often one that it could take if the
/// narrower of the gaps served both kinds, or where round corners leave some room.
fn too_much(random: &mut Random, job: &Job) -> [u64; 3] {
    let fillable = fast::fillable_areas(job);
    let narrower = job.gap.min(job.dummy_gap);
    let with_one_gap = fast::fillable_areas(&Job {
        gap: narrower,
        dummy_gap: narrower,
        ..job.clone()
    });
    let gains = |&tile: &usize| with_one_gap[tile] > fillable[tile];
    let mut telling: Vec<usize> = (0..fillable.len()).filter(gains).collect();
    if telling.is_empty() || random.one_in(2) {
        telling.extend(tiles_at_corners(job, &fillable));
    }
    let tile = if telling.is_empty() {
        random.index(fillable.len())
    } else {
        random.pick(&telling)
    };
    let tiles = job.tiles();
    [tile as u64 % tiles, tile as u64 / tiles, fillable[tile] + 1]
}
