//! Shapes at the limits of their number, their corners and their turn, of both
//! kinds and beside both kinds.

use super::{accepted, bytes_of, refused, small_file, BoundaryJob, Line};
use crate::job::{Kind, MOST_SHAPES};

/// How shapes come by their kinds: by the number of each.
type Mixture = (&'static str, fn(u64) -> Kind);

const MIXTURES: [Mixture; 3] = [
    ("drawn", |_| Kind::Drawn),
    ("dummies", |_| Kind::Dummy),
    ("mixed", mixed),
];

fn mixed(number: u64) -> Kind {
    Kind::BOTH[number as usize % 2]
}

/// A head with layout and window of these sides, and so many unit squares.
fn unit_squares(size: u64, window: u64, count: usize, kind: fn(u64) -> Kind) -> Vec<Line> {
    let head = Line::Head([size, window, 2, 1, 0, 10_000, 0, 6], None);
    let square = |number: u64| {
        let (x, y) = (number % size, number / size);
        Line::shape(kind(number), [x, y, x + 1, y + 1])
    };
    let squares = (0..count as u64).map(square);
    std::iter::once(head).chain(squares).collect()
}

fn ended(mut lines: Vec<Line>) -> Vec<u8> {
    lines.push(Line::End);
    bytes_of(&lines)
}

pub(super) fn counts() -> Vec<BoundaryJob> {
    let none = accepted("no shape", ended(unit_squares(20, 4, 0, mixed)));
    let some = MIXTURES.into_iter().flat_map(|(mixture, kind)| {
        let spread = |count| ended(unit_squares(20, 4, count, kind));
        let gathered = ended(unit_squares(16, 16, MOST_SHAPES, kind));
        let name = |count: &str| format!("{count}, {mixture}");
        [
            accepted(name("255 shapes"), spread(MOST_SHAPES - 1)),
            accepted(name("256 shapes"), spread(MOST_SHAPES)),
            refused(name("257 shapes"), spread(MOST_SHAPES + 1), 8, 258),
            accepted(name("256 shapes under one window"), gathered),
        ]
    });
    std::iter::once(none).chain(some).collect()
}

/// A shape behind 256 mixed ones: its corners are looked at before their number,
/// and that before what it overlaps.
pub(super) fn beyond_the_last() -> Vec<BoundaryJob> {
    let last = |kind, corners| {
        let mut lines = unit_squares(20, 4, MOST_SHAPES, mixed);
        lines.push(Line::shape(kind, corners));
        ended(lines)
    };
    let of_kind = |kind| {
        let name = |what: &str| format!("a 257th shape{what}, {kind:?}");
        [
            refused(name(""), last(kind, [19, 19, 20, 20]), 8, 258),
            refused(name(" that overlaps"), last(kind, [0, 0, 1, 1]), 8, 258),
            refused(name(" that is outside"), last(kind, [0, 0, 21, 1]), 6, 258),
            refused(name(" of no width"), last(kind, [0, 0, 0, 1]), 6, 258),
        ]
    };
    Kind::BOTH.into_iter().flat_map(of_kind).collect()
}

const FIRST: [u64; 4] = [3, 3, 5, 5];

const TOUCH_THE_FIRST: [[u64; 4]; 8] = [
    [5, 3, 7, 5],
    [1, 3, 3, 5],
    [3, 5, 5, 7],
    [3, 1, 5, 3],
    [5, 5, 8, 8],
    [0, 0, 3, 3],
    [0, 5, 3, 8],
    [5, 0, 8, 3],
];

const OVERLAP_THE_FIRST: [[u64; 4]; 8] = [
    [4, 4, 8, 8],
    [0, 0, 4, 4],
    [0, 4, 4, 8],
    [4, 0, 8, 4],
    [3, 3, 5, 5],
    [3, 3, 4, 4],
    [0, 0, 8, 8],
    [4, 0, 5, 8],
];

const BAD_CORNERS: [[u64; 4]; 6] = [
    [3, 3, 3, 5],
    [3, 3, 5, 3],
    [5, 3, 3, 5],
    [3, 5, 5, 3],
    [7, 7, 9, 8],
    [7, 7, 8, 9],
];

pub(super) fn pairs() -> Vec<BoundaryJob> {
    let of_kinds = |first: Kind, second: Kind| {
        let name = |corners: [u64; 4]| format!("{second:?} {corners:?} after {first:?} {FIRST:?}");
        let pair = |corners| small_file(&[Line::shape(first, FIRST), Line::shape(second, corners)]);
        let touch = TOUCH_THE_FIRST.map(|corners| accepted(name(corners), pair(corners)));
        let overlap = OVERLAP_THE_FIRST.map(|corners| refused(name(corners), pair(corners), 9, 3));
        let bad = BAD_CORNERS.map(|corners| refused(name(corners), pair(corners), 6, 3));
        touch.into_iter().chain(overlap).chain(bad)
    };
    let with_first = |first| {
        Kind::BOTH
            .into_iter()
            .flat_map(move |second| of_kinds(first, second))
    };
    Kind::BOTH.into_iter().flat_map(with_first).collect()
}

pub(super) fn alone() -> Vec<BoundaryJob> {
    let of_kind = |kind| {
        let name = |what: &str| format!("{kind:?} {what}");
        let file = |corners| small_file(&[Line::shape(kind, corners)]);
        [
            accepted(name("in the corner"), file([7, 7, 8, 8])),
            accepted(name("all over"), file([0, 0, 8, 8])),
        ]
    };
    Kind::BOTH.into_iter().flat_map(of_kind).collect()
}

/// The range of a shape's corners is looked at before its turn, and what they
/// are to the layout after it.
pub(super) fn out_of_turn() -> Vec<BoundaryJob> {
    let of_kind = |kind| {
        let name = |what: &str| format!("{kind:?} {what}");
        let shape = |corners| Line::shape(kind, corners);
        let good = shape([3, 3, 5, 5]);
        let before_head = bytes_of(&[good, Line::Head(super::SMALL_HEAD, None), Line::End]);
        let after_fill = |corners| small_file(&[Line::Fill([0, 0, 1]), shape(corners)]);
        let after_end = small_file(&[Line::End, good]);
        [
            refused(name("before the head"), before_head, 4, 1),
            refused(name("after a fill"), after_fill([3, 3, 5, 5]), 4, 3),
            refused(name("after a fill, empty"), after_fill([3, 3, 3, 5]), 4, 3),
            refused(
                name("after a fill, out of range"),
                after_fill([0, 0, 1_000_001, 1]),
                3,
                3,
            ),
            refused(name("after the end"), after_end, 4, 3),
        ]
    };
    Kind::BOTH.into_iter().flat_map(of_kind).collect()
}
