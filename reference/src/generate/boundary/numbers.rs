//! Every number of every form at its greatest, and of as many digits as a number may
//! have and one more.

use super::{accepted, refused, BoundaryJob};

/// A line with `#` for one of its numbers, the greatest that this may be, and the
/// fault that the line then has behind [`HEAD`], if any.
type Open = (&'static str, u64, Option<u32>);

/// The head in each of its numbers.
const HEADS: [Open; 9] = [
    (
        "(job (size #) (window 1000000) (cut 1) (gap 0 0) (bounds 0 10000) (zoom 0 6))",
        1_000_000,
        None,
    ),
    (
        "(job (size 1000000) (window #) (cut 1) (gap 0 0) (bounds 0 10000) (zoom 0 6))",
        1_000_000,
        None,
    ),
    (
        "(job (size 1000000) (window 1000000) (cut #) (gap 0 0) (bounds 0 10000) (zoom 0 6))",
        64,
        None,
    ),
    (
        "(job (size 1000000) (window 1000000) (cut 1) (gap # 0) (bounds 0 10000) (zoom 0 6))",
        1_000_000,
        None,
    ),
    (
        "(job (size 1000000) (window 1000000) (cut 1) (gap 0 #) (bounds 0 10000) (zoom 0 6))",
        1_000_000,
        None,
    ),
    (
        "(job (size 1000000) (window 1000000) (cut 1) (gap 0 0) (bounds # 10000) (zoom 0 6))",
        10_000,
        None,
    ),
    (
        "(job (size 1000000) (window 1000000) (cut 1) (gap 0 0) (bounds 0 #) (zoom 0 6))",
        10_000,
        None,
    ),
    (
        "(job (size 1000000) (window 1000000) (cut 1) (gap 0 0) (bounds 0 10000) (zoom # 6))",
        1000,
        None,
    ),
    (
        "(job (size 1000000) (window 1000000) (cut 1) (gap 0 0) (bounds 0 10000) (zoom 0 #))",
        6,
        None,
    ),
];

/// The head of the other lines: one tile, of which nothing is barred.
const HEAD: &str =
    "(job (size 1000000) (window 1000000) (cut 1) (gap 0) (bounds 0 10000) (zoom 0 6))";

/// The other lines in each of their numbers. A lower left corner cannot be as far
/// out as an upper right one, and there is but one tile.
const LINES: [Open; 11] = [
    ("(rect # 0 1000000 1000000)", 1_000_000, Some(6)),
    ("(rect 0 # 1000000 1000000)", 1_000_000, Some(6)),
    ("(rect 0 0 # 1000000)", 1_000_000, None),
    ("(rect 0 0 1000000 #)", 1_000_000, None),
    ("(dummy # 0 1000000 1000000)", 1_000_000, Some(6)),
    ("(dummy 0 # 1000000 1000000)", 1_000_000, Some(6)),
    ("(dummy 0 0 # 1000000)", 1_000_000, None),
    ("(dummy 0 0 1000000 #)", 1_000_000, None),
    ("(fill # 0 1)", 63, Some(7)),
    ("(fill 0 # 1)", 63, Some(7)),
    ("(fill 0 0 #)", 1_000_000_000_000, None),
];

pub(super) fn at_their_limits() -> Vec<BoundaryJob> {
    let heads = HEADS
        .into_iter()
        .flat_map(|open| around_the_limit("", open));
    let before = format!("{HEAD}\n");
    let lines = LINES
        .into_iter()
        .flat_map(|open| around_the_limit(&before, open));
    heads.chain(lines).collect()
}

/// A number at its limit and one past it, the least and the greatest of 13 digits
/// that are past it, and the least and the greatest of 14.
fn around_the_limit(before: &str, (line, greatest, fault): Open) -> Vec<BoundaryJob> {
    let number = 1 + before.lines().count() as u32;
    let with = |value: u64, fault: Option<u32>| {
        let line = line.replace('#', &value.to_string());
        let file = format!("{before}{line}\n(end)\n").into_bytes();
        match fault {
            None => accepted(line, file),
            Some(fault) => refused(line, file, fault, number),
        }
    };
    let least_of_13_digits = 1_000_000_000_000.max(greatest + 1);
    vec![
        with(greatest, fault),
        with(greatest + 1, Some(3)),
        with(least_of_13_digits, Some(3)),
        with(9_999_999_999_999, Some(3)),
        with(10_000_000_000_000, Some(2)),
        with(99_999_999_999_999, Some(2)),
    ]
}
