//! Fills on both sides of the arcs that a gap draws around a shape's corners.

use super::gaps::{around_the_room, Gaps};
use super::{accepted, bytes_of, refused, BoundaryJob, Line};
use crate::job::{Kind, LARGEST_SIDE, MOST_TILES};

/// The least gap across that makes up for a gap down.
fn least_across(gap: u64, down: u64) -> u64 {
    let missing = (gap * gap).saturating_sub(down * down);
    let root = missing.isqrt();
    root + u64::from(root * root < missing)
}

/// The gaps of a head with this one for a kind and the other one for the other.
fn gaps_for(kind: Kind, gap: u64, other: u64) -> Gaps {
    match kind {
        Kind::Drawn => (gap, Some(other)),
        Kind::Dummy => (other, Some(gap)),
    }
}

/// A shape in a layout of 64 by 64, with room around it for the gaps below.
const SHAPE: [u64; 4] = [30, 31, 33, 32];

/// The first is request 6's; each of the others is the longest side of a right
/// triangle with whole sides, so that some squares are exactly far enough.
const SMALL_GAPS: [u64; 5] = [4, 5, 10, 13, 25];

/// Whether a square lies to the right of a shape, and above it.
const AROUND: [(bool, bool); 4] = [(false, false), (false, true), (true, false), (true, true)];

/// Where a square lies from a shape.
#[derive(Clone, Copy, Debug)]
struct Place {
    across: u64,
    down: u64,
    right: bool,
    above: bool,
}

/// The place of a square so far from a span, after or before it.
fn beside([low, high]: [u64; 2], distance: u64, after: bool) -> u64 {
    if after {
        high + distance
    } else {
        low - 1 - distance
    }
}

/// Tiles of one square each, around all four corners of a shape: at each gap down
/// the first square that is far enough, and the one before it.
pub(super) fn single_squares() -> Vec<BoundaryJob> {
    let at_gap_down = |gap: u64, down: u64| {
        let reach = least_across(gap, down);
        AROUND.into_iter().flat_map(move |(right, above)| {
            let place = |across| Place {
                across,
                down,
                right,
                above,
            };
            let enough = single_square(gap, place(reach), None);
            let before = reach.checked_sub(1).map(place);
            let too_near = before.map(|place| single_square(gap, place, Some(11)));
            [Some(enough), too_near].into_iter().flatten()
        })
    };
    SMALL_GAPS
        .into_iter()
        .flat_map(|gap| (0..=gap).flat_map(move |down| at_gap_down(gap, down)))
        .collect()
}

/// The shape, one square beside it to be filled, and the fault that it has. At two
/// of its corners the shape is drawn metal, at the others a dummy.
fn single_square(gap: u64, place: Place, fault: Option<u32>) -> BoundaryJob {
    let [x1, y1, x2, y2] = SHAPE;
    let column = beside([x1, x2], place.across, place.right);
    let row = beside([y1, y2], place.down, place.above);
    let kind = Kind::BOTH[usize::from(place.right == place.above)];
    let (gap, dummy_gap) = gaps_for(kind, gap, 0);
    let name = format!("gaps {gap} {dummy_gap:?}, a square at {place:?}");
    let job = bytes_of(&[
        Line::Head([64, 64, 64, gap, 0, 10_000, 0, 6], dummy_gap),
        Line::shape(kind, SHAPE),
        Line::Fill([column, row, 1]),
        Line::End,
    ]);
    match fault {
        None => accepted(name, job),
        Some(number) => refused(name, job, number, 3),
    }
}

/// The side of a layout; the gaps across and down of the square that is farthest
/// from a shape in one corner; a gap, and how many squares it leaves. Neither axis
/// is enough alone, so all of them lie in the opposite corner.
const FAR_CORNERS: [[u64; 5]; 20] = [
    // Exactly far enough.
    [1_000_000, 800_000, 600_000, 1_000_000, 1],
    [1_000_000, 280_000, 960_000, 1_000_000, 1],
    [1_000_000, 997_120, 75_840, 1_000_000, 1],
    [1_000_000, 643_041, 765_820, 999_991, 1],
    // The sum of the squares is 1 more than asked, and 1 less.
    [1_000_000, 107_009, 994_249, 999_991, 1],
    [1_000_000, 724_130, 689_649, 999_990, 1],
    [1_000_000, 997_889, 64_448, 999_968, 1],
    [1_000_000, 978_272, 207_176, 999_969, 0],
    [1_000_000, 217_664, 975_992, 999_969, 0],
    [1_000_000, 752_704, 658_312, 999_969, 0],
    // Beside an axis.
    [1_000_000, 999_998, 2000, 1_000_000, 1],
    [1_000_000, 999_998, 1999, 1_000_000, 0],
    [1_000_000, 1415, 999_998, 999_999, 1],
    [1_000_000, 1414, 999_998, 999_999, 0],
    // On the diagonal, in the smallest layouts where the widest gap leaves squares.
    [707_108, 707_106, 707_106, 1_000_000, 0],
    [707_109, 707_106, 707_107, 1_000_000, 0],
    [707_109, 707_107, 707_107, 1_000_000, 1],
    [707_110, 707_107, 707_108, 1_000_000, 3],
    [707_110, 707_108, 707_107, 1_000_000, 3],
    // A sum of squares just past 32 bits.
    [46_343, 46_341, 46_341, 65_535, 3],
];

/// Each of them in two opposite corners, with a kind each, and whatever gap for
/// the other kind, which has no shapes.
pub(super) fn far_corners() -> Vec<BoundaryJob> {
    let mut jobs = Vec::new();
    for (number, [side, across, down, gap, room]) in FAR_CORNERS.into_iter().enumerate() {
        let (x, y) = (side - 1 - across, side - 1 - down);
        let pair = match number % 2 {
            0 => [[0, 0, x, y], [side - x, side - y, side, side]],
            _ => [[side - x, 0, side, y], [0, side - y, x, side]],
        };
        for (kind, corners) in Kind::BOTH.into_iter().zip(pair) {
            let gaps = gaps_for(kind, gap, [0, 1_000_000][number % 2]);
            let shape = Line::shape(kind, corners);
            jobs.extend(around_the_room(side, gaps, &[shape], room));
        }
    }
    jobs
}

/// Side of a tile in the widest layout that has 64 of them across.
const TILE: u64 = LARGEST_SIDE / MOST_TILES;

/// A gap to a unit square in that layout's corner, column and row of a tile that
/// its arc crosses, and how many squares it leaves there.
const CROSSED: [[u64; 4]; 12] = [
    [20_000, 0, 0, 4_555_929],
    [20_000, 1, 0, 206_823_370],
    [20_000, 0, 1, 206_823_370],
    [707_107, 30, 32, 117_790],
    [707_107, 44, 8, 134_627_342],
    [707_107, 32, 32, 244_140_619],
    [1_000_000, 55, 30, 17_001],
    [1_000_000, 39, 49, 242_184],
    [1_000_000, 61, 17, 107_339_591],
    [1_000_000, 27, 58, 243_963_470],
    [1_000_000, 63, 11, 242_561_119],
    [1_000_000, 2, 63, 12_060_436],
];

/// All that a tile across an arc can take, and one more.
pub(super) fn crossed_tiles() -> Vec<BoundaryJob> {
    let size = TILE * MOST_TILES;
    let around = |(kind, [gap, column, row, room]): (Kind, [u64; 4])| {
        let (gap, dummy_gap) = gaps_for(kind, gap, 0);
        let job = |amount| {
            bytes_of(&[
                Line::Head([size, size, MOST_TILES, gap, 0, 10_000, 0, 6], dummy_gap),
                Line::shape(kind, [0, 0, 1, 1]),
                Line::Fill([column, row, amount]),
                Line::End,
            ])
        };
        let name = |amount| format!("gaps {gap} {dummy_gap:?}, {amount} in tile {column} {row}");
        [
            accepted(name(room), job(room)),
            refused(name(room + 1), job(room + 1), 11, 3),
        ]
    };
    let kinds = Kind::BOTH.into_iter().cycle();
    kinds.zip(CROSSED).flat_map(around).collect()
}
