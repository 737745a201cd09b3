//! Fills at the limit that one of the two gaps sets.

use super::{accepted, bytes_of, refused, BoundaryJob, Line};
use crate::job::Kind;

/// The gap and the dummy gap as a head states them.
pub(super) type Gaps = (u64, Option<u64>);

/// A layout of this side in one tile, with these gaps and shapes and so much fill.
fn filled(side: u64, (gap, dummy_gap): Gaps, shapes: &[Line], fill: u64) -> Vec<u8> {
    let head = Line::Head([side, side, 1, gap, 0, 10_000, 0, 6], dummy_gap);
    let file = [&[head], shapes, &[Line::Fill([0, 0, fill]), Line::End]];
    bytes_of(&file.concat())
}

/// As much fill as the tile can take, if it can take any, and one more.
pub(super) fn around_the_room(
    side: u64,
    gaps: Gaps,
    shapes: &[Line],
    room: u64,
) -> impl Iterator<Item = BoundaryJob> {
    let corners: Vec<[u64; 4]> = shapes.iter().filter_map(Line::corners).collect();
    let name = |fill| format!("{corners:?} of {side}, gaps {gaps:?}, fill {fill} of {room}");
    let job = |fill| filled(side, gaps, shapes, fill);
    let all = (room > 0).then(|| accepted(name(room), job(room)));
    let line = 2 + shapes.len() as u32;
    let more = refused(name(room + 1), job(room + 1), 11, line);
    all.into_iter().chain([more])
}

/// Gap and dummy gap, and what is fillable of a layout of 4 by 4 that has drawn
/// metal in 0 0 1 1 and a dummy in 3 0 4 2. A gap of 3 leaves nothing of it.
const ROOM: [[u64; 3]; 13] = [
    [0, 0, 13],
    [0, 1, 9],
    [0, 2, 3],
    [1, 0, 10],
    [1, 1, 6],
    [1, 2, 2],
    [2, 0, 5],
    [2, 1, 4],
    [2, 2, 1],
    [3, 0, 0],
    [0, 3, 0],
    [1_000_000, 0, 0],
    [0, 1_000_000, 0],
];

pub(super) fn decided_by_either() -> Vec<BoundaryJob> {
    let shapes = [
        Line::shape(Kind::Drawn, [0, 0, 1, 1]),
        Line::shape(Kind::Dummy, [3, 0, 4, 2]),
    ];
    let spelled = |[gap, dummy_gap, room]: [u64; 3]| {
        let one_gap = (gap == dummy_gap).then_some((gap, None));
        let both_gaps = (gap, Some(dummy_gap));
        let heads = one_gap.into_iter().chain([both_gaps]);
        heads.map(move |gaps| (gaps, room))
    };
    ROOM.into_iter()
        .flat_map(spelled)
        .flat_map(|(gaps, room)| around_the_room(4, gaps, &shapes, room))
        .collect()
}

/// The gap to a unit square in the corner of the widest layout, and what it
/// leaves to fill. The other gap does not matter, however wide. With no gap, one
/// square more than there is room for is still an amount in its range.
const WIDE_ROOM: [[u64; 2]; 6] = [
    [0, 999_999_999_999],
    [65_536, 996_626_544_350],
    [707_107, 607_298_554_472],
    [999_998, 214_601_978_743],
    [999_999, 214_600_407_956],
    [1_000_000, 214_598_840_438],
];

pub(super) fn wide() -> Vec<BoundaryJob> {
    let mut jobs = Vec::new();
    for [gap, room] in WIDE_ROOM {
        for other in [0, 1_000_000] {
            for (kind, gaps) in [
                (Kind::Drawn, (gap, Some(other))),
                (Kind::Dummy, (other, Some(gap))),
            ] {
                let corner = Line::shape(kind, [0, 0, 1, 1]);
                jobs.extend(around_the_room(1_000_000, gaps, &[corner], room));
            }
        }
    }
    jobs
}
