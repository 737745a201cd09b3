//! Jobs at the limits, each with the fault it must be refused with, if any.

mod corners;
mod gaps;
mod numbers;
mod positions;
mod shapes;
mod spellings;

use super::line::{bytes_of, Line};
use crate::job::{Kind, Refusal, LARGEST_FILE};

/// A named job whose acceptance or refusal is known.
pub struct BoundaryJob {
    pub name: String,
    pub job: Vec<u8>,
    /// None if the job is to be accepted.
    pub refusal: Option<Refusal>,
}

/// All jobs at the limits.
pub fn boundary_jobs() -> Vec<BoundaryJob> {
    [
        file_lengths(),
        shapes::counts(),
        shapes::beyond_the_last(),
        numbers::at_their_limits(),
        head_limits(),
        second_heads(),
        spellings::of_heads(),
        spellings::of_dummies(),
        shapes::pairs(),
        shapes::alone(),
        shapes::out_of_turn(),
        Kind::BOTH.into_iter().flat_map(fill_limits).collect(),
        gaps::decided_by_either(),
        gaps::wide(),
        corners::single_squares(),
        corners::far_corners(),
        corners::crossed_tiles(),
        halves_of_a_wide_window(),
        positions::all_alike(),
        positions::one_square_off_a_bound(),
        file_ends(),
    ]
    .into_iter()
    .flatten()
    .collect()
}

fn accepted(name: impl Into<String>, job: Vec<u8>) -> BoundaryJob {
    BoundaryJob {
        name: name.into(),
        job,
        refusal: None,
    }
}

fn refused(name: impl Into<String>, job: Vec<u8>, number: u32, line: u32) -> BoundaryJob {
    BoundaryJob {
        refusal: Some(Refusal { number, line }),
        ..accepted(name, job)
    }
}

/// A valid file of exactly this many bytes, near the most that is allowed: a
/// fill in every tile, the amounts as many digits long as it takes. With 64
/// tiles across, even one digit for each would be too long.
fn file_of_length(length: usize) -> Vec<u8> {
    let tiles = 60;
    let mut lines = vec![Line::Head(
        [1000 * tiles, 1000, 1, 0, 0, 10_000, 0, 6],
        None,
    )];
    for tile in 0..tiles * tiles {
        lines.push(Line::Fill([tile % tiles, tile / tiles, 1]));
    }
    lines.push(Line::End);
    let mut missing = length - bytes_of(&lines).len();
    for line in &mut lines {
        if let Line::Fill([_, _, amount]) = line {
            let digits = missing.min(5);
            *amount = 10u64.pow(digits as u32);
            missing -= digits;
        }
    }
    bytes_of(&lines)
}

fn file_lengths() -> Vec<BoundaryJob> {
    let long = LARGEST_FILE + 1;
    vec![
        accepted("60,000 bytes", file_of_length(LARGEST_FILE)),
        refused("60,001 bytes", file_of_length(long), 1, 0),
        refused("60,000 bytes, none good", vec![b'x'; LARGEST_FILE], 2, 1),
        refused("60,001 bytes, none good", vec![b'x'; long], 1, 0),
        refused("60,000 line feeds", vec![b'\n'; LARGEST_FILE], 2, 1),
        refused("60,001 line feeds", vec![b'\n'; long], 1, 0),
    ]
}

const GOOD_HEADS: [[u64; 8]; 13] = [
    [8, 4, 2, 1, 0, 5000, 0, 6],
    [8, 4, 2, 1, 0, 5000, 1000, 6],
    [8, 4, 2, 1, 0, 5000, 0, 1],
    [8, 8, 2, 1, 0, 5000, 0, 6],
    [8, 4, 2, 0, 5000, 5000, 0, 6],
    [8, 4, 2, 1_000_000, 10_000, 10_000, 0, 6],
    [64, 1, 1, 0, 0, 0, 0, 6],
    [64, 64, 64, 0, 0, 0, 0, 6],
    [65_535, 65_535, 1, 65_535, 0, 0, 0, 6],
    [65_536, 65_536, 64, 65_536, 0, 0, 0, 6],
    [1_000_000, 1_000_000, 64, 0, 0, 0, 0, 6],
    [1_000_000, 1_000_000, 1, 0, 0, 0, 0, 6],
    [1, 1, 1, 0, 0, 0, 0, 1],
];

const HEADS_OUT_OF_RANGE: [[u64; 8]; 13] = [
    [0, 1, 1, 1, 0, 5000, 0, 6],
    [8, 0, 2, 1, 0, 5000, 0, 6],
    [1_000_001, 4, 2, 1, 0, 5000, 0, 6],
    [8, 1_000_001, 2, 1, 0, 5000, 0, 6],
    [8, 4, 0, 1, 0, 5000, 0, 6],
    [65, 65, 65, 1, 0, 5000, 0, 6],
    [8, 4, 2, 1_000_001, 0, 5000, 0, 6],
    [8, 4, 2, 1, 10_001, 10_001, 0, 6],
    [8, 4, 2, 1, 0, 10_001, 0, 6],
    [8, 4, 2, 1, 0, 5000, 1001, 6],
    [8, 4, 2, 1, 0, 5000, 0, 0],
    [8, 4, 2, 1, 0, 5000, 0, 7],
    [9_999_999_999_999, 4, 2, 1, 0, 5000, 0, 6],
];

const HEADS_THAT_DISAGREE: [[u64; 8]; 7] = [
    [8, 9, 1, 1, 0, 5000, 0, 6],
    [8, 4, 3, 1, 0, 5000, 0, 6],
    [8, 4, 8, 1, 0, 5000, 0, 6],
    [9, 4, 2, 1, 0, 5000, 0, 6],
    [65, 1, 1, 0, 0, 0, 0, 6],
    [65, 10, 10, 0, 0, 0, 0, 6],
    [8, 4, 2, 1, 5001, 5000, 0, 6],
];

/// Dummy gaps that a head may state, or none.
const GOOD_DUMMY_GAPS: [Option<u64>; 4] = [None, Some(0), Some(1), Some(1_000_000)];

const DUMMY_GAPS_OUT_OF_RANGE: [Option<u64>; 2] = [Some(1_000_001), Some(9_999_999_999_999)];

/// Where a number is out of its range, it does not matter whether the head agrees.
fn head_limits() -> Vec<BoundaryJob> {
    let good = GOOD_DUMMY_GAPS.into_iter().flat_map(|dummy_gap| {
        let with_fault = |fault| move |head| head_alone(head, dummy_gap, fault);
        let good = GOOD_HEADS.map(with_fault(None));
        let outside = HEADS_OUT_OF_RANGE.map(with_fault(Some(3)));
        let disagree = HEADS_THAT_DISAGREE.map(with_fault(Some(5)));
        good.into_iter().chain(outside).chain(disagree)
    });
    let outside = DUMMY_GAPS_OUT_OF_RANGE.into_iter().flat_map(|dummy_gap| {
        let heads = GOOD_HEADS.into_iter().chain(HEADS_THAT_DISAGREE);
        heads.map(move |head| head_alone(head, dummy_gap, Some(3)))
    });
    good.chain(outside).collect()
}

/// A head with nothing behind it but the end, and the fault it has.
fn head_alone(head: [u64; 8], dummy_gap: Option<u64>, fault: Option<u32>) -> BoundaryJob {
    let name = format!("head {head:?}, dummy gap {dummy_gap:?}");
    let file = bytes_of(&[Line::Head(head, dummy_gap), Line::End]);
    match fault {
        None => accepted(name, file),
        Some(number) => refused(name, file, number, 1),
    }
}

/// A second head is held to its range, and then has no turn, agree or not.
fn second_heads() -> Vec<BoundaryJob> {
    let second = |head, dummy_gap, number| {
        let name = format!("second head {head:?}, dummy gap {dummy_gap:?}");
        refused(name, small_file(&[Line::Head(head, dummy_gap)]), number, 2)
    };
    let heads = [SMALL_HEAD, HEADS_THAT_DISAGREE[0]];
    let of_head = |head| {
        let good = GOOD_DUMMY_GAPS.map(|gap| second(head, gap, 4));
        let outside = DUMMY_GAPS_OUT_OF_RANGE.map(|gap| second(head, gap, 3));
        good.into_iter().chain(outside)
    };
    heads.into_iter().flat_map(of_head).collect()
}

const SMALL_HEAD: [u64; 8] = [8, 4, 2, 1, 0, 5000, 0, 6];

/// A file with the head of a small job, these lines and the end.
fn small_file(lines: &[Line]) -> Vec<u8> {
    let head = Line::Head(SMALL_HEAD, None);
    let file = [&[head], lines, &[Line::End]];
    bytes_of(&file.concat())
}

/// Fills beside a shape of this kind, the head with one gap for both.
fn fill_limits(kind: Kind) -> Vec<BoundaryJob> {
    let shape = Line::shape(kind, [3, 3, 5, 5]);
    let filled = |fill| small_file(&[shape, Line::Fill(fill)]);
    let twice = small_file(&[shape, Line::Fill([0, 0, 1]), Line::Fill([0, 0, 1])]);
    let name = |what: &str| format!("{what}, {kind:?}");
    vec![
        accepted(name("all that tile 0 0 can take"), filled([0, 0, 4])),
        refused(name("one more than it can take"), filled([0, 0, 5]), 11, 3),
        refused(name("a tile that can take none"), filled([1, 1, 1]), 11, 3),
        refused(name("no fill"), filled([0, 0, 0]), 3, 3),
        accepted(name("the last tile"), filled([3, 3, 4])),
        refused(name("a column too far"), filled([4, 3, 1]), 7, 3),
        refused(name("a row too far"), filled([3, 4, 1]), 7, 3),
        refused(name("column 63"), filled([63, 0, 1]), 7, 3),
        refused(name("column 64"), filled([64, 0, 1]), 3, 3),
        refused(name("a tile filled twice"), twice, 10, 4),
    ]
}

/// Metal of this width and height from a corner on, and with its last row one square
/// short, and one square long; each with what it is called.
fn one_square_off([x, y]: [u64; 2], [width, height]: [u64; 2]) -> [(&'static str, [Line; 2]); 3] {
    let last = y + height - 1;
    [
        (" less one square", width - 1),
        ("", width),
        (" and one square", width + 1),
    ]
    .map(|(difference, last_width)| {
        let metal = [
            Line::shape(Kind::Drawn, [x, y, x + width, last]),
            Line::shape(Kind::Drawn, [x, last, x + last_width, last + 1]),
        ];
        (difference, metal)
    })
}

/// Densities that are exact halves under the widest window whose side is a
/// multiple of 8: 312.5 where a 32nd of it is covered and 937.5 where three are;
/// each also with one square less, and one more.
fn halves_of_a_wide_window() -> Vec<BoundaryJob> {
    let eighth = 125_000;
    let head = Line::Head([8 * eighth, 8 * eighth, 1, 0, 0, 10_000, 0, 6], None);
    let around = |density: &'static str, sides: [u64; 2]| {
        one_square_off([0, 0], sides)
            .into_iter()
            .map(move |(difference, metal)| {
                let file = bytes_of(&[&[head], &metal[..], &[Line::End]].concat());
                accepted(format!("density {density}{difference}"), file)
            })
    };
    let down = around("312.5", [2 * eighth, eighth]);
    let up = around("937.5", [3 * eighth, 2 * eighth]);
    down.chain(up).collect()
}

fn file_ends() -> Vec<BoundaryJob> {
    let good = small_file(&[]);
    let cut = |count: usize| good[..good.len() - count].to_vec();
    let with = |tail: &[u8]| [&good[..], tail].concat();
    vec![
        refused("empty", Vec::new(), 12, 1),
        refused("a line feed", b"\n".to_vec(), 2, 1),
        refused("an end alone", b"(end)\n".to_vec(), 4, 1),
        refused("no end", cut(6), 12, 2),
        refused("no last line feed", cut(1), 2, 2),
        refused("an empty line behind", with(b"\n"), 2, 3),
        refused("a second end", with(b"(end)\n"), 4, 3),
        refused("a second end without line feed", with(b"(end)"), 2, 3),
    ]
}
