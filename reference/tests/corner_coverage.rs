//! How many of the compared jobs have a fill that round corners decide on by one
//! square: all that its tile can take, or one square more, where square corners
//! would leave less.

mod counts;

use counts::Counts;
use reference::generate::{
    cautious_areas, corner_job, faulty_job, large_corner_job, small_job, Random,
    COMPARED_CORNER_SEEDS, COMPARED_FAULTY_SEEDS, COMPARED_LARGE_CORNER_SEEDS, COMPARED_SEEDS,
};
use reference::job::{Job, Kind, Refusal};
use reference::{brute, fast};

fn read(file: &str) -> Result<Job, Refusal> {
    fast::read(file.as_bytes())
}

fn text(file: Vec<u8>) -> String {
    String::from_utf8(file).expect("well spelled jobs are text")
}

/// Column and row of a tile, and an amount of fill.
type Fill = [u64; 3];

/// The fills of all that their tiles can take.
fn full_tiles(job: &Job) -> Vec<Fill> {
    let tiles = job.tiles();
    let areas = fast::fillable_areas(job);
    let all = job.fills.iter().zip(&areas).zip(0..);
    all.filter(|((&amount, &area), _)| amount > 0 && amount == area)
        .map(|((&amount, _), tile)| [tile % tiles, tile / tiles, amount])
        .collect()
}

/// The fill that a file is refused for as too much, and the job before it.
fn refused_fill(file: &str) -> Option<(Job, Fill)> {
    let refusal = read(file).err().filter(|refusal| refusal.number == 11)?;
    let lines: Vec<&str> = file.split_inclusive('\n').collect();
    let (before, rest) = lines.split_at(refusal.line as usize - 1);
    let job = read(&(before.concat() + "(end)\n")).expect("good lines");
    let numbers = rest[0].strip_prefix("(fill ")?.strip_suffix(")\n")?;
    let numbers: Vec<u64> = numbers.split(' ').map(|n| n.parse().unwrap()).collect();
    Some((job, numbers.try_into().unwrap()))
}

/// A test of gap across, gap down and the gap asked.
type Test = fn(u64, u64, u64) -> bool;

const SQUARE: Test = |across, down, gap| across >= gap || down >= gap;
const ROUND: Test = |across, down, gap| across * across + down * down >= gap * gap;
/// Not satisfied with what is exactly enough on both axes together.
const STRICT: Test =
    |across, down, gap| SQUARE(across, down, gap) || across * across + down * down > gap * gap;

/// Squares of a tile that are far enough from drawn metal and from dummies.
fn area(job: &Job, [column, row, _]: Fill, [drawn, dummy]: [Test; 2]) -> u64 {
    let is_free = |&square: &(u64, u64)| {
        job.shapes.iter().all(|shape| {
            let (across, down) = brute::gaps(shape, square);
            let test = match shape.kind {
                Kind::Drawn => drawn,
                Kind::Dummy => dummy,
            };
            let ([x1, y1, x2, y2], (x, y)) = (shape.corners, square);
            let covers = (x1..x2).contains(&x) && (y1..y2).contains(&y);
            !covers && test(across, down, job.gap_to(shape.kind))
        })
    };
    let squares = brute::tile_squares(job, column, row);
    squares.filter(is_free).count() as u64
}

/// What may be said of a fill of all that its tile can take.
const DECIDED: [&str; 8] = [
    "decided by round corners",
    "by those of drawn metal",
    "by those of dummies",
    "by those of both, with gaps that differ",
    "by squares exactly far enough",
    "all of it at corners",
    "all of it but one square off corners",
    "a single square",
];

/// Which of that is true of a fill; nothing if square corners would do.
fn decided(job: &Job, fill: Fill) -> [bool; 8] {
    let with = |tests| area(job, fill, tests);
    let (round, square) = (with([ROUND; 2]), with([SQUARE; 2]));
    assert_eq!(fill[2], round, "{fill:?} of {job:?}");
    let at_drawn = with([SQUARE, ROUND]) < round;
    let at_dummies = with([ROUND, SQUARE]) < round;
    let is_true = [
        true,
        at_drawn,
        at_dummies,
        at_drawn && at_dummies && job.gap != job.dummy_gap,
        with([STRICT; 2]) < round,
        square == 0,
        square + 1 == round,
        round == 1,
    ];
    is_true.map(|is_true| is_true && square < round)
}

/// Counts a job for all that is true of some of these fills.
fn see_decided(counts: &mut Counts, job: &Job, full: &[Fill]) {
    let of_fills: Vec<[bool; 8]> = full.iter().map(|&fill| decided(job, fill)).collect();
    for (place, name) in DECIDED.into_iter().enumerate() {
        counts.see_if(of_fills.iter().any(|is_true| is_true[place]), name);
    }
}

/// Requires so many jobs for each of what is counted.
fn require(counts: &Counts, least: [u64; 8]) {
    for (name, least) in DECIDED.into_iter().zip(least) {
        counts.require(least, [name.to_string()]);
    }
}

/// A job that is accepted, and the same but for one square, which is refused.
#[test]
fn corner_jobs_are_decided_by_one_square() {
    let mut counts = Counts::default();
    for seed in COMPARED_CORNER_SEEDS {
        let job = |excess| text(corner_job(&mut Random::new(seed), excess));
        let (full, overfull) = (job(0), job(1));
        let (_, [column, row, amount]) = refused_fill(&overfull).expect("too much fill");
        let line = |amount| format!("(fill {column} {row} {amount})\n");
        assert_eq!(full.replace(&line(amount - 1), &line(amount)), overfull);
        let job = read(&full).expect("a job without fault");
        see_decided(&mut counts, &job, &[[column, row, amount - 1]]);
    }
    require(&counts, [1000, 400, 400, 60, 100, 200, 80, 30]);
}

#[test]
fn small_jobs_fill_tiles_at_round_corners() {
    let mut counts = Counts::default();
    for seed in COMPARED_SEEDS {
        let file = text(small_job(&mut Random::new(seed)));
        let job = read(&file).expect("small jobs are valid");
        see_decided(&mut counts, &job, &full_tiles(&job));
    }
    require(&counts, [200, 150, 60, 0, 40, 100, 150, 100]);
}

#[test]
fn faulty_jobs_overfill_tiles_at_round_corners() {
    let mut counts = Counts::default();
    for seed in COMPARED_FAULTY_SEEDS {
        let file = text(faulty_job(&mut Random::new(seed)));
        let Some((job, [column, row, amount])) = refused_fill(&file) else {
            continue;
        };
        let fill = [column, row, amount - 1];
        if area(&job, fill, [ROUND; 2]) == fill[2] {
            see_decided(&mut counts, &job, &[fill]);
        }
    }
    require(&counts, [10, 5, 2, 0, 0, 0, 0, 0]);
}

#[test]
fn large_corner_jobs_are_decided_by_one_square() {
    for seed in COMPARED_LARGE_CORNER_SEEDS {
        let job = |excess| text(large_corner_job(&mut Random::new(seed), excess));
        read(&job(0)).expect("a job without fault");
        let (job, [column, row, amount]) = refused_fill(&job(1)).expect("too much fill");
        let tile = (row * job.tiles() + column) as usize;
        let sure = cautious_areas(&job)[tile];
        assert!(sure < amount - 1, "{job:?}");
    }
}
