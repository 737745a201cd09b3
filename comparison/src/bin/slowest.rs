//! Looks for slow jobs. From each heavy job, and from random ones of full size, it
//! tries changes in turn and goes on from every one that makes the answer take longer:
//! shapes moved or made wider or narrower, windows and gaps of other widths, kinds
//! exchanged, bounds at areas that windows have, fills in all tiles with room. It prints
//! what it began with and what it came to, and how many of the changes were legal jobs
//! and how many took longer; at last the slowest of all by its phases.
//!
//! The arguments are how many changes are tried from each start, 40 unless it is
//! given, and a file that the slowest job is written to.

use comparison::timing::{in_turn, Sample};
use comparison::{on_large_stack, LINKED};
use reference::answer::{Reply, ANSWER_ROOM};
use reference::fast;
use reference::generate::{large_job, large_jobs, within_limit, Random};
use reference::job::{Job, Kind, LARGEST_SIDE};

/// How many random jobs it starts from.
const RANDOM_STARTS: u64 = 30;

/// What counts as longer, so that noise seldom does.
const LONGER: f64 = 1.03;

/// A legal job and its file.
struct Legal {
    job: Job,
    file: Vec<u8>,
}

impl Legal {
    /// None if the job is refused.
    fn new(job: Job) -> Option<Legal> {
        let legal = Legal {
            file: within_limit(&job),
            job,
        };
        matches!(legal.answer(), Reply::Accepted(_)).then_some(legal)
    }

    fn answer(&self) -> Reply {
        LINKED.answer(&self.file, &mut [0; ANSWER_ROOM])
    }
}

/// The least times of their answers in so many rounds, in milliseconds.
fn times<const K: usize>(jobs: [&Legal; K], rounds: usize) -> [f64; K] {
    let samples = in_turn(rounds, &jobs.map(|legal| || legal.answer()));
    let least: Vec<f64> = samples.iter().map(Sample::least).collect();
    least.try_into().expect("a time of each")
}

/// Whether a job takes longer than another. Only what seems to is timed again.
fn takes_longer(job: &Legal, other: &Legal) -> bool {
    [1, 3].into_iter().all(|rounds| {
        let [time, before] = times([job, other], rounds);
        time > LONGER * before
    })
}

/// What changes led to, and how many of them were legal and taken.
struct Slowed {
    slowest: Legal,
    legal: u64,
    taken: u64,
}

impl Slowed {
    fn new(slowest: Legal) -> Slowed {
        Slowed {
            slowest,
            legal: 0,
            taken: 0,
        }
    }

    fn try_change(&mut self, random: &mut Random) {
        let Some(other) = Legal::new(changed(random, &self.slowest.job)) else {
            return;
        };
        self.legal += 1;
        if takes_longer(&other, &self.slowest) {
            self.taken += 1;
            self.slowest = other;
        }
    }
}

/// The job with one thing changed.
fn changed(random: &mut Random, job: &Job) -> Job {
    let mut job = job.clone();
    match random.below(9) {
        0 => change_window(random, &mut job),
        1 => change_bounds(random, &mut job),
        2 => job.gap = other_length(random, job.gap),
        3 => job.dummy_gap = other_length(random, job.dummy_gap),
        4 => exchange_kinds(random, &mut job),
        5 => job.fills = fills_with_room(&job),
        _ => change_shapes(random, &mut job),
    }
    // What was room before may be barred now.
    if job.fills.iter().any(|&amount| amount > 0) {
        job.fills = fills_with_room(&job);
    }
    job
}

/// A square of fill in each tile that has room for it.
fn fills_with_room(job: &Job) -> Vec<u64> {
    let areas = fast::fillable_areas(job);
    areas.into_iter().map(|most| most.min(1)).collect()
}

/// Tiles stay as they are.
fn change_window(random: &mut Random, job: &mut Job) {
    let tile = job.tile_side();
    job.cut = 1 + random.below(job.tiles());
    job.window = job.cut * tile;
    change_bounds(random, job);
}

/// Bounds at the areas of two windows.
fn change_bounds(random: &mut Random, job: &mut Job) {
    let cover = fast::metal_cover(job);
    let mut place = || random.below(job.last_position() + 1);
    let mut bound = || {
        let (x, y) = (place(), place());
        job.bound_at(cover.area([x, y, x + job.window, y + job.window]))
    };
    let (one, other) = (bound(), bound());
    (job.lower, job.upper) = (one.min(other), one.max(other));
}

/// Half to one and a half times as much, and a little more, so that 0 does not stay.
fn other_length(random: &mut Random, length: u64) -> u64 {
    let other = length / 2 + random.below(length + 100);
    other.min(LARGEST_SIDE)
}

/// Every shape of one kind in eight becomes one of the other.
fn exchange_kinds(random: &mut Random, job: &mut Job) {
    for shape in &mut job.shapes {
        if random.one_in(8) {
            shape.kind = match shape.kind {
                Kind::Drawn => Kind::Dummy,
                Kind::Dummy => Kind::Drawn,
            };
        }
    }
}

/// Some shapes, each moved or with a side moved, by up to so much, whatever that is.
/// Where it would leave the layout, be empty or overlap another, it stays.
fn change_shapes(random: &mut Random, job: &mut Job) {
    let most = 1 << random.below(17);
    let share = 1 << random.below(8);
    for place in 0..job.shapes.len() {
        if random.one_in(share) {
            let corners = other_corners(random, most, job.shapes[place].corners);
            if fits(job, place, corners) {
                job.shapes[place].corners = corners;
            }
        }
    }
}

fn other_corners(random: &mut Random, most: u64, corners: [u64; 4]) -> [u64; 4] {
    let mut by = || random.below(2 * most + 1);
    let [across, down] = [by(), by()];
    let mut by = [across, down, across, down];
    if random.one_in(2) {
        // A side of its own moves, the others stay.
        let side = random.below(4) as usize;
        by = [0, 1, 2, 3].map(|other| if other == side { by[side] } else { most });
    }
    [0, 1, 2, 3].map(|side| (corners[side] + by[side]).saturating_sub(most))
}

/// Whether the shape at a place may have these corners.
fn fits(job: &Job, place: usize, [x1, y1, x2, y2]: [u64; 4]) -> bool {
    let is_apart = |[a1, b1, a2, b2]: [u64; 4]| a2 <= x1 || x2 <= a1 || b2 <= y1 || y2 <= b1;
    let mut others = job.boxes().enumerate().filter(|&(other, _)| other != place);
    x1 < x2 && y1 < y2 && x2.max(y2) <= job.size && others.all(|(_, corners)| is_apart(corners))
}

/// The jobs that it starts from, by name.
fn starts() -> Vec<(String, Vec<u8>)> {
    let heavy = large_jobs(LARGEST_SIDE).into_iter();
    let heavy = heavy.map(|large| (large.name.to_string(), large.job));
    let random = |seed| large_job(&mut Random::new(seed));
    let random = (0..RANDOM_STARTS).map(|seed| (format!("random {seed}"), random(seed)));
    heavy.chain(random).collect()
}

fn search(changes: u64) -> Legal {
    let mut random = Random::new(1);
    let mut slowest_of_all: Option<(f64, Legal)> = None;
    for (name, file) in starts() {
        let start = || fast::read(&file).ok().and_then(Legal::new);
        let first = start().expect("a legal job");
        let mut slowed = Slowed::new(start().expect("a legal job"));
        (0..changes).for_each(|_| slowed.try_change(&mut random));
        let [before, time] = times([&first, &slowed.slowest], 3);
        let (legal, taken) = (slowed.legal, slowed.taken);
        println!("{name}: {before:.1} ms, slowed to {time:.1}; {legal} legal, {taken} taken");
        if slowest_of_all.as_ref().is_none_or(|(most, _)| time > *most) {
            slowest_of_all = Some((time, slowed.slowest));
        }
    }
    slowest_of_all.expect("some job").1
}

fn print_phases(Legal { file, .. }: &Legal) {
    let phases = [0, 1, 2, 3, 4, 5].map(|number| move || LINKED.phase(file, number));
    let least: Vec<f64> = in_turn(5, &phases).iter().map(Sample::least).collect();
    let [reading, exact, greatest, least, verdict, positions] =
        least.try_into().expect("a time of each phase");
    println!("reading {reading:.1} ms, exact run {:.1}", exact - reading);
    println!("quick runs {:.1}, {:.1}", greatest - exact, least - exact);
    println!("positions {:.1}", positions - reading);
    println!("verdict {:.1}", verdict - reading);
}

fn main() {
    let mut arguments = std::env::args().skip(1);
    let changes = arguments
        .next()
        .map_or(40, |text| text.parse().expect("a number of changes"));
    let path = arguments.next();
    on_large_stack(move || {
        let slowest = search(changes);
        let [time] = times([&slowest], 5);
        println!("the slowest: {time:.1} ms");
        print_phases(&slowest);
        if let Some(path) = path {
            std::fs::write(path, &slowest.file).expect("a file that can be written");
        }
    });
}
