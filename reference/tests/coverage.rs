//! Whether the generated jobs reach every kind of answer and refusal.

mod counts;
mod verdicts;

use counts::Counts;
use reference::answer::{answer, Method, Reply, ANSWER_ROOM};
use reference::fast;
use reference::generate::{
    boundary_jobs, damaged_job, faulty_job, job_with_fault, large_job, mixed_job, small_job,
    Random, COMPARED_DAMAGED_SEEDS, COMPARED_FAULTY_SEEDS, COMPARED_LARGE_SEEDS, COMPARED_SEEDS,
    SPOILABLE,
};
use reference::job::{Job, Refusal};
use reference::outcome::{End, Exact, Outcome, Quick, Shown};
use reference::sense::Sense;
use verdicts::verdict_name;

fn line_name(sense: Sense) -> &'static str {
    match sense {
        Sense::Greatest => "zoom",
        Sense::Least => "zoommin",
    }
}

fn see_quick(counts: &mut Counts, job: &Job, quick: Quick, exact: &Exact) {
    let Quick { sense, named, .. } = quick;
    let (low, high) = quick.bracket();
    let extreme = exact.window(sense);
    let line = line_name(sense);
    let mut see_if = |seen, what: &str| counts.see_if(seen, &format!("{line} {what}"));
    let end = format!("{} {}", quick.end, quick.levels);
    see_if(true, &end);
    let many_positions = job.size > job.window;
    see_if(many_positions && low > 0, &format!("{end} above 0"));
    see_if(low == 0 && high > 0, "zero low end");
    see_if(quick.end == End::Met && quick.kept > 0, "met with kept");
    see_if(named.area != extreme.area, "extreme not found");
    see_if(quick.limit != extreme.area, "limit off the extreme");
    let by_search = quick.end == End::Exact;
    see_if(by_search && named != extreme, "earlier window stays");
    for levels in 1..quick.levels - u64::from(by_search) {
        let leaves_out = leaves_out_starts(job, sense, exact, levels);
        see_if(leaves_out, &format!("passes over after {levels}"));
    }
}

/// Whether some start is not kept after so many levels, so that a further level
/// passes over the starts that come from it.
fn leaves_out_starts(job: &Job, sense: Sense, exact: &Exact, levels: u64) -> bool {
    let shorter = Job {
        levels,
        ..job.clone()
    };
    let stopped = fast::quick_run(&shorter, &fast::metal_cover(job), sense, exact);
    let across = job.last_position() / (job.window >> (levels - 1)) + 1;
    stopped.kept < across * across
}

/// The names of the windows that an answer shows.
const SHOWN_NAMES: [&str; 4] = ["max", "min", "floor", "high"];

fn see_shapes(counts: &mut Counts, job: &Job, name: &str, shown: Shown) {
    let Shown { window, shapes } = shown;
    let mut see_if = |seen, what: &str| counts.see_if(seen, &format!("{name} {what}"));
    see_if(shapes == 0, "has no shape");
    see_if(shapes == 1, "has one shape");
    see_if(shapes > 1, "has several shapes");
    see_if(shapes >= 10, "has 10 shapes");
    see_if(shapes >= 100, "has 100 shapes");
    let is_full = window.area == job.window * job.window;
    see_if(shapes == 1 && is_full, "lies inside a shape");
    // A shape that touches one side has squares in a window wider there; one
    // that touches a corner has them only in a window wider on all sides.
    let [x1, y1, x2, y2] = window.corners(job.window);
    let (left, right) = (x1.saturating_sub(1), x2 + 1);
    let (below, above) = (y1.saturating_sub(1), y2 + 1);
    let touching = |wider| fast::shapes(job, wider) - shapes;
    let mut at_corners = touching([left, below, right, above]);
    for (side, wider) in [
        ("left", [left, y1, x2, y2]),
        ("right", [x1, y1, right, y2]),
        ("below", [x1, below, x2, y2]),
        ("above", [x1, y1, x2, above]),
    ] {
        see_if(touching(wider) > 0, &format!("is touched {side}"));
        at_corners -= touching(wider);
    }
    see_if(at_corners > 0, "is touched at a corner");
}

/// Whether the named window has as much metal as the extreme one, but in more
/// or fewer shapes.
fn see_other_shapes(counts: &mut Counts, quick: &Quick<Shown>, exact: &Exact<Shown>) {
    let (named, extreme) = (quick.named, exact.window(quick.sense));
    let as_good = named.window.area == extreme.window.area;
    if as_good && named.shapes != extreme.shapes {
        let line = line_name(quick.sense);
        counts.see(format!("{line} {} with other shapes", quick.end));
    }
}

/// Where a density lies between its whole neighbours. Twice the density, rounded
/// down, is odd from the half on; without a rest the density is whole or a half.
fn density_name(floor_and_ceiling: u64, side: u64) -> &'static str {
    let (parts, square) = (10_000 * floor_and_ceiling, side * side);
    let (halves, has_rest) = (parts / square, !parts.is_multiple_of(square));
    match (halves % 4, has_rest) {
        (0 | 2, false) => "density whole",
        (0 | 2, true) => "density nearest to the lower",
        (1 | 3, true) => "density nearest to the upper",
        (1, _) => "density halfway above an even one",
        _ => "density halfway above an odd one",
    }
}

fn see_outcome(counts: &mut Counts, job: &Job, outcome: &Outcome) {
    let Outcome {
        exact,
        greatest,
        least,
        ..
    } = outcome;
    let found = exact.map(|shown| shown.window);
    for quick in [greatest, least] {
        see_quick(counts, job, quick.map(|shown| shown.window), &found);
        see_other_shapes(counts, quick, exact);
    }
    let shown = [exact.max, exact.min, greatest.named, least.named];
    for (name, shown) in SHOWN_NAMES.into_iter().zip(shown) {
        see_shapes(counts, job, name, shown);
    }
    counts.see_if(greatest.levels > least.levels, "zoom does more levels");
    counts.see_if(least.levels > greatest.levels, "zoommin does more levels");
    counts.see(verdict_name(outcome.verdict));
    let floor_and_ceiling = greatest.named.window.area + greatest.limit;
    counts.see(density_name(floor_and_ceiling, job.window));
    counts.see_if(outcome.density > 10_000, "density above 10000");
    counts.see_if(job.size == job.window, "one position");
    counts.see_if(job.window.is_multiple_of(32), "window halved no further");
    counts.see_if(job.cut == 1, "one tile a window");
    counts.see_if(
        !job.last_position().is_multiple_of(job.window),
        "ragged starts",
    );
    let fillable = fast::fillable_areas(job);
    let full = |(&amount, &most): (&u64, &u64)| amount > 0 && amount == most;
    counts.see_if(job.fills.iter().zip(&fillable).any(full), "full tile");
}

/// What the quick run of a sense must be seen to do.
fn wanted_of_quick_run(sense: Sense) -> impl Iterator<Item = String> {
    let ends = |levels| {
        let exact = format!("exact {}", levels + 1);
        [format!("met {levels}"), format!("stopped {levels}"), exact]
    };
    // At level 0 shrunk windows are empty: a least area above 0 is not met there,
    // and no start is left out.
    let first = match sense {
        Sense::Greatest => 1,
        Sense::Least => 2,
    };
    let met_above_zero = (first..=5).map(|levels| format!("met {levels} above 0"));
    let passing_over = (first..=4).map(|levels| format!("passes over after {levels}"));
    let others = [
        "zero low end",
        "met with kept",
        "extreme not found",
        "limit off the extreme",
        "earlier window stays",
    ];
    (1..=5)
        .flat_map(ends)
        .chain(met_above_zero)
        .chain(passing_over)
        .chain(others.map(String::from))
        .map(move |what| format!("{} {what}", line_name(sense)))
}

/// What the windows that an answer shows must be seen to have under them.
fn wanted_of_shapes() -> impl Iterator<Item = String> {
    let of_a_window = [
        "has no shape",
        "has one shape",
        "has several shapes",
        "has 10 shapes",
        "has 100 shapes",
        "lies inside a shape",
        "is touched left",
        "is touched right",
        "is touched below",
        "is touched above",
        "is touched at a corner",
    ];
    let named = SHOWN_NAMES
        .into_iter()
        .flat_map(move |name| of_a_window.map(|what| format!("{name} {what}")));
    let of_a_line = |sense| {
        [End::Met, End::Stopped, End::Exact]
            .map(|end| format!("{} {end} with other shapes", line_name(sense)))
    };
    named.chain(Sense::BOTH.into_iter().flat_map(of_a_line))
}

/// The very jobs on which implementations are compared.
#[test]
fn small_jobs_reach_every_answer() {
    let mut counts = Counts::default();
    for seed in COMPARED_SEEDS {
        let file = small_job(&mut Random::new(seed));
        let job = fast::read(&file).expect("small jobs are valid");
        see_outcome(&mut counts, &job, &Method::Fast.outcome(&job));
    }
    let others = [
        "zoom does more levels",
        "zoommin does more levels",
        "safe",
        "broken over",
        "broken under",
        "undecided over",
        "undecided under",
        "density above 10000",
        "one position",
        "window halved no further",
        "one tile a window",
        "ragged starts",
        "full tile",
    ];
    let wanted = Sense::BOTH
        .into_iter()
        .flat_map(wanted_of_quick_run)
        .chain(wanted_of_shapes())
        .chain(others.map(String::from));
    counts.require(10, wanted);
    let densities = [
        "density whole",
        "density nearest to the lower",
        "density nearest to the upper",
        "density halfway above an even one",
        "density halfway above an odd one",
    ];
    counts.require(150, densities.map(String::from));
}

fn reply_name(job: &[u8], buffer: &mut [u8]) -> String {
    match answer(job, buffer) {
        Reply::Accepted(_) => "accepted".to_string(),
        Reply::Refused { number, .. } => format!("fault {number}"),
    }
}

#[test]
fn every_fault_can_be_asked_for() {
    let mut random = Random::new(2);
    for fault in SPOILABLE {
        let mut counts = Counts::default();
        for _ in 0..400 {
            let job = job_with_fault(&mut random, fault);
            counts.see(reply_name(&job, &mut [0; ANSWER_ROOM]));
        }
        println!("asked for fault {fault}");
        counts.require(100, [format!("fault {fault}")]);
    }
}

#[test]
fn mixed_jobs_reach_every_fault() {
    let mut counts = Counts::default();
    let mut random = Random::new(3);
    for _ in 0..20_000 {
        let length = if random.one_in(20) { 60 } else { ANSWER_ROOM };
        let job = mixed_job(&mut random);
        counts.see(reply_name(&job, &mut vec![0; length]));
    }
    counts.require(100, (2..=13).map(|number| format!("fault {number}")));
    counts.require(9000, ["accepted".to_string()]);
}

#[test]
fn boundary_jobs_reach_every_fault_of_the_file() {
    let mut counts = Counts::default();
    for case in boundary_jobs() {
        counts.see(reply_name(&case.job, &mut [0; ANSWER_ROOM]));
    }
    let faults = (1..=12).map(|number| format!("fault {number}"));
    counts.require(1, faults.chain(["accepted".to_string()]));
}

/// The line that a file is refused for, if it is text, with the fault's number.
fn refused_line(file: &[u8]) -> Option<(u32, String)> {
    let Refusal { number, line } = fast::read(file).err()?;
    let lines: Vec<&[u8]> = file.split(|&byte| byte == b'\n').collect();
    let line = lines.get(line.checked_sub(1)? as usize)?;
    Some((number, String::from_utf8(line.to_vec()).ok()?))
}

/// The numbers of a line as they are spelled.
fn numbers(line: &str) -> impl Iterator<Item = &str> {
    let parts = line.split(|character: char| !character.is_ascii_digit());
    parts.filter(|part| !part.is_empty())
}

fn see_numbers(counts: &mut Counts, file: &[u8]) {
    let Some((fault, line)) = refused_line(file) else {
        return;
    };
    let longest = numbers(&line).map(str::len).max().unwrap_or(0);
    counts.see(format!("fault {fault}, {longest} digits"));
    for number in numbers(&line).filter(|number| number.ends_with("000001")) {
        counts.see(format!("fault {fault}, {number}"));
    }
}

/// Numbers one past their range, and of 13 and 14 digits.
#[test]
fn refused_jobs_have_numbers_beside_the_limits() {
    let mut counts = Counts::default();
    for seed in COMPARED_FAULTY_SEEDS {
        see_numbers(&mut counts, &faulty_job(&mut Random::new(seed)));
    }
    counts.require(8, ["fault 3, 1000000000001".to_string()]);
    let frequent = ["fault 3, 1000001", "fault 3, 13 digits"];
    counts.require(100, frequent.map(String::from));
    for seed in COMPARED_DAMAGED_SEEDS {
        see_numbers(&mut counts, &damaged_job(&mut Random::new(seed)));
    }
    counts.require(25, ["fault 2, 14 digits".to_string()]);
}

/// Sides and gaps far beyond 16 bits, and areas beyond 32.
#[test]
fn large_jobs_have_large_numbers() {
    let mut counts = Counts::default();
    for seed in COMPARED_LARGE_SEEDS {
        let file = large_job(&mut Random::new(seed));
        let job = fast::read(&file).expect("large jobs are valid");
        counts.see_if(job.size > 500_000, "size");
        counts.see_if(job.window > 250_000, "window");
        counts.see_if(job.gap.max(job.dummy_gap) >= 300_000, "gap");
        counts.see_if(
            job.fills.iter().any(|&amount| amount > u64::from(u32::MAX)),
            "fill",
        );
        let max = Method::Fast.outcome(&job).exact.max.window;
        counts.see_if(max.area > u64::from(u32::MAX), "area");
    }
    counts.require(55, ["size".to_string()]);
    counts.require(15, ["window", "area"].map(String::from));
    counts.require(3, ["gap", "fill"].map(String::from));
}
