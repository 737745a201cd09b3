//! Whether the compared jobs reach all that dummies and their gap bring about.

mod counts;
mod verdicts;

use counts::Counts;
use reference::answer::Method;
use reference::fast;
use reference::generate::{
    damaged_job, faulty_job, large_job, small_job, Random, COMPARED_DAMAGED_SEEDS,
    COMPARED_FAULTY_SEEDS, COMPARED_LARGE_SEEDS, COMPARED_SEEDS,
};
use reference::job::{Job, Kind, Refusal};
use std::cmp::Ordering;
use std::ops::Range;
use verdicts::verdict_name;

/// Counts what is seen in the jobs of these seeds. A damaged one need not be
/// text; what is not is of no interest here.
fn counted(
    seeds: Range<u64>,
    make: fn(&mut Random) -> Vec<u8>,
    see: fn(&mut Counts, &str),
) -> Counts {
    let mut counts = Counts::default();
    for seed in seeds {
        let file = make(&mut Random::new(seed));
        see(&mut counts, &String::from_utf8_lossy(&file));
    }
    counts
}

fn read(file: &str) -> Result<Job, Refusal> {
    fast::read(file.as_bytes())
}

/// The gaps that a file's head states, as spelled.
fn gaps(file: &str) -> Option<&str> {
    let (_, after) = file.split_once("(gap ")?;
    Some(after.split_once(')')?.0)
}

/// The file with the one of its gaps that is chosen, which then serves both kinds.
fn with_one_gap(file: &str, choose: Choice) -> String {
    let spelled = |gaps: &str| format!("(gap {gaps})");
    match gaps(file) {
        Some(gaps) => file.replacen(&spelled(gaps), &spelled(choose(gaps)), 1),
        None => file.to_string(),
    }
}

/// One of the gaps that a head states.
type Choice = fn(&str) -> &str;

/// Each gap by its name, and the choice of the other one.
const GAPS: [(&str, Choice); 2] = [("dummy gap", first), ("gap", last)];

/// The gap to drawn metal.
fn first(gaps: &str) -> &str {
    gaps.split_once(' ').map_or(gaps, |(first, _)| first)
}

/// The gap to dummies.
fn last(gaps: &str) -> &str {
    gaps.rsplit_once(' ').map_or(gaps, |(_, last)| last)
}

fn is_refused_for_its_fill(file: &str) -> bool {
    read(file).is_err_and(|refusal| refusal.number == 11)
}

/// How many shapes of a kind share a square with a box.
fn of_kind(job: &Job, kind: Kind, corners: [u64; 4]) -> u64 {
    let mut job = job.clone();
    job.shapes.retain(|shape| shape.kind == kind);
    fast::shapes(&job, corners)
}

fn kinds_name(job: &Job) -> &'static str {
    let has = |kind| job.shapes.iter().any(|shape| shape.kind == kind);
    match Kind::BOTH.map(has) {
        [false, false] => "no shape",
        [true, false] => "drawn alone",
        [false, true] => "dummies alone",
        [true, true] => "both kinds",
    }
}

fn gaps_name(file: &str, job: &Job) -> &'static str {
    let states_both = gaps(file).is_some_and(|gaps| gaps.contains(' '));
    match job.dummy_gap.cmp(&job.gap) {
        Ordering::Equal if states_both => "equal gaps",
        Ordering::Equal => "one gap",
        Ordering::Less if job.dummy_gap == 0 => "no dummy gap",
        Ordering::Less => "narrower dummy gap",
        Ordering::Greater if job.gap == 0 => "dummy gap alone",
        Ordering::Greater => "wider dummy gap",
    }
}

fn see_valid(counts: &mut Counts, file: &str) {
    let job = read(file).expect("small jobs are valid");
    let kinds = kinds_name(&job);
    counts.see(format!("{kinds}, {}", gaps_name(file, &job)));
    let outcome = Method::Fast.outcome(&job);
    counts.see(format!("{kinds}, {}", verdict_name(outcome.verdict)));
    for (name, shown) in [
        ("max", outcome.exact.max),
        ("min", outcome.exact.min),
        ("floor", outcome.greatest.named),
        ("high", outcome.least.named),
    ] {
        let corners = shown.window.corners(job.window);
        let is_over = |kind| of_kind(&job, kind, corners) > 0;
        counts.see_if(
            Kind::BOTH.into_iter().all(is_over),
            &format!("{name} over both kinds"),
        );
    }
    for (gap, other) in GAPS {
        let refused = is_refused_for_its_fill(&with_one_gap(file, other));
        counts.see_if(refused, &format!("accepted for its {gap}"));
    }
}

#[test]
fn valid_jobs_have_dummies_in_every_way() {
    let counts = counted(COMPARED_SEEDS, small_job, see_valid);
    let drawn_alone = ["drawn alone, one gap".to_string()];
    counts.require(1000, drawn_alone);
    let all_gaps = [
        "one gap",
        "equal gaps",
        "no dummy gap",
        "narrower dummy gap",
        "dummy gap alone",
        "wider dummy gap",
    ];
    let verdicts = [
        "safe",
        "broken over",
        "broken under",
        "undecided over",
        "undecided under",
    ];
    let each = |kinds: &'static str| {
        let ways = all_gaps.into_iter().chain(verdicts);
        ways.map(move |way| format!("{kinds}, {way}"))
    };
    let wanted = ["drawn alone", "dummies alone", "both kinds"];
    counts.require(60, wanted.into_iter().flat_map(each));
    let windows = ["max", "min", "floor", "high"].map(|name| format!("{name} over both kinds"));
    counts.require(500, windows);
    let decided = ["accepted for its dummy gap", "accepted for its gap"];
    counts.require(80, decided.map(String::from));
}

/// The word that a line begins with, if it is a form's.
fn form(line: &str) -> &str {
    let end = line.find(' ').unwrap_or(line.len());
    &line[..end]
}

fn see_refused(counts: &mut Counts, file: &str) {
    let Err(refusal) = read(file) else {
        return;
    };
    let Refusal { number, line } = refusal;
    let lines: Vec<&str> = file.split_inclusive('\n').collect();
    let text = lines.get(line as usize - 1).copied().unwrap_or("");
    counts.see(format!("fault {number} of {}", form(text)));
    match number {
        3 if form(text) == "(job" => {
            let otherwise = read(&with_one_gap(file, first));
            counts.see_if(
                otherwise.err() != Some(refusal),
                "fault 3 of the dummy gap alone",
            );
        }
        9 => see_overlap(counts, &lines[..line as usize]),
        11 => see_too_much(counts, file, line),
        _ => (),
    }
}

/// Whether a fill that is refused would pass if one of the gaps served both
/// kinds, and whether the job would be accepted then.
fn see_too_much(counts: &mut Counts, file: &str, line: u32) {
    for (gap, other) in GAPS {
        let otherwise = read(&with_one_gap(file, other)).map_err(|refusal| refusal.line);
        counts.see_if(otherwise.is_ok(), &format!("job refused for its {gap}"));
        let passes = otherwise.err().is_none_or(|other_line| other_line > line);
        counts.see_if(passes, &format!("fill refused for its {gap}"));
    }
}

/// The kinds of the last line's shape and of those before that it overlaps.
fn see_overlap(counts: &mut Counts, lines: &[&str]) {
    let ended = |lines: &[&str]| read(&(lines.concat() + "(end)\n")).expect("good lines");
    let (last, standing) = lines.split_last().expect("a faulty line");
    let last = ended(&[lines[0], last]).shapes[0];
    let standing = ended(standing);
    for kind in Kind::BOTH {
        let overlaps = of_kind(&standing, kind, last.corners) > 0;
        counts.see_if(overlaps, &format!("{:?} over {kind:?}", last.kind));
    }
}

#[test]
fn faulty_jobs_have_every_fault_of_dummies() {
    let counts = counted(COMPARED_FAULTY_SEEDS, faulty_job, see_refused);
    let of_shapes = |number: u32| ["(rect", "(dummy"].map(|f| format!("fault {number} of {f}"));
    counts.require(25, [3, 4, 6, 8, 9].into_iter().flat_map(of_shapes));
    let others = [
        "fault 3 of the dummy gap alone",
        "Drawn over Drawn",
        "Drawn over Dummy",
        "Dummy over Drawn",
        "Dummy over Dummy",
        "fill refused for its dummy gap",
        "fill refused for its gap",
    ];
    counts.require(20, others.map(String::from));
    let jobs = ["job refused for its dummy gap", "job refused for its gap"];
    counts.require(8, jobs.map(String::from));
}

fn see_misspelled(counts: &mut Counts, file: &str) {
    let Err(Refusal { number: 2, line }) = read(file) else {
        return;
    };
    let text = file.split('\n').nth(line as usize - 1).unwrap_or("");
    counts.see_if(text.contains("dumm"), "a dummy");
    let has_two = |gaps: &str| gaps.contains(' ');
    counts.see_if(gaps(text).is_some_and(has_two), "a head with two gaps");
}

#[test]
fn damaged_jobs_have_misspelled_dummies() {
    let counts = counted(COMPARED_DAMAGED_SEEDS, damaged_job, see_misspelled);
    let wanted = ["a dummy", "a head with two gaps"];
    counts.require(200, wanted.map(String::from));
}

fn see_large(counts: &mut Counts, file: &str) {
    let job = read(file).expect("large jobs are valid");
    let gaps = gaps_name(file, &job);
    counts.see_if(
        gaps != "one gap",
        &format!("{}, gaps that differ", kinds_name(&job)),
    );
    counts.see(kinds_name(&job));
}

#[test]
fn large_jobs_have_dummies() {
    let counts = counted(COMPARED_LARGE_SEEDS, large_job, see_large);
    let wanted = ["drawn alone", "both kinds", "both kinds, gaps that differ"];
    counts.require(3, wanted.map(String::from));
}
