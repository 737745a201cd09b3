//! The times of an implementation's phases on a heavy job.

use comparison::timing::{in_turn, Sample};
use comparison::Library;
use reference::answer::{answer, ANSWER_ROOM};
use reference::fast;
use reference::generate::LargeJob;
use reference::job::Job;
use reference::sense::Sense;

/// Most and least rounds of runs behind the first.
const MOST_ROUNDS: usize = 15;
const LEAST_ROUNDS: usize = 2;
/// So many milliseconds all rounds behind the first may take: where one run takes
/// long, fewer are enough.
const ROUNDS_TIME: f64 = 2000.0;

/// A time below this, in milliseconds, is noise.
const LEAST_TIME: f64 = 0.02;
/// A difference below this share of the longer time is noise too.
const LEAST_SHARE: f64 = 0.02;

/// A time in milliseconds, or none where noise hides it.
pub type Milliseconds = Option<f64>;

fn above_noise(time: f64) -> Milliseconds {
    (time >= LEAST_TIME).then_some(time)
}

fn difference(longer: f64, shorter: f64) -> Milliseconds {
    above_noise(longer - shorter).filter(|&rest| rest >= LEAST_SHARE * longer)
}

/// The least times of several runs, the tasks in turn.
fn least_times<T>(tasks: &[impl Fn() -> T]) -> Vec<f64> {
    let least = |rounds| -> Vec<f64> {
        let samples = in_turn(rounds, tasks);
        samples.iter().map(Sample::least).collect()
    };
    let once = least(1);
    // Each round runs a task twice.
    let others = ROUNDS_TIME / (2.0 * once.iter().sum::<f64>());
    let rounds = (others as usize).clamp(LEAST_ROUNDS, MOST_ROUNDS);
    let pairs = once.into_iter().zip(least(rounds));
    pairs.map(|(one, other)| one.min(other)).collect()
}

/// The least time of several runs.
pub fn time_above_noise<T>(task: impl Fn() -> T) -> Milliseconds {
    above_noise(least_time(task))
}

fn least_time<T>(task: impl Fn() -> T) -> f64 {
    least_times(&[task])[0]
}

/// A heavy job: its file, the file without its fills, and that with bounds among
/// its areas.
pub struct Files {
    whole: Vec<u8>,
    unfilled: Vec<u8>,
    bounded: Vec<u8>,
    job: Job,
}

impl Files {
    pub fn new(large: &LargeJob) -> Files {
        Files {
            whole: large.job.clone(),
            unfilled: large.without_fills(),
            bounded: large.with_bounds_among_areas(),
            job: fast::read(&large.job).expect("large jobs are valid"),
        }
    }

    pub fn job(&self) -> &Job {
        &self.job
    }
}

/// The times of one implementation.
pub struct Times {
    /// Reading the job without its fills.
    pub unfilled: Milliseconds,
    /// The rest of reading: the fill lines and the fillable areas.
    pub fills: Milliseconds,
    pub reading: Milliseconds,
    pub exact: Milliseconds,
    /// The quick run for the greatest.
    pub greatest: Milliseconds,
    /// The quick run for the least.
    pub least: Milliseconds,
    pub positions: Milliseconds,
    /// The positions where the bounds lie among the areas.
    pub among_areas: Milliseconds,
    pub verdict: Milliseconds,
    pub answer: Milliseconds,
}

/// A file and what a library does with it: a phase by its number, or all.
type Task<'a> = (&'a [u8], Option<u64>);

/// How many tasks of a library are timed.
const TASKS: usize = 10;

fn run(library: Library, (file, phase): Task) {
    match phase {
        Some(number) => {
            library.phase(file, number);
        }
        None => {
            library.answer(file, &mut [0; ANSWER_ROOM]);
        }
    }
}

/// The tasks on a heavy job, in the order in which [`Times`] takes their times.
fn tasks(files: &Files) -> [Task<'_>; TASKS] {
    let [file, unfilled, bounded] = [&files.whole, &files.unfilled, &files.bounded];
    [
        (unfilled, Some(0)),
        (unfilled, Some(1)),
        (unfilled, Some(2)),
        (unfilled, Some(3)),
        (unfilled, Some(5)),
        (bounded, Some(0)),
        (bounded, Some(5)),
        (file, Some(0)),
        (file, Some(4)),
        (file, None),
    ]
}

/// The times of each library on its job, all tasks in turn.
pub fn proved_times(subjects: &[(Library, &Files)]) -> Vec<Times> {
    let runs: Vec<_> = subjects
        .iter()
        .flat_map(|&(library, files)| tasks(files).map(|task| move || run(library, task)))
        .collect();
    let times = least_times(&runs);
    let (of_each, _) = times.as_chunks::<TASKS>();
    of_each.iter().map(Times::of_library).collect()
}

impl Times {
    /// From the times of a library's tasks.
    fn of_library(times: &[f64; TASKS]) -> Times {
        // Those of the quick runs have the exact run in them.
        let &[unfilled, exact, greatest, least, positions, bounded, among_areas, reading, verdict, answer] =
            times;
        Times {
            unfilled: above_noise(unfilled),
            fills: difference(reading, unfilled),
            reading: above_noise(reading),
            exact: difference(exact, unfilled),
            greatest: difference(greatest, exact),
            least: difference(least, exact),
            positions: difference(positions, unfilled),
            among_areas: difference(among_areas, bounded),
            verdict: difference(verdict, reading),
            answer: above_noise(answer),
        }
    }
}

/// The times of the second implementation. The cover, which serves all phases
/// behind the reader, counts with the exact run.
pub fn second_times(files: &Files) -> Times {
    let job = &files.job;
    let bounded = fast::read(&files.bounded).expect("large jobs are valid");
    let cover = fast::metal_cover(job);
    let extremes = fast::exact_run(job, &cover);
    let quick = |sense| time_above_noise(|| fast::quick_run(job, &cover, sense, &extremes));
    let unfilled = least_time(|| fast::read(&files.unfilled));
    let reading = least_time(|| fast::read(&files.whole));
    Times {
        unfilled: above_noise(unfilled),
        fills: difference(reading, unfilled),
        reading: above_noise(reading),
        exact: time_above_noise(|| fast::exact_run(job, &fast::metal_cover(job))),
        greatest: quick(Sense::Greatest),
        least: quick(Sense::Least),
        positions: time_above_noise(|| fast::positions(job, &cover)),
        among_areas: time_above_noise(|| fast::positions(&bounded, &cover)),
        verdict: time_above_noise(|| fast::verdict(job, &cover)),
        answer: time_above_noise(|| answer(&files.whole, &mut [0; ANSWER_ROOM])),
    }
}
