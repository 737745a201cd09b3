//! The proved exact run beside a loop that sums all shapes at each position,
//! by their times. A file of its own, so that no other test runs beside it.

use comparison::timing::in_turn;
use comparison::{on_large_stack, plain, LINKED};
use reference::fast;
use reference::generate::{large_jobs, LargeJob};
use reference::job::{Job, LARGEST_SIDE};
use std::collections::HashSet;

const ROUNDS: usize = 9;

/// In the first a strip holds some of the shapes, so that summing strips
/// would save time too; in the second nearly every strip holds them all, and
/// nothing is saved but by carrying the sum along.
const JOBS: [&str; 2] = ["different sides, W = N/8", "most starts"];

/// How many lines across an axis have a side of a shape on them.
fn lines_with_sides(job: &Job, axis: usize) -> usize {
    let boxes = job.boxes();
    let sides: HashSet<u64> = boxes.flat_map(|b| [b[axis], b[axis + 2]]).collect();
    sides.len()
}

/// The run's time is what reading alone leaves of reading and running. The fill
/// lines are left out: the run takes none, and reading them takes longer than it.
fn assert_half_the_time(large: &LargeJob) {
    let (name, file) = (large.name, large.without_fills());
    let job = fast::read(&file).expect("large jobs are valid");
    assert_eq!(job.shapes.len(), 256, "{name}");
    for axis in [0, 1] {
        assert_eq!(lines_with_sides(&job, axis), 2 * job.shapes.len(), "{name}");
    }
    let phase = |number| LINKED.phase(&file, number);
    let [greatest, _] = plain::summing_all(&job);
    assert_eq!(phase(1), greatest, "{name}");

    // Both areas, so that the compiler cannot leave a search out.
    let sum_all = || plain::summing_all(&job).iter().sum();
    let tasks: [&dyn Fn() -> u64; 3] = [&|| phase(0), &|| phase(1), &sum_all];
    let samples = in_turn(ROUNDS, &tasks);
    let [reading, with_run, all] = [0, 1, 2].map(|task| samples[task].median());
    let run = with_run - reading;
    let shown = format!(
        "{name}: exact run {run:.3} ms ({with_run:.3} less {reading:.3} for reading), \
         summing all {all:.3} ms, ratio {:.3}",
        run / all
    );
    println!("{shown}");
    assert!(2.0 * run <= all, "{shown}");
}

#[test]
#[cfg_attr(debug_assertions, ignore = "a loop not optimized is no measure")]
fn the_exact_run_takes_at_most_half_the_time_of_summing_all() {
    on_large_stack(|| {
        let jobs = large_jobs(LARGEST_SIDE);
        for name in JOBS {
            let large = jobs.iter().find(|large| large.name == name);
            assert_half_the_time(large.expect("a job of that name"));
        }
    });
}
