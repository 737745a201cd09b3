//! The proved library against the second implementation, on fixed seeds.

use comparison::{compare, on_large_stack};
use reference::generate::{
    boundary_jobs, bounded_job, corner_job, damaged_job, faulty_job, large_bounded_job,
    large_corner_job, large_job, large_jobs, mixed_job, small_job, Random, COMPARED_BOUNDED_SEEDS,
    COMPARED_CORNER_SEEDS, COMPARED_DAMAGED_SEEDS, COMPARED_FAULTY_SEEDS,
    COMPARED_LARGE_BOUNDED_SEEDS, COMPARED_LARGE_CORNER_SEEDS, COMPARED_LARGE_SEEDS,
    COMPARED_SEEDS, SHORTER_SIDE,
};
use reference::job::LARGEST_SIDE;
use std::ops::Range;

/// Compares one job for each of consecutive seeds. The second implementation's
/// tests count what the jobs of the seeds that have a name reach.
fn compare_seeds(seeds: Range<u64>, make: fn(&mut Random) -> Vec<u8>) {
    println!("seeds {seeds:?}");
    on_large_stack(move || {
        for seed in seeds {
            compare(&make(&mut Random::new(seed)));
        }
    });
}

#[test]
fn valid_jobs() {
    compare_seeds(COMPARED_SEEDS, small_job);
}

#[test]
fn faulty_jobs() {
    compare_seeds(COMPARED_FAULTY_SEEDS, faulty_job);
}

#[test]
fn damaged_jobs() {
    compare_seeds(COMPARED_DAMAGED_SEEDS, damaged_job);
}

#[test]
fn mixed_jobs() {
    compare_seeds(4_000_000..4_003_000, mixed_job);
}

#[test]
fn large_random_jobs() {
    compare_seeds(COMPARED_LARGE_SEEDS, large_job);
}

#[test]
fn full_tiles_at_corners() {
    compare_seeds(COMPARED_CORNER_SEEDS, |random| corner_job(random, 0));
    compare_seeds(COMPARED_LARGE_CORNER_SEEDS, |random| {
        large_corner_job(random, 0)
    });
}

#[test]
fn one_square_too_much_at_corners() {
    compare_seeds(COMPARED_CORNER_SEEDS, |random| corner_job(random, 1));
    compare_seeds(COMPARED_LARGE_CORNER_SEEDS, |random| {
        large_corner_job(random, 1)
    });
}

#[test]
fn bounds_at_frequent_areas() {
    compare_seeds(COMPARED_BOUNDED_SEEDS, bounded_job);
    compare_seeds(COMPARED_LARGE_BOUNDED_SEEDS, large_bounded_job);
}

#[test]
fn heaviest_jobs() {
    on_large_stack(|| {
        for side in [SHORTER_SIDE, LARGEST_SIDE] {
            for job in large_jobs(side) {
                println!("{} of {side}", job.name);
                compare(&job.job);
            }
        }
    });
}

#[test]
fn boundary_list() {
    on_large_stack(|| {
        for job in boundary_jobs() {
            println!("{}", job.name);
            compare(&job.job);
        }
    });
}

#[test]
fn sample_jobs() {
    let samples = [
        ("a", "(exact (max 4 1 1 1) (min 1 0 0 1))"),
        ("a", "(positions 0 25 0)"),
        (
            "stripes",
            "(zoommin met (levels 4) (low 23) (high 36 8 16 2) (kept 225))",
        ),
        ("safe", "(fill safe)"),
        ("broken", "(fill broken over 3 0)"),
        ("undecided", "(fill undecided over 2 1)"),
        ("safe", "(density 4062)"),
        ("half", "(density 938)"),
        ("dummies", "(fill safe)"),
        ("corners", "(fill safe)"),
        ("yield", "(positions 32 85 4)"),
        ("large", "(positions 24467738 63480036263 0)"),
        ("large", "(fill undecided under 0 0)"),
        ("refused", "(refused 11 8)"),
    ];
    on_large_stack(move || {
        for (name, line) in samples {
            let file = std::fs::read(format!("../jobs/{name}.job")).expect("a sample job");
            compare(&file);
            let printed = reference::answer::printed(reference::answer::Method::Fast, &file);
            assert!(printed.lines().any(|l| l == line), "{name}: {printed}");
        }
    });
}
