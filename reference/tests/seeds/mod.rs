//! Random sources by consecutive seeds, for the tests that try many jobs.

use reference::generate::Random;

/// Runs a check on random sources with consecutive seeds.
pub(crate) fn for_seeds(first: u64, count: u64, check: impl Fn(&mut Random)) {
    println!("seeds {first} to {}", first + count - 1);
    for seed in first..first + count {
        println!("seed {seed}");
        check(&mut Random::new(seed));
    }
}
