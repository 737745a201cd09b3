//! The long comparison: damaged files by consecutive seeds, a million unless
//! the first argument says otherwise.

use comparison::{compare, on_large_stack};
use reference::generate::{damaged_job, Random};

fn main() {
    let count: u64 = std::env::args()
        .nth(1)
        .map_or(1_000_000, |text| text.parse().expect("a number of files"));
    on_large_stack(move || {
        for seed in 0..count {
            compare(&damaged_job(&mut Random::new(seed)));
        }
    });
    println!("{count} damaged files, no difference");
}
