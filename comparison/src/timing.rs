//! Times of tasks, in milliseconds.

use std::hint::black_box;
use std::time::Instant;

/// The times of one task over some rounds, in rising order.
pub struct Sample(Vec<f64>);

impl Sample {
    fn new(mut times: Vec<f64>) -> Sample {
        times.sort_unstable_by(f64::total_cmp);
        Sample(times)
    }

    pub fn least(&self) -> f64 {
        self.0[0]
    }

    pub fn median(&self) -> f64 {
        self.0[self.0.len() / 2]
    }
}

/// Times each task once in every round, so that a busy moment of the machine
/// falls on all of them. It runs once more just before, not timed, so that it
/// does not matter which task the machine was busy with last.
pub fn in_turn<T>(rounds: usize, tasks: &[impl Fn() -> T]) -> Vec<Sample> {
    let mut times = vec![Vec::new(); tasks.len()];
    for _ in 0..rounds {
        for (task, times) in tasks.iter().zip(&mut times) {
            time(task);
            times.push(time(task));
        }
    }
    times.into_iter().map(Sample::new).collect()
}

/// The time of one run. The result is kept from the compiler, which could else
/// leave the work out.
fn time<T>(task: impl Fn() -> T) -> f64 {
    let begun = Instant::now();
    black_box(task());
    begun.elapsed().as_secs_f64() * 1000.0
}
