//! What changed since an earlier state of the library: many jobs through it and
//! through the linked one, and the number of lines that differ, by the word that
//! they begin with. Jobs with a form or a number that the earlier state refused as
//! misspelled or out of range are counted apart, and so are jobs with a fill for
//! which it found less room: no line of theirs can be compared. All that it accepted
//! is. Lines of a word that its answers did not have are new and counted apart as
//! well. The argument names the earlier state, as for the benchmark.

use comparison::earlier::{self, difference, word_of, Difference};
use comparison::{on_large_stack, LINKED};
use reference::generate::{
    boundary_jobs, bounded_job, corner_job, damaged_job, faulty_job, large_bounded_job, large_job,
    large_jobs, small_job, Random, SHORTER_SIDE,
};
use reference::job::LARGEST_SIDE;
use std::collections::BTreeMap;
use std::process::ExitCode;

/// Random jobs of one kind: how many, and how one is made.
type Kind = (u64, fn(&mut Random) -> Vec<u8>);

const KINDS: [Kind; 7] = [
    (20_000, small_job),
    (10_000, faulty_job),
    (10_000, damaged_job),
    (1000, |random| corner_job(random, 0)),
    (200, large_job),
    (1000, bounded_job),
    (200, large_bounded_job),
];

/// The sides of the heaviest jobs: an earlier state need not know the longest.
const SIDES: [u64; 2] = [SHORTER_SIDE, LARGEST_SIDE];

/// The jobs at the limits, the heaviest ones, and random ones of every kind.
fn jobs() -> impl Iterator<Item = Vec<u8>> {
    let random = KINDS
        .into_iter()
        .flat_map(|(count, make)| (0..count).map(move |seed| make(&mut Random::new(seed))));
    let limits = boundary_jobs().into_iter().map(|case| case.job);
    let heaviest = SIDES.into_iter().flat_map(large_jobs);
    let heaviest = heaviest.map(|large| large.job);
    limits.chain(heaviest).chain(random)
}

/// Numbers of lines by the word that they begin with.
#[derive(Default)]
struct Lines(BTreeMap<String, u64>);

impl Lines {
    fn see(&mut self, line: &str) {
        *self.0.entry(word_of(line).to_string()).or_default() += 1;
    }

    fn print(&self, what: &str) {
        for (word, count) in &self.0 {
            println!("{count} lines {what} that begin with {word}");
        }
    }
}

/// How many jobs were answered, how many of them have a form or a number of digits
/// that is new, how many a number that is in its range now, how many a fill that
/// there is room for now, how many were answered alike in all lines that there were
/// before, how many lines of the others changed, and how many are new.
#[derive(Default)]
struct Changes {
    jobs: u64,
    newly_spelled: u64,
    newly_in_range: u64,
    newly_fillable: u64,
    alike: u64,
    changed: Lines,
    new: Lines,
}

impl Changes {
    fn see(&mut self, now: &str, before: &str) {
        self.jobs += 1;
        for (fault, count) in [
            (2, &mut self.newly_spelled),
            (3, &mut self.newly_in_range),
            (11, &mut self.newly_fillable),
        ] {
            if gets_past(fault, now, before) {
                *count += 1;
                return;
            }
        }
        let Difference { changed, new } = difference(now, before);
        self.alike += u64::from(changed.is_empty());
        for [now, before] in changed {
            self.changed.see(if now.is_empty() { before } else { now });
        }
        new.into_iter().for_each(|line| self.new.see(line));
    }
}

/// Number and line of a refusal.
fn refusal(printed: &str) -> Option<[u64; 2]> {
    let numbers = printed.strip_prefix("(refused ")?.strip_suffix(")\n")?;
    let (number, line) = numbers.split_once(' ')?;
    Some([number.parse().ok()?, line.parse().ok()?])
}

/// Whether the earlier state stopped at a line for this fault, and the linked one
/// goes on there, or finds another fault in it.
fn gets_past(fault: u64, now: &str, before: &str) -> bool {
    let stops_no_earlier = |line| refusal(now).is_none_or(|[_, other]| other >= line);
    match refusal(before) {
        Some([number, line]) => number == fault && now != before && stops_no_earlier(line),
        None => false,
    }
}

fn main() -> ExitCode {
    let path = std::env::args().nth(1).unwrap_or_default();
    let before = match earlier::load(&path) {
        Ok(library) => library,
        Err(message) => {
            eprintln!("{message}");
            return ExitCode::FAILURE;
        }
    };
    on_large_stack(move || {
        let mut changes = Changes::default();
        for job in jobs() {
            changes.see(&LINKED.printed(&job), &before.printed(&job));
        }
        let Changes {
            jobs,
            newly_spelled,
            newly_in_range,
            newly_fillable,
            alike,
            changed,
            new,
        } = changes;
        println!(
            "{jobs} jobs, {newly_spelled} newly spelled, {newly_in_range} newly in range, \
             {newly_fillable} newly fillable, {alike} answered alike"
        );
        changed.print("changed");
        new.print("are new");
    });
    ExitCode::SUCCESS
}
