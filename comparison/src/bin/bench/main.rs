//! Times each phase of the proved unit on the heaviest legal jobs, and prints
//! its ratio to the second implementation in the same run; that of the exact run
//! also to plain loops, whose times then stand in the second column. The same job
//! made shorter is timed in turn with it, and the ratio of the two printed: what
//! the length of the side costs, all else being equal.
//!
//! The library reads the job for every phase and does the exact run before
//! either quick one, so a phase is the difference of two times. These three runs
//! and the positions take no fills; they are timed on the job without its fill
//! lines, since reading those could hide them. Sorting the sides of the shapes,
//! which the answer does once, counts with each of these four. Every time is the
//! least of several runs; a dash stands for one that noise hides.
//!
//! An argument names an earlier state of the library, which is then timed on the
//! shorter job, in turn with the linked one: it need not know longer sides. The
//! lines in which their answers differ are shown, and those that are new. A job
//! that it refuses, because it does not know all of its forms or finds less room for
//! a fill, is timed without it. It is a shared object, made in that state's checkout
//! by
//!
//! ```text
//! cc -shared -o earlier.so -Wl,--whole-archive target/staticlib/libunit.a target/staticlib/libphases.a -Wl,--no-whole-archive
//! ```

mod table;
mod times;

use comparison::earlier::Difference;
use comparison::{earlier, on_large_stack, plain, Library, LINKED};
use reference::answer::{Reply, ANSWER_ROOM};
use reference::generate::{large_jobs, LargeJob, SHORTER_SIDE};
use reference::job::LARGEST_SIDE;
use std::process::ExitCode;
use table::Table;
use times::{proved_times, second_times, time_above_noise, Files};

/// The earlier library, if there is one and it does not refuse the job; a refusal
/// is shown.
fn accepting(earlier: Option<Library>, file: &[u8]) -> Option<Library> {
    let reply = earlier?.answer(file, &mut [0; ANSWER_ROOM]);
    if let Reply::Refused { number, line } = reply {
        println!("  no time before: (refused {number} {line})");
        return None;
    }
    earlier
}

/// Shows what the linked library and an earlier one answer differently.
fn print_changes(earlier: Library, file: &[u8]) {
    let (now, before) = (LINKED.printed(file), earlier.printed(file));
    let Difference { changed, new } = earlier::difference(&now, &before);
    for [now, before] in changed {
        println!("  now {now}, before {before}");
    }
    for line in new {
        println!("  new {line}");
    }
}

fn bench(earlier: Option<Library>, longest: &LargeJob, shorter: &LargeJob) {
    println!("{} ({} bytes)", longest.name, longest.job.len());
    let [files, shorter_files] = [longest, shorter].map(Files::new);
    let earlier = accepting(earlier, &shorter.job);
    if let Some(earlier) = earlier {
        print_changes(earlier, &shorter.job);
    }
    let mut subjects = vec![(LINKED, &files), (LINKED, &shorter_files)];
    subjects.extend(earlier.map(|library| (library, &shorter_files)));
    let mut times = proved_times(&subjects).into_iter();
    let mut next = || times.next();
    let (proved, on_shorter) = next().zip(next()).expect("a time of each subject");
    let table = Table {
        proved,
        shorter: on_shorter,
        before: next(),
        second: second_times(&files),
        loops: [plain::summing_strips, plain::summing_all]
            .map(|areas| time_above_noise(|| areas(files.job()))),
    };
    table.print();
}

fn main() -> ExitCode {
    let earlier = match std::env::args().nth(1).as_deref().map(earlier::load) {
        Some(Err(message)) => {
            eprintln!("{message}");
            return ExitCode::FAILURE;
        }
        Some(Ok(library)) => Some(library),
        None => None,
    };
    println!("jobs of {LARGEST_SIDE} a side, and shorter ones of {SHORTER_SIDE}");
    on_large_stack(move || {
        let [longest, shorter] = [LARGEST_SIDE, SHORTER_SIDE].map(large_jobs);
        for (longest, shorter) in longest.iter().zip(&shorter) {
            bench(earlier, longest, shorter);
        }
    });
    ExitCode::SUCCESS
}
