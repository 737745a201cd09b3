//! The table of a heavy job.

use crate::times::{Milliseconds, Times};

/// All times of a job.
pub struct Table {
    /// Of the linked library.
    pub proved: Times,
    /// Of the same on the shorter job.
    pub shorter: Times,
    /// Of an earlier library, on the shorter job.
    pub before: Option<Times>,
    /// Of the second implementation.
    pub second: Times,
    /// Of the loops that sum strips and that sum all.
    pub loops: [Milliseconds; 2],
}

/// Picks the time of a phase.
type Phase = fn(&Times) -> Milliseconds;

/// The phases of an answer, which come one after the other.
const PHASES: [(&str, Phase); 7] = [
    ("reading, fills left out", |times| times.unfilled),
    ("fills, fillable areas", |times| times.fills),
    ("exact run", |times| times.exact),
    ("quick run, greatest", |times| times.greatest),
    ("quick run, least", |times| times.least),
    ("positions", |times| times.positions),
    ("verdict", |times| times.verdict),
];

/// What is timed besides: several phases at once, or one on another file.
const OTHERS: [(&str, Phase); 3] = [
    ("reading in all", |times| times.reading),
    ("positions, bounds among areas", |times| times.among_areas),
    ("whole answer", |times| times.answer),
];

/// The columns behind a phase's name.
const COLUMNS: [&str; 7] = [
    "proved ms",
    "second ms",
    "/ second",
    "shorter ms",
    "/ shorter",
    "before ms",
    "/ before",
];

fn ratio(time: Milliseconds, other: Milliseconds) -> Milliseconds {
    Some(time? / other?)
}

/// A number with so many digits behind the point, or a dash.
fn shown(number: Option<f64>, digits: usize) -> String {
    number.map_or("-".to_string(), |number| format!("{number:.digits$}"))
}

fn print_row(name: &str, cells: impl Iterator<Item = String>) {
    let cells: String = cells.map(|cell| format!(" {cell:>10}")).collect();
    println!("  {name:30}{cells}");
}

impl Table {
    pub fn print(&self) {
        // An earlier library has the last two columns.
        let columns = COLUMNS.len() - if self.before.is_some() { 0 } else { 2 };
        let header = COLUMNS[..columns].iter().map(|name| name.to_string());
        print_row("phase", header);
        for (name, phase) in PHASES.into_iter().chain(OTHERS) {
            print_row(name, self.cells(phase));
        }
        self.print_loops();
        self.print_quick_runs();
        self.print_slowest();
    }

    /// The times of a phase, each behind the first with a ratio: to the second
    /// implementation and to the shorter job, and on that to an earlier library.
    fn cells(&self, phase: Phase) -> impl Iterator<Item = String> {
        let [proved, second, shorter] = [&self.proved, &self.second, &self.shorter].map(phase);
        let before = self.before.as_ref().map(phase);
        let pair = |time, ratio| [shown(time, 3), shown(ratio, 2)];
        let mut cells = vec![shown(proved, 3)];
        cells.extend(pair(second, ratio(proved, second)));
        cells.extend(pair(shorter, ratio(proved, shorter)));
        cells.extend(
            before
                .into_iter()
                .flat_map(|time| pair(time, ratio(shorter, time))),
        );
        cells.into_iter()
    }

    fn print_loops(&self) {
        let names = ["exact run, summing strips", "exact run, summing all"];
        let exact = self.proved.exact;
        for (name, time) in names.into_iter().zip(self.loops) {
            let cells = [
                shown(exact, 3),
                shown(time, 3),
                shown(ratio(exact, time), 2),
            ];
            print_row(name, cells.into_iter());
        }
    }

    fn print_quick_runs(&self) {
        let Times {
            exact,
            greatest,
            least,
            ..
        } = self.proved;
        for (name, ratio) in [
            ("quick run / exact run, greatest", ratio(greatest, exact)),
            ("quick run / exact run, least", ratio(least, exact)),
            ("least / greatest", ratio(least, greatest)),
        ] {
            if let Some(ratio) = ratio {
                println!("  {name}: {ratio:.3}");
            }
        }
    }

    fn print_slowest(&self) {
        let timed = PHASES
            .into_iter()
            .filter_map(|(name, phase)| Some((name, phase(&self.proved)?)));
        if let Some((name, time)) = timed.max_by(|one, other| one.1.total_cmp(&other.1)) {
            println!("  slowest phase: {name}, {time:.3} ms");
        }
    }
}
