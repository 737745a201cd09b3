//! Names of verdicts, for the tests that count them.

use reference::outcome::{Side, Verdict};

/// A verdict without its place.
pub(crate) fn verdict_name(verdict: Verdict) -> String {
    let side = |side| match side {
        Side::Over => "over",
        Side::Under => "under",
    };
    match verdict {
        Verdict::Safe => "safe".to_string(),
        Verdict::Broken(named) => format!("broken {}", side(named.side)),
        Verdict::Undecided(named) => format!("undecided {}", side(named.side)),
    }
}
