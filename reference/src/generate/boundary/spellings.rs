//! Heads and dummies that are spelled as they may be, and nearly so.

use super::{accepted, refused, BoundaryJob};

const GOOD_GAPS: [&str; 7] = [
    "(gap 1)",
    "(gap 1 2)",
    "(gap 0 0)",
    "(gap 65535 65536)",
    "(gap 65536 65535)",
    "(gap 1000000 0)",
    "(gap 0 1000000)",
];

const GAPS_OUT_OF_RANGE: [&str; 6] = [
    "(gap 1000001)",
    "(gap 1 1000001)",
    "(gap 1000001 1)",
    "(gap 1 9999999999999)",
    "(gap 9999999999999 1)",
    "(gap 1 1000000000000)",
];

const MISSPELLED_GAPS: [&str; 23] = [
    "(gap)",
    "(gap )",
    "(gap  )",
    "(gap 1 )",
    "(gap  1)",
    "(gap  2)",
    "(gap 1  2)",
    "(gap 1 2 )",
    "(gap 1 2 3)",
    "(gap 1 2 3 4)",
    "(gap 1 02)",
    "(gap 01 2)",
    "(gap 1 00)",
    "(gap 1 12345678901234)",
    "(gap 12345678901234 1)",
    "(gap 1 -2)",
    "(gap 1 +2)",
    "(gap 1,2)",
    "(gap 1\t2)",
    "(gap 1 (2))",
    "(gap 1) (gap 2)",
    "(gaps 1 2)",
    "(Gap 1 2)",
];

pub(super) fn of_heads() -> Vec<BoundaryJob> {
    let file = |gap: &str| {
        let head = format!("(job (size 8) (window 4) (cut 2) {gap} (bounds 0 5000) (zoom 0 6))");
        format!("{head}\n(end)\n").into_bytes()
    };
    let good = GOOD_GAPS.map(|gap| accepted(gap, file(gap)));
    let outside = GAPS_OUT_OF_RANGE.map(|gap| refused(gap, file(gap), 3, 1));
    let misspelled = MISSPELLED_GAPS.map(|gap| refused(gap, file(gap), 2, 1));
    good.into_iter().chain(outside).chain(misspelled).collect()
}

const MISSPELLED_DUMMIES: [&str; 19] = [
    "(dummy)",
    "(dummy )",
    "(dummy 1 2 3)",
    "(dummy 1 2 3 )",
    "(dummy 1 2 3 4 5)",
    "(dummy 1 2 3 4 )",
    "(dummy 1 2 3 4) ",
    " (dummy 1 2 3 4)",
    "(dummy  1 2 3 4)",
    "(dummy 1 2 3 4",
    "(dummy 1 2 3 04)",
    "(dummy 12345678901234 2 3 4)",
    "(Dummy 1 2 3 4)",
    "(dumm 1 2 3 4)",
    "(dummyy 1 2 3 4)",
    "(dummies 1 2 3 4)",
    "(dummy1 2 3 4)",
    "(dummy 1 2 3 4)\r",
    "(rect dummy 1 2 3 4)",
];

pub(super) fn of_dummies() -> Vec<BoundaryJob> {
    let file = |dummy: &str| {
        let head = "(job (size 8) (window 4) (cut 2) (gap 1) (bounds 0 5000) (zoom 0 6))";
        format!("{head}\n{dummy}\n(end)\n").into_bytes()
    };
    let misspelled = MISSPELLED_DUMMIES.map(|dummy| refused(dummy, file(dummy), 2, 2));
    let good = "(dummy 1 2 3 4)";
    misspelled
        .into_iter()
        .chain([accepted(good, file(good))])
        .collect()
}
