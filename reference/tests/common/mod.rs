//! What several test files share.

use reference::answer::{printed, Method};

/// What the program prints, after a check that both methods print the same.
pub(crate) fn printed_by_both(job: &[u8]) -> String {
    let fast = printed(Method::Fast, job);
    let brute = printed(Method::Brute, job);
    assert_eq!(fast, brute, "job\n{}", String::from_utf8_lossy(job));
    fast
}
