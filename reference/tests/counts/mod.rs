//! What the tests of coverage share.

use std::collections::BTreeMap;

/// How often each thing was seen.
#[derive(Default)]
pub(crate) struct Counts(BTreeMap<String, u64>);

impl Counts {
    pub(crate) fn see(&mut self, what: impl Into<String>) {
        *self.0.entry(what.into()).or_default() += 1;
    }

    pub(crate) fn see_if(&mut self, seen: bool, what: &str) {
        if seen {
            self.see(what);
        }
    }

    fn seen(&self, what: &str) -> u64 {
        self.0.get(what).copied().unwrap_or(0)
    }

    pub(crate) fn require(&self, least: u64, wanted: impl IntoIterator<Item = String>) {
        let missing: Vec<String> = wanted
            .into_iter()
            .filter(|what| self.seen(what) < least)
            .collect();
        println!("{:#?}", self.0);
        assert!(missing.is_empty(), "not seen {least} times: {missing:?}");
    }
}
