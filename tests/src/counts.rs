//! Counts of what random calls did, to detect inputs that miss a case. Each
//! folder has its cases in `seen.rs`.
use std::collections::BTreeMap;
use std::fmt::Debug;

/// How often each case was seen.
#[derive(Debug)]
pub struct Counts<K>(pub BTreeMap<K, u64>);

impl<K> Default for Counts<K> {
    fn default() -> Counts<K> {
        Counts(BTreeMap::new())
    }
}

impl<K: Ord + Debug> Counts<K> {
    pub fn add(&mut self, case: K) {
        *self.0.entry(case).or_default() += 1;
    }

    pub fn assert_each(&self, cases: impl IntoIterator<Item = K>, least: u64) {
        for case in cases {
            let seen = self.0.get(&case).copied().unwrap_or(0);
            assert!(seen >= least, "{case:?} seen {seen} times, less than {least}: {self:?}");
        }
    }
}

pub const EITHER: [bool; 2] = [false, true];
