//! What was compared, and what differs.

use std::collections::{BTreeMap, BTreeSet};
use std::fmt;

use oracle::bytes::hex;

#[derive(Default)]
pub struct Tally {
    pub sheets: u64,
    /// Those with a barred link or end.
    pub barred: u64,
    /// Those with the longer trailer, by their unit.
    pub longer: BTreeMap<u32, u64>,
    pub lists: u64,
    /// Those whose infinite readings, which the Rust lists, were left out.
    pub cut: u64,
    pub distances: u64,
    pub calls: u64,
    pub asked: BTreeSet<u32>,
    /// Damaged sheets by the number that a list of them answers.
    pub damaged: BTreeMap<u32, u64>,
    pub differences: u64,
}

/// So many differences are printed.
const SHOWN: u64 = 20;

impl Tally {
    /// Counts a call that does what it must, or does not.
    pub fn check(&mut self, call: &str, sheet: &[u8], holds: bool) {
        let faults: &[&str] = if holds { &[] } else { &["answer"] };
        self.count(call, sheet, faults);
    }

    /// Counts a call, and prints what differs.
    pub fn count(&mut self, call: &str, sheet: &[u8], faults: &[&str]) {
        self.calls += 1;
        if faults.is_empty() {
            return;
        }
        self.differences += 1;
        if self.differences <= SHOWN {
            println!("differs: {} | {call} | {}", faults.join(", "), hex(sheet));
        }
    }
}

fn counted(counts: &BTreeMap<u32, u64>) -> String {
    let each = counts.iter().map(|(k, count)| format!("{k}: {count}"));
    each.collect::<Vec<_>>().join(", ")
}

impl fmt::Display for Tally {
    fn fmt(&self, f: &mut fmt::Formatter) -> fmt::Result {
        let damaged: u64 = self.damaged.values().sum();
        write!(
            f,
            "{} sheets, {} of them barred in part, {} with the longer trailer ({}), {} lists of {} values of n, {} without the Rust's infinite readings, {} distances, {damaged} damaged sheets by number ({}), {} calls, {} differences",
            self.sheets,
            self.barred,
            self.longer.values().sum::<u64>(),
            counted(&self.longer),
            self.lists,
            self.asked.len(),
            self.cut,
            self.distances,
            counted(&self.damaged),
            self.calls,
            self.differences
        )
    }
}
