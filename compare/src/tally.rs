//! Counts of compared calls, and the first differences.

use super::ffi;
use std::collections::BTreeMap;
use std::fmt::Debug;

pub struct Tally {
    inputs: BTreeMap<&'static str, u64>,
    calls: BTreeMap<&'static str, u64>,
    differences: u64,
}

impl Tally {
    pub fn new() -> Self {
        Tally { inputs: BTreeMap::new(), calls: BTreeMap::new(), differences: 0 }
    }

    /// One call of `entry`: `ours` must equal `theirs`. `input` is told of the first differences.
    pub fn same<T: PartialEq + Debug>(&mut self, entry: &'static str, ours: T, theirs: T, input: &dyn Fn() -> String) {
        *self.calls.entry(entry).or_insert(0) += 1;
        if ours != theirs {
            self.differences += 1;
            if self.differences <= 20 {
                println!("{entry}: {} gives {ours:?}, the Rust {theirs:?}", input());
            }
        }
    }

    /// Calls of `entry` that went into the comparison just made, besides one.
    pub fn further(&mut self, entry: &'static str, calls: u64) {
        *self.calls.entry(entry).or_insert(0) += calls;
    }

    /// One more input of a kind.
    pub fn input(&mut self, kind: &'static str) {
        *self.inputs.entry(kind).or_insert(0) += 1;
    }
}

/// The counts of all parts together.
fn sums<'a>(counts: impl Iterator<Item = &'a BTreeMap<&'static str, u64>>) -> BTreeMap<&'static str, u64> {
    let mut all = BTreeMap::new();
    for (name, n) in counts.flatten() {
        *all.entry(*name).or_insert(0) += n;
    }
    all
}

/// Prints the counts of all parts and ends the program, with a failure where anything differed.
pub fn report(tallies: &[Tally]) -> ! {
    for (kind, n) in sums(tallies.iter().map(|tally| &tally.inputs)) {
        println!("compare: {n} {kind}");
    }
    println!("compare: {} answers of the module for Rust", ffi::asked());
    println!("compare: {} pointers lent as null", ffi::nulls());
    let calls = sums(tallies.iter().map(|tally| &tally.calls));
    for (entry, n) in &calls {
        println!("compare: {entry}: {n} calls");
    }
    let all: u64 = calls.values().sum();
    let differences: u64 = tallies.iter().map(|tally| tally.differences).sum();
    println!("compare: {all} calls, {differences} differences");
    std::process::exit(if differences == 0 && all > 0 { 0 } else { 1 });
}
