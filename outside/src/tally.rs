//! What was counted: rows, calls by kind, refusals by number, differences.

use std::collections::BTreeMap;

use crate::alarm;

/// After this many differences a part stops.
const ENOUGH: u64 = 10;

pub struct Tally {
    pub part: &'static str,
    pub seed: u64,
    pub rows: u64,
    pub wanted: u64,
    pub differences: u64,
    kinds: BTreeMap<&'static str, u64>,
    refusals: [u64; 18],
    notes: BTreeMap<&'static str, u64>,
}

impl Tally {
    pub fn new(part: &'static str, seed: u64, wanted: u64) -> Tally {
        Tally { part, seed, rows: 0, wanted, differences: 0, kinds: BTreeMap::new(), refusals: [0; 18], notes: BTreeMap::new() }
    }

    /// One call with its comparison.
    pub fn row(&mut self, kind: &'static str, number: u32) {
        self.rows += 1;
        *self.kinds.entry(kind).or_insert(0) += 1;
        self.refusals[(number as usize).min(17)] += 1;
    }

    /// Something worth counting that is no difference.
    pub fn note(&mut self, what: &'static str) {
        *self.notes.entry(what).or_insert(0) += 1;
    }

    pub fn goes_on(&self) -> bool {
        self.rows < self.wanted && self.differences < ENOUGH
    }

    pub fn difference(&mut self, run: u64, what: &str) {
        self.differences += 1;
        println!("DIFFERENCE: part {} seed {} run {} step {}: {}", self.part, self.seed, run, alarm::last_step(), what);
        println!("  repeat: outside {} {} {} {}", self.seed, self.wanted, self.part, run);
    }

    pub fn print(&self, seconds: f64) {
        println!("{}: {} rows in {seconds:.1} s, {} differences", self.part, self.rows, self.differences);
        let list = |of: &BTreeMap<&'static str, u64>| of.iter().map(|(k, n)| format!("{k} {n}")).collect::<Vec<_>>().join(", ");
        println!("  calls: {}", list(&self.kinds));
        let refusals: Vec<String> = (1..18).filter(|n| self.refusals[*n] > 0).map(|n| format!("{n}: {}", self.refusals[n])).collect();
        println!("  refusals: {}", refusals.join(", "));
        if !self.notes.is_empty() {
            println!("  notes: {}", list(&self.notes));
        }
    }
}
