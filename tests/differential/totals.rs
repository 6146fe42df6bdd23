//! What a run has seen so far, and what it says of it.

use std::collections::BTreeMap;

/// How many differences are shown in full: those of the first cases.
const SHOWN: usize = 20;
/// Of so many cases the reference may skip one.
const SKIPPED_ONE_IN: u64 = 100;

#[derive(Default)]
pub struct Totals {
    /// how often each answer and each edge came up, by the reference: in groups, each of which is told in a line
    met: BTreeMap<String, BTreeMap<String, u64>>,
    /// in words, by the case and by how many differences the case had before
    differences: BTreeMap<(u64, u64), String>,
    pub skipped: u64,
    pub passed: u64,
    pub failed: u64,
}

impl Totals {
    pub fn hold(&mut self, case: u64, is_right: bool, tell: impl FnOnce() -> String) {
        if is_right {
            self.passed += 1;
            return;
        }
        self.differences.insert((case, self.failed), tell());
        self.failed += 1;
        self.drop_later_differences();
    }

    fn drop_later_differences(&mut self) {
        while self.differences.len() > SHOWN {
            self.differences.pop_last();
        }
    }

    /// Notes an answer or edge, so often.
    pub fn meet(&mut self, group: &str, what: &str, times: u64) {
        match self.met.get_mut(group).and_then(|group| group.get_mut(what)) {
            Some(count) => *count += times,
            None => drop(self.met.entry(group.to_string()).or_default().insert(what.to_string(), times)),
        }
    }

    /// Adds the totals of other cases.
    pub fn add(&mut self, other: Totals) {
        for (group, counts) in &other.met {
            counts.iter().for_each(|(what, count)| self.meet(group, what, *count));
        }
        self.differences.extend(other.differences);
        self.drop_later_differences();
        self.skipped += other.skipped;
        self.passed += other.passed;
        self.failed += other.failed;
    }

    /// Holds a run as a whole.
    fn hold_run(&mut self, is_right: bool, why: String) {
        if is_right {
            self.passed += 1;
        } else {
            self.failed += 1;
            println!("differential: {why}");
        }
    }

    /// Fails a run that has not met all that is in the groups. What it might meet and never did is in them with count 0.
    fn hold_cover(&mut self) {
        for (group, counts) in self.met.clone() {
            counts.iter().for_each(|(what, &count)| self.hold_run(count > 0, format!("no case met {group}: {what}")));
        }
    }

    /// Fails a run in which the reference skipped too many cases.
    fn hold_skipped(&mut self, cases: u64) {
        let skipped = self.skipped;
        let are_few = skipped * SKIPPED_ONE_IN <= cases.max(SKIPPED_ONE_IN);
        self.hold_run(are_few, format!("the reference skipped {skipped} of {cases} cases: more than one of {SKIPPED_ONE_IN}"));
    }

    fn print_met(&self) {
        for (group, counts) in &self.met {
            let counts: Vec<String> = counts.iter().map(|(what, count)| format!("{what}: {count}")).collect();
            println!("differential: {group}: {}", counts.join("; "));
        }
    }

    /// Prints the tally of a run of so many cases. One of `covering` cases or more has to have met everything.
    pub fn report(&mut self, cases: u64, covering: u64) {
        self.differences.values().for_each(|difference| println!("{difference}"));
        if cases >= covering {
            self.print_met();
            self.hold_cover();
        }
        self.hold_skipped(cases);
        println!("differential: {} cases skipped by the reference as too much work", self.skipped);
        println!("differential: {} passed, {} failed", self.passed, self.failed);
    }
}
