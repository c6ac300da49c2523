//! Rounds that climb alike: where the demand rises by one with each microsecond the proved programs can take them at once, and this one works each of
//! them out. So it matters that tables are compared on which such rounds are broken off: by another climb, the end of a cap, a bound, a deadline
//! or an allowance. A cap never begins again, since no workload rises faster than t.

use std::collections::BTreeSet;

use crate::analysis::{By, Reduced};
use crate::merge::Merged;
use crate::table::Task;

/// How many rounds in a row must have climbed alike for a break to count.
const ALIKE: u64 = 4;
/// The first rounds, which the proved programs never take at once.
pub const ONE_BY_ONE: u64 = 16;

pub const CLIMB: &str = "another climb after rounds that climbed alike";
pub const CAP: &str = "the end of a cap after rounds that climbed alike";
pub const BOUND: &str = "a bound after rounds that climbed alike";
pub const DEADLINE: &str = "a deadline among rounds that climb alike";
pub const ALLOWANCE: &str = "an allowance among rounds that climb alike";

/// What breaks off the rounds that climb alike of the task at `i` (from 0) of a checked table, under an allowance.
pub fn breaks(merged: &Merged, i: usize, allowance: u64) -> BTreeSet<&'static str> {
    let reduced = Reduced::new(merged, i, By::Capped);
    let Task { c, d, .. } = merged.tasks()[i];
    let (mut t, mut climb, mut alike) = (c, 0, 0);
    let mut all = BTreeSet::new();
    for round in 1..=allowance {
        let next = reduced.demand(t);
        let goes_on = next - t == climb;
        let over = next == t || next > d;
        if alike >= ALIKE && round > ONE_BY_ONE {
            all.extend(match (goes_on, over) {
                _ if next == t => Some(BOUND),
                (true, true) => Some(DEADLINE),
                (true, false) => (round == allowance).then_some(ALLOWANCE),
                (false, true) => None,
                (false, false) => Some(if reduced.held(t - climb) > reduced.held(t) { CAP } else { CLIMB }),
            });
        }
        if over {
            break;
        }
        let evenly = goes_on && (0..climb).all(|g| reduced.demand(t - g) == next - g);
        alike = if evenly { alike + 1 } else { 0 };
        (climb, t) = (next - t, next);
    }
    all
}
