//! How long a task may wait for lower ones by P-PCP, as far as request 8/12 wants it: equations 13 and 14. Since request 9/12 a group is one resource here.

use crate::merge::Merged;
use crate::table::Table;

/// The wait of the task at `i` (from 0) of a checked table; none if there is no alpha.
pub fn wait(merged: &Merged, i: usize) -> Option<u64> {
    let alpha = merged.tasks()[i].alpha;
    let requests = |k: usize| merged.columns[k][i].n;
    let in_use = (0..merged.columns.len()).filter(|&k| requests(k) > 0);
    (alpha > 0).then(|| in_use.map(|k| requests(k) * sum_of_largest(below(merged, i, k), alpha)).sum())
}

/// The waits of all tasks.
pub fn all(table: &Table) -> Vec<Option<u64>> {
    let merged = table.merged();
    (0..table.n as usize).map(|i| wait(&merged, i)).collect()
}

/// The c of all tasks below the one at `i` (from 0) in all columns but the one at `k`: one for each merged pair in use.
pub fn below(merged: &Merged, i: usize, k: usize) -> Vec<u64> {
    let others = merged.columns.iter().enumerate().filter(|(other, _)| *other != k);
    others.flat_map(|(_, column)| &column[i + 1..]).filter(|lock| lock.n > 0).map(|lock| lock.c).collect()
}

/// The sum of so many of these, the largest; of all, if they are fewer.
pub fn sum_of_largest(mut all: Vec<u64>, how_many: u64) -> u64 {
    all.sort();
    all.iter().rev().take(how_many as usize).sum()
}
