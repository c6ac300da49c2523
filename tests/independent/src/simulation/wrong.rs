//! Wrong analyses, each of which the search refutes: some job is later than its wrong bound. So the search can fail.

use super::climb::{Count, Search};
use super::printed::Report;
use super::search::{self, System};
use super::{systems, Stop};
use crate::analysis::{self, Terms, UNLIMITED};
use crate::groups::{self, Merging};
use crate::merge::{Column, Merged};
use crate::random::Random;
use crate::table::Table;

const SEED: u64 = 2;
/// Each is refuted within so many systems, by climbs of so many steps.
const SYSTEMS: u64 = 150;
const STEPS: u64 = 150;

pub struct Wrong {
    pub name: &'static str,
    by: By,
}

/// What is wrong: the demand for the task at `i` (from 0) by the terms at one length, or the columns of a table with groups.
enum By {
    Demand(fn(&Merged, usize, Terms) -> u64),
    Merging(Merging),
}

pub const ALL: [Wrong; 13] = [
    Wrong { name: "no DB", by: By::Demand(|merged, i, terms| Terms { db: 0, ..terms }.demand(merged, i)) },
    Wrong { name: "DB once a lock", by: By::Demand(|merged, i, terms| Terms { db: once_a_lock(merged, i), ..terms }.demand(merged, i)) },
    Wrong { name: "S divided by m", by: By::Demand(s_divided) },
    Wrong { name: "no S", by: By::Demand(|merged, i, terms| Terms { s: 0, ..terms }.demand(merged, i)) },
    Wrong { name: "no O", by: By::Demand(|merged, i, terms| Terms { o: 0, ..terms }.demand(merged, i)) },
    Wrong { name: "no F", by: By::Demand(|merged, i, terms| Terms { f: 0, ..terms }.demand(merged, i)) },
    Wrong { name: "no L", by: By::Demand(|merged, i, terms| Terms { l: 0, ..terms }.demand(merged, i)) },
    Wrong { name: "the short form up to task m + 1", by: By::Demand(short_up_to_next) },
    Wrong { name: "no groups", by: By::Merging(groups::apart) },
    Wrong { name: "N the largest of a group", by: By::Merging(groups::n_largest) },
    Wrong { name: "CT the largest of a group", by: By::Merging(groups::ct_largest) },
    Wrong { name: "c of a group's first member", by: By::Merging(groups::c_of_first) },
    Wrong { name: "a group at the first member that a task uses", by: By::Merging(groups::first_in_use) },
];

impl Wrong {
    /// In how many systems, and by how many schedules, it is refuted.
    pub fn refuted(&self, report: &Report) -> Result<(u64, Count), Stop> {
        let mut r = Random::new(SEED);
        let mut count = Count::default();
        let tables: Box<dyn Iterator<Item = Table>> = match self.by {
            By::Demand(_) => Box::new(systems::random(SEED)),
            By::Merging(_) => Box::new(systems::grouped(SEED)),
        };
        for (searched, system) in (1..=SYSTEMS).zip(search::meeting(report, tables)) {
            if self.refuted_by(&mut r, &system?, &mut count)? {
                return Ok((searched, count));
            }
        }
        panic!("not refuted by {SYSTEMS} systems: {}", self.name);
    }

    /// Whether a job of this system is later than its wrong bound. In that schedule, too, none may be later than its printed one.
    fn refuted_by(&self, r: &mut Random, system: &System, count: &mut Count) -> Result<bool, Stop> {
        let bounds = self.bounds(&system.table);
        let mut search = Search::new(&system.table, &bounds);
        let smaller = (0..bounds.len()).filter(|&task| bounds[task] < system.bounds[task]);
        let late = smaller.map(|target| search.climb(r, target, STEPS)).find_map(Result::err);
        count.add(search.count);
        match late.map(|late| system.late_in(late.scenario)) {
            Some(Some(late)) => Err(system.told(late)),
            refuted => Ok(refuted.is_some()),
        }
    }

    /// The wrong bounds of a table in which all tasks meet: so they do by a demand that is nowhere larger. By wrong columns one may miss; of that task nothing is
    /// held to a bound.
    fn bounds(&self, table: &Table) -> Vec<u64> {
        let merged = match self.by {
            By::Demand(_) => table.merged(),
            By::Merging(merging) => Merged { table, columns: merging(table) },
        };
        let demand = |i: usize, t: u64| {
            let terms = analysis::terms(&merged, i, t, analysis::workload);
            if let By::Demand(demand) = self.by { demand(&merged, i, terms) } else { terms.demand(&merged, i) }
        };
        let bound = |i: usize| analysis::replaced(table.tasks[i].c, table.tasks[i].d, UNLIMITED, |t| demand(i, t)).bound();
        (0..table.n as usize).map(bound).collect()
    }
}

/// The largest request below for each lock of the task, once instead of N times.
fn once_a_lock(merged: &Merged, i: usize) -> u64 {
    let longest_below = |column: &Column| column[i + 1..].iter().map(|lock| lock.c).max().unwrap_or(0);
    merged.used_by(i).map(longest_below).sum()
}

/// S is in the quotient, with O, F and L where those are.
fn s_divided(Merged { table, .. }: &Merged, i: usize, Terms { db, s, o, f, l }: Terms) -> u64 {
    let others = if (i as u64) < table.m { 0 } else { o + f + l };
    table.tasks[i].c + db + (s + others).div_ceil(table.m)
}

fn short_up_to_next(merged: &Merged, i: usize, terms: Terms) -> u64 {
    let terms = if i as u64 == merged.table.m { Terms { o: 0, f: 0, l: 0, ..terms } } else { terms };
    terms.demand(merged, i)
}
