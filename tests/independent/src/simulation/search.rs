//! The search through systems in which all tasks meet by what `report` prints: no job may be later than its bound.

use super::climb::{Count, Search};
use super::printed::Report;
use super::scenario::{Late, Scenario};
use super::{systems, Stop};
use crate::listing;
use crate::random::Random;
use crate::table::Table;

/// A table in which all tasks meet, the bounds that are printed of it, and how many tables were looked at before and with it.
pub struct System {
    pub table: Table,
    pub bounds: Vec<u64>,
    looked_at: u64,
}

/// What was tried.
#[derive(Default)]
pub struct Tried {
    pub drawn: u64,
    pub searched: u64,
    pub count: Count,
}

/// The systems among these tables; the others are skipped.
pub fn meeting<'a>(report: &'a Report, tables: impl Iterator<Item = Table> + 'a) -> impl Iterator<Item = Result<System, Stop>> + 'a {
    (1..).zip(tables).filter_map(|(looked_at, table)| {
        let bounds = report.all_meet(&listing::write(&table)).transpose()?;
        Some(bounds.map(|bounds| System { table, bounds, looked_at }))
    })
}

impl System {
    /// The tasks that something can delay.
    pub fn delayed(&self) -> Vec<usize> {
        (0..self.bounds.len()).filter(|&task| self.bounds[task] > self.table.tasks[task].c).collect()
    }

    /// The first task that is later than its bound in a scenario, if one is.
    pub fn late_in(&self, scenario: Scenario) -> Option<Late> {
        let mut responses = (0..self.bounds.len()).map(|task| (task, scenario.response(self.table.m, task)));
        let (task, response) = responses.find(|&(task, response)| response > self.bounds[task])?;
        Some(Late { scenario, task, response })
    }

    /// A job that is later than its bound, for people to read.
    pub fn told(&self, late: Late) -> Stop {
        let bound = self.bounds[late.task];
        let Late { scenario, task, response } = late.shrunk(self.table.m, bound);
        let heading = format!("task {} takes {response} us, {} us longer than its bound of {bound} us", task + 1, response - bound);
        Stop::Late(format!("{heading}, in\n{}by these jobs, times in ms\n{}", listing::write(&self.table), scenario.text()))
    }
}

/// Searches systems; `each` does the climbs of one.
pub fn through(
    systems: impl Iterator<Item = Result<System, Stop>>,
    seed: u64,
    mut each: impl FnMut(&mut Random, &System, &mut Search) -> Result<(), Box<Late>>,
) -> Result<Tried, Stop> {
    let mut r = Random::new(seed);
    let mut tried = Tried::default();
    for system in systems {
        let system = system?;
        let mut search = Search::new(&system.table, &system.bounds);
        each(&mut r, &system, &mut search).map_err(|late| system.told(*late))?;
        tried.drawn = system.looked_at;
        tried.searched += 1;
        tried.count.add(search.count);
    }
    Ok(tried)
}

/// Searches so many random systems.
pub fn random(
    report: &Report,
    seed: u64,
    systems: usize,
    each: impl FnMut(&mut Random, &System, &mut Search) -> Result<(), Box<Late>>,
) -> Result<Tried, Stop> {
    so_many(report, systems::random(seed), seed, systems, each)
}

/// The same of systems with groups.
pub fn grouped(
    report: &Report,
    seed: u64,
    systems: usize,
    each: impl FnMut(&mut Random, &System, &mut Search) -> Result<(), Box<Late>>,
) -> Result<Tried, Stop> {
    so_many(report, systems::grouped(seed), seed, systems, each)
}

/// Searches so many systems of these tables. Of a program that says of nine tables in ten that a task misses there is nothing to search.
fn so_many(
    report: &Report,
    tables: impl Iterator<Item = Table>,
    seed: u64,
    systems: usize,
    each: impl FnMut(&mut Random, &System, &mut Search) -> Result<(), Box<Late>>,
) -> Result<Tried, Stop> {
    let tables = tables.take(systems.saturating_mul(10));
    let tried = through(meeting(report, tables).take(systems), seed, each)?;
    if tried.searched < systems as u64 {
        return Err(Stop::BadInput(format!("all tasks meet in {} of {} systems only", tried.searched, systems.saturating_mul(10))));
    }
    Ok(tried)
}

/// So many climbs towards a later finish of each task.
pub fn climb_to_each(r: &mut Random, search: &mut Search, climbs: u64, steps: u64) -> Result<(), Box<Late>> {
    for target in 0..search.largest.len() {
        for _ in 0..climbs {
            search.climb(r, target, steps)?;
        }
    }
    Ok(())
}
