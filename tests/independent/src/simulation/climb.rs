//! Hill climbing towards a later finish: jobs are drawn around the release of a target, and a random change is kept if the target's largest response
//! time does not fall. Every job of every task of every schedule on the way is held to its task's bound, and some schedules to the model's facts.

use super::facts::{self, Found};
use super::kernel::Finishes;
use super::scenario::{largest, Late, Scenario};
use super::{change, draw, generated, jobs};
use crate::listing;
use crate::random::Random;
use crate::table::Table;

/// About so many jobs are drawn at most before the target's release.
const BEFORE: f64 = 40.0;
/// Of so many schedules one is held to the facts of the model, besides those that are audited: more would take too long.
const ONE_IN: u64 = 8;

/// How much was simulated.
#[derive(Clone, Copy, Default)]
pub struct Count {
    pub schedules: u64,
    pub jobs: u64,
    /// The schedules that were held to the facts of the model, the instants of these, and how many were looked at: the others are like them.
    pub held: u64,
    pub instants: u64,
    pub looked_at: u64,
}

impl Count {
    pub fn add(&mut self, more: Count) {
        self.schedules += more.schedules;
        self.jobs += more.jobs;
        self.held += more.held;
        self.instants += more.instants;
        self.looked_at += more.looked_at;
    }
}

/// A table that is searched, its locks, the bounds that its jobs are held to, and the largest response time of each task so far. A group is one lock, of which
/// a job may make as many requests as of its members together, each as long as the longest of them: so they may be more than the listing has.
pub struct Search<'a> {
    table: &'a Table,
    locks: Table,
    bounds: &'a [u64],
    pub largest: Vec<u64>,
    pub count: Count,
}

impl<'a> Search<'a> {
    pub fn new(table: &'a Table, bounds: &'a [u64]) -> Search<'a> {
        Search { table, locks: table.one_lock_a_group(), bounds, largest: vec![0; bounds.len()], count: Count::default() }
    }

    /// One climb of so many steps from a start of its own. Where it starts and where it ends, the schedule is audited.
    pub fn climb(&mut self, r: &mut Random, target: usize, steps: u64) -> Result<(), Box<Late>> {
        let mut scenario = self.start(r, target);
        let mut finishes = self.within_bounds(&scenario)?;
        self.audit(&scenario);
        let mut reached = largest(&scenario.jobs[target], &finishes[target]);
        for _ in 0..steps {
            let Some(mut change) = change::draw(r, &self.locks, &scenario, &finishes) else { continue };
            change.swap(&mut scenario);
            let after = self.within_bounds(&scenario)?;
            let response = largest(&scenario.jobs[target], &after[target]);
            if response < reached {
                change.swap(&mut scenario);
            } else {
                (reached, finishes) = (response, after);
            }
        }
        self.audit(&scenario);
        Ok(())
    }

    fn start(&self, r: &mut Random, target: usize) -> Scenario {
        let tasks = self.table.used();
        let longest = tasks.iter().map(|task| task.t).max().unwrap_or(1);
        let most = BEFORE / tasks.iter().map(|task| 1.0 / task.t as f64).sum::<f64>();
        let start = (*r.pick(&[1, tasks[target].t, longest, 2 * longest])).clamp(1, most as u64);
        let jobs = draw::jobs(r, &self.locks, target, start, start + self.bounds[target]);
        Scenario { jobs, kernel: draw::kernel(r) }
    }

    /// Simulates, and holds every job to its bound. If one is late, the schedule is audited: it must be one of the model.
    fn within_bounds(&mut self, scenario: &Scenario) -> Result<Finishes, Box<Late>> {
        assert!(jobs::may_be(&self.locks, &scenario.jobs), "jobs out of their limits:\n{}{}", listing::write(self.table), scenario.text());
        self.count.schedules += 1;
        let finishes = if self.count.schedules % ONE_IN == 0 { self.hold(scenario) } else { scenario.kernel.finishes(self.table.m, &scenario.jobs) };
        for (task, (jobs, finishes)) in scenario.jobs.iter().zip(&finishes).enumerate() {
            self.count.jobs += jobs.len() as u64;
            let response = largest(jobs, finishes);
            if response > self.bounds[task] {
                self.audit(scenario);
                return Err(Box::new(Late { scenario: scenario.clone(), task, response }));
            }
            self.largest[task] = self.largest[task].max(response);
        }
        Ok(finishes)
    }

    fn audit(&mut self, scenario: &Scenario) {
        if let Err(fault) = scenario.audited(self.table.m) {
            panic!("not a schedule of the model: {fault}\n{}{}", listing::write(self.table), scenario.text());
        }
        self.hold(scenario);
    }

    /// Simulates, and holds the jobs and the schedule to the facts of the model.
    fn hold(&mut self, scenario: &Scenario) -> Finishes {
        let (finishes, intervals) = scenario.kernel.schedule(self.table.m, &scenario.jobs);
        let jobs = generated::job_set(&scenario.jobs);
        let Found { broken, looked_at } = facts::in_intervals(self.table.m, &jobs, &intervals);
        if let Some(broken) = generated::broken(&self.locks, &jobs).iter().chain(&broken).next() {
            panic!("a fact of the proved model is broken: {broken}\n{}{}", listing::write(self.table), scenario.text());
        }
        self.count.held += 1;
        self.count.instants += intervals.last().map_or(0, |last| last.to);
        self.count.looked_at += looked_at;
        finishes
    }
}
