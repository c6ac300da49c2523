//! What is simulated at once: the jobs of all tasks, and the choices that the model leaves to the kernel.

use super::jobs::{self, Job, Jobs};
use super::kernel::Kernel;
use super::{audit, facts, generated};

#[derive(Clone)]
pub struct Scenario {
    pub jobs: Jobs,
    pub kernel: Kernel,
}

/// A scenario in which a task (from 0) has a job above its bound, and how long that job takes.
pub struct Late {
    pub scenario: Scenario,
    pub task: usize,
    pub response: u64,
}

/// The largest response time of these jobs.
pub fn largest(jobs: &[Job], finishes: &[u64]) -> u64 {
    jobs.iter().zip(finishes).map(|(job, finish)| finish - job.release).max().unwrap_or(0)
}

impl Scenario {
    /// Whether the schedule is one of the model on m processors, or what is wrong with it.
    pub fn audited(&self, m: u64) -> Result<(), String> {
        let (finishes, intervals) = self.kernel.schedule(m, &self.jobs);
        audit::fault(m, &self.jobs, &finishes, &intervals)
    }

    /// The names of the facts about the kernel that the schedule breaks on m processors.
    pub fn breaks(&self, m: u64) -> Vec<&'static str> {
        let (_, intervals) = self.kernel.schedule(m, &self.jobs);
        generated::names(&facts::in_intervals(m, &generated::job_set(&self.jobs), &intervals).broken)
    }

    /// The largest response time of a task (from 0).
    pub fn response(&self, m: u64, task: usize) -> u64 {
        largest(&self.jobs[task], &self.kernel.finishes(m, &self.jobs)[task])
    }

    pub fn text(&self) -> String {
        format!("{}{}", jobs::text(&self.jobs), self.kernel)
    }

    /// The same with one job taken out, such that it is as wanted, if there is one.
    fn without_one(&self, wanted: impl Fn(&Scenario) -> bool) -> Option<Scenario> {
        let places = (0..self.jobs.len()).flat_map(|task| (0..self.jobs[task].len()).map(move |at| (task, at)));
        let without = |(task, at): (usize, usize)| {
            let mut fewer = self.clone();
            fewer.jobs[task].remove(at);
            fewer
        };
        places.map(without).find(wanted)
    }
}

impl Late {
    /// The same without the jobs that do not matter: they are taken out as long as the task is still late.
    pub fn shrunk(mut self, m: u64, bound: u64) -> Late {
        while let Some(fewer) = self.scenario.without_one(|fewer| fewer.response(m, self.task) > bound) {
            self.response = fewer.response(m, self.task);
            self.scenario = fewer;
        }
        self
    }
}
