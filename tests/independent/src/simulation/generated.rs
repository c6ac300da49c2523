//! What the model of Theorem 1 says of jobs, under its names there: the facts of `Generated` (crates/schedules/specs/Jobs.antt), unit by unit.

use super::jobs::{Job, Jobs};
use crate::table::{Table, Task, LOCKS};
use std::fmt;

/// What a job runs between an instant and the next: the number of the resource that it uses, 0 for none, and whether a stretch starts with it.
#[derive(Clone, Copy)]
pub struct Unit {
    pub lock: u8,
    pub starts: bool,
}

pub struct ModelJob {
    pub release: u64,
    pub units: Vec<Unit>,
}

/// The jobs of each task. In the model they never end: those that are not in the list are released after the run's end.
pub type JobSet = Vec<Vec<ModelJob>>;

/// A fact that does not hold of a task (from 0), and when: at that instant, or of the job that is released then.
pub struct Broken {
    pub fact: &'static str,
    pub task: usize,
    pub at: u64,
}

impl fmt::Display for Broken {
    fn fmt(&self, f: &mut fmt::Formatter) -> fmt::Result {
        write!(f, "{} at {} us, task {}", self.fact, self.at, self.task + 1)
    }
}

/// Each segment is a stretch; none is empty.
pub fn job_set(jobs: &Jobs) -> JobSet {
    jobs.iter().map(|jobs| jobs.iter().map(model_job).collect()).collect()
}

fn model_job(job: &Job) -> ModelJob {
    let mut units = Vec::new();
    for segment in &job.segments {
        let lock = segment.lock.map_or(0, |k| k as u8 + 1);
        units.push(Unit { lock, starts: true });
        units.resize(units.len() + segment.length as usize - 1, Unit { lock, starts: false });
    }
    ModelJob { release: job.release, units }
}

/// The names of the facts that are broken, each once.
pub fn names(broken: &[Broken]) -> Vec<&'static str> {
    let mut names: Vec<&str> = broken.iter().map(|broken| broken.fact).collect();
    names.sort();
    names.dedup();
    names
}

/// The facts of `Generated` that do not hold of these jobs.
pub fn broken(table: &Table, jobs: &JobSet) -> Vec<Broken> {
    let mut broken = Vec::new();
    for (number, (task, jobs)) in table.used().iter().zip(jobs).enumerate() {
        let mut note = |fact, job: &ModelJob| broken.push(Broken { fact, task: number, at: job.release });
        jobs.windows(2).filter(|pair| pair[0].release + task.t > pair[1].release).for_each(|pair| note("apart", &pair[1]));
        for job in jobs {
            facts_of_job(task, &job.units).into_iter().filter(|(_, holds)| !holds).for_each(|(fact, _)| note(fact, job));
        }
    }
    broken
}

fn facts_of_job(task: &Task, units: &[Unit]) -> [(&'static str, bool); 8] {
    let usage = usage(units);
    let each = |within: fn(&Task, usize, Usage) -> bool| (0..LOCKS).all(|k| within(task, k, usage[k + 1]));
    [
        ("some", 1 <= units.len()),
        ("run", units.len() as u64 <= task.c),
        ("known", units.iter().all(|unit| unit.lock as usize <= LOCKS)),
        ("count", each(|task, k, usage| usage.count <= task.locks[k].n)),
        ("longest", each(|task, k, usage| usage.longest <= task.locks[k].c)),
        ("total", each(|task, k, usage| usage.total <= task.locks[k].ct)),
        ("first", units.first().map_or(true, |unit| unit.starts)),
        ("same", units.windows(2).all(|pair| pair[1].starts || pair[1].lock == pair[0].lock)),
    ]
}

/// Of a job and a resource: how often a stretch starts that uses it, the most units of one stretch that use it, and of all.
#[derive(Clone, Copy, Default)]
struct Usage {
    count: u64,
    longest: u64,
    total: u64,
}

/// By the resource's number. The units of a stretch follow one another: it ends where the next starts.
fn usage(units: &[Unit]) -> [Usage; LOCKS + 1] {
    let mut all = [Usage::default(); LOCKS + 1];
    let mut so_far = [0; LOCKS + 1];
    for unit in units.iter().filter(|unit| unit.starts || unit.lock > 0) {
        if unit.starts {
            so_far = [0; LOCKS + 1];
        }
        if let (Some(usage), Some(so_far)) = (all.get_mut(unit.lock as usize), so_far.get_mut(unit.lock as usize)) {
            *so_far += 1;
            *usage = Usage { count: usage.count + unit.starts as u64, longest: usage.longest.max(*so_far), total: usage.total + 1 };
        }
    }
    all
}
