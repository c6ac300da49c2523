//! Small random changes of a scenario, within the limits of its table: of releases, of what jobs run, and of the kernel's choices.

use super::draw;
use super::jobs::{joined, may_run, Job, Segment};
use super::kernel::{Finishes, Kernel};
use super::scenario::Scenario;
use crate::random::Random;
use crate::table::{Table, Task};

/// The jobs of one task and the kernel, in place of others.
pub struct Change {
    task: usize,
    jobs: Vec<Job>,
    kernel: Kernel,
}

/// A change, or none if what was drawn is out of the limits.
pub fn draw(r: &mut Random, table: &Table, scenario: &Scenario, finishes: &Finishes) -> Option<Change> {
    let task = r.next() as usize % scenario.jobs.len();
    let unchanged = Change { task, jobs: scenario.jobs[task].clone(), kernel: scenario.kernel };
    let limits = &table.tasks[task];
    match r.within(0, 9) {
        0 => Some(Change { kernel: draw::kernel(r), ..unchanged }),
        1 => unchanged.packed(r, limits),
        2 => unchanged.shifted(r, limits),
        3..=5 => unchanged.met(r, limits, scenario, finishes),
        _ => unchanged.run_differently(r, limits),
    }
}

impl Change {
    /// Makes the change, or takes it back.
    pub fn swap(&mut self, scenario: &mut Scenario) {
        std::mem::swap(&mut self.jobs, &mut scenario.jobs[self.task]);
        std::mem::swap(&mut self.kernel, &mut scenario.kernel);
    }

    fn any_job(&self, r: &mut Random) -> usize {
        r.next() as usize % self.jobs.len()
    }

    /// The jobs after one, or before it, are released just T apart.
    fn packed(mut self, r: &mut Random, limits: &Task) -> Option<Change> {
        let at = self.any_job(r);
        if r.one_in(2) {
            for next in at + 1..self.jobs.len() {
                self.jobs[next].release = self.jobs[next - 1].release + limits.t;
            }
        } else {
            for previous in (0..at).rev() {
                self.jobs[previous].release = self.jobs[previous + 1].release.checked_sub(limits.t)?;
            }
        }
        Some(self)
    }

    /// A job is released a little earlier or later.
    fn shifted(self, r: &mut Random, limits: &Task) -> Option<Change> {
        let at = self.any_job(r);
        let far = step(r, limits.t);
        let release = self.jobs[at].release;
        let release = if r.one_in(2) { release + far } else { release.checked_sub(far)? };
        self.placed(at, release, limits.t)
    }

    /// A job is released so that it could come to one of its segments when another job is released or finishes, or a microsecond before or after that.
    fn met(self, r: &mut Random, limits: &Task, scenario: &Scenario, finishes: &Finishes) -> Option<Change> {
        let at = self.any_job(r);
        let segments = &self.jobs[at].segments;
        let reached = r.next() as usize % segments.len();
        let before: u64 = segments[..reached].iter().map(|segment| segment.length).sum();
        let instant = some_event(r, scenario, finishes) + r.within(0, 2);
        self.placed(at, instant.checked_sub(before + 1)?, limits.t)
    }

    /// Moves one job to some instant, and those before and after it as far as they must be.
    fn placed(mut self, at: usize, release: u64, t: u64) -> Option<Change> {
        self.jobs[at].release = release;
        for next in at + 1..self.jobs.len() {
            self.jobs[next].release = self.jobs[next].release.max(self.jobs[next - 1].release + t);
        }
        for previous in (0..at).rev() {
            let latest = self.jobs[previous + 1].release.checked_sub(t)?;
            self.jobs[previous].release = self.jobs[previous].release.min(latest);
        }
        Some(self)
    }

    fn run_differently(mut self, r: &mut Random, limits: &Task) -> Option<Change> {
        let (at, other) = (self.any_job(r), self.any_job(r));
        self.jobs[at].segments = match r.within(0, 3) {
            0 => draw::segments(r, limits),
            1 => self.jobs[other].segments.clone(),
            _ => changed(r, limits, &self.jobs[at].segments)?,
        };
        Some(self)
    }
}

/// Mostly a few microseconds, sometimes up to the whole of a length.
fn step(r: &mut Random, length: u64) -> u64 {
    let most = *r.pick(&[3, 3, length / 8, length]);
    r.within(1, most.clamp(1, length))
}

/// When some job is released or finishes.
fn some_event(r: &mut Random, scenario: &Scenario, finishes: &Finishes) -> u64 {
    let task = r.next() as usize % scenario.jobs.len();
    let at = r.next() as usize % scenario.jobs[task].len();
    if r.one_in(2) { scenario.jobs[task][at].release } else { finishes[task][at] }
}

/// What a job runs, with two segments in each other's place, a part of one moved to another or to another place, or a longer one.
fn changed(r: &mut Random, task: &Task, segments: &[Segment]) -> Option<Vec<Segment>> {
    let mut new = segments.to_vec();
    let at = r.next() as usize % new.len();
    let other = r.next() as usize % new.len();
    let part = step(r, new[at].length);
    match r.within(0, 3) {
        0 => new.swap(at, other),
        1 => {
            new[at].length -= part;
            new[other].length += part;
        }
        2 => {
            new[at].length -= part;
            new.insert(other, Segment { length: part, ..new[at] });
        }
        _ => new[at].length += part,
    }
    Some(joined(new)).filter(|new| may_run(task, new))
}
