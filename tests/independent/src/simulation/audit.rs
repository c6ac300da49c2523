//! A schedule held to the model a second way. It knows what each task does in each interval, and nothing of how the kernel decided it: progress,
//! effective priorities and who may run are worked out from the jobs alone.

use super::jobs::{Job, Jobs, Segment};
use super::kernel::{Doing, Finishes, Interval};

/// How far a task has come by what it was seen to run.
#[derive(Clone, Default)]
struct Seen {
    finishes: Vec<u64>,
    segment: usize,
    done: u64,
}

struct Audit<'a> {
    m: u64,
    jobs: &'a Jobs,
    tasks: Vec<Seen>,
}

/// What is wrong with a schedule on m processors, if anything is.
pub fn fault(m: u64, jobs: &Jobs, finishes: &Finishes, intervals: &[Interval]) -> Result<(), String> {
    let mut audit = Audit { m, jobs, tasks: vec![Seen::default(); jobs.len()] };
    let mut before: Option<&Interval> = None;
    for interval in intervals {
        let at = |what: String| format!("from {} to {}: {what}", interval.from, interval.to);
        audit.nothing_skipped(before.map_or(0, |before| before.to), interval).map_err(at)?;
        audit.locks(interval).map_err(at)?;
        before.map_or(Ok(()), |before| audit.handed_over(before, interval)).map_err(at)?;
        audit.who_runs(interval).map_err(at)?;
        audit.pass(interval).map_err(at)?;
        before = Some(interval);
    }
    let seen: Vec<&Vec<u64>> = audit.tasks.iter().map(|task| &task.finishes).collect();
    rule(seen == finishes.iter().collect::<Vec<_>>(), || format!("jobs were seen to finish at {seen:?}, not {finishes:?}"))?;
    rule(jobs.iter().zip(seen).all(|(jobs, seen)| jobs.len() == seen.len()), || "a job is not finished".into())
}

fn rule(kept: bool, what: impl Fn() -> String) -> Result<(), String> {
    if kept { Ok(()) } else { Err(what()) }
}

impl<'a> Audit<'a> {
    fn all(&self) -> std::ops::Range<usize> {
        0..self.jobs.len()
    }

    /// The first unfinished job of a task, if it is released by then.
    fn pending(&self, task: usize, at: u64) -> Option<&'a Job> {
        self.jobs[task].get(self.tasks[task].finishes.len()).filter(|job| job.release <= at)
    }

    fn segment(&self, task: usize, at: u64) -> Option<Segment> {
        self.pending(task, at).map(|job| job.segments[self.tasks[task].segment])
    }

    /// The lock of the request that a task has come to or is in.
    fn wants(&self, task: usize, at: u64) -> Option<usize> {
        self.segment(task, at).and_then(|segment| segment.lock)
    }

    /// Each interval begins where the one before ended, and none goes on when a job arrives.
    fn nothing_skipped(&self, end: u64, interval: &Interval) -> Result<(), String> {
        rule(interval.from == end, || "time was skipped".into())?;
        let arrives = |job: &Job| interval.from < job.release && job.release < interval.to;
        rule(interval.from < interval.to && !self.jobs.iter().flatten().any(arrives), || "an event was skipped".into())
    }

    /// A lock has one holder, who has come to its request; who waits has come to a request of a lock that another holds.
    fn locks(&self, interval: &Interval) -> Result<(), String> {
        for task in self.all() {
            let Doing { waits, holds: held, .. } = interval.doing[task];
            let wanted = self.wants(task, interval.from);
            let other_holds = self.all().any(|other| other != task && wanted.is_some() && interval.doing[other].holds == wanted);
            rule(held.is_none() || held == wanted, || format!("task {} holds a lock out of its request", task + 1))?;
            rule(held.is_none() || !other_holds, || format!("task {} holds a lock that another holds", task + 1))?;
            rule(!waits || held.is_none() && other_holds, || format!("task {} waits for nobody", task + 1))?;
            rule(held.is_some() || wanted.is_none() || self.tasks[task].done == 0, || format!("task {} lost its lock", task + 1))?;
        }
        Ok(())
    }

    /// Who has a lock keeps it until its request ends. Who gets one is no lower than those that waited for it; it waited itself, or has a processor, or had
    /// one at this instant.
    fn handed_over(&self, before: &Interval, interval: &Interval) -> Result<(), String> {
        for task in self.all() {
            let (had, has) = (before.doing[task].holds, interval.doing[task].holds);
            // a request of which nothing is done has ended, and is the next one, only if its task ran
            let keeps = had.is_some() && (self.tasks[task].done > 0 || !before.doing[task].runs);
            rule(!keeps || had == has, || format!("task {} did not keep its lock", task + 1))?;
            let waited = |other: usize| before.doing[other].waits && self.wants(other, before.from) == has;
            let gets = has.is_some() && !keeps;
            rule(!gets || !(0..task).any(waited), || format!("task {} got a lock that a higher one waited for", task + 1))?;
            let scheduled = waited(task) || interval.doing[task].runs || self.some_came(before, interval);
            rule(!gets || scheduled, || format!("task {} got a lock without a processor", task + 1))?;
        }
        Ok(())
    }

    /// Whether one that runs may have taken a processor away just now: it did not run, was in another segment, or was raised.
    fn some_came(&self, before: &Interval, interval: &Interval) -> bool {
        let raised = |task: usize| self.effective(task, interval) < self.effective(task, before);
        let came = |task: usize| !before.doing[task].runs || self.tasks[task].done == 0 || raised(task);
        self.all().any(|task| interval.doing[task].runs && came(task))
    }

    /// The highest priority of a task and of those that wait for the lock that it holds.
    fn effective(&self, task: usize, interval: &Interval) -> usize {
        let held = interval.doing[task].holds;
        let waiting = |&other: &usize| held.is_some() && interval.doing[other].waits && self.wants(other, interval.from) == held;
        self.all().find(waiting).map_or(task, |highest| highest.min(task))
    }

    /// At most m run, each with a pending job, its lock if it has come to a request, and not while it waits. Whoever is pending and neither runs nor waits
    /// has m above it that run.
    fn who_runs(&self, interval: &Interval) -> Result<(), String> {
        let running: Vec<usize> = self.all().filter(|&task| interval.doing[task].runs).collect();
        rule(running.len() as u64 <= self.m, || "more run than there are processors".into())?;
        for task in self.all() {
            let Doing { runs, waits, holds: held } = interval.doing[task];
            let segment = self.segment(task, interval.from);
            let runnable = segment.is_some_and(|segment| segment.lock == held) && !waits;
            rule(!runs || runnable, || format!("task {} runs and may not", task + 1))?;
            let own = self.effective(task, interval);
            let above = running.iter().filter(|&&other| self.effective(other, interval) <= own).count();
            let left_out = segment.is_some() && !runs && !waits;
            rule(!left_out || above as u64 == self.m, || format!("task {} does not run and could", task + 1))?;
        }
        Ok(())
    }

    /// Each that runs comes on by the length of the interval, and by no more than is left of its segment.
    fn pass(&mut self, interval: &Interval) -> Result<(), String> {
        for task in self.all().filter(|&task| interval.doing[task].runs) {
            let job = self.pending(task, interval.from).expect("who runs was seen to be pending");
            let seen = &mut self.tasks[task];
            seen.done += interval.to - interval.from;
            let length = job.segments[seen.segment].length;
            rule(seen.done <= length, || format!("task {} runs past a segment", task + 1))?;
            if seen.done == length {
                (seen.segment, seen.done) = (seen.segment + 1, 0);
            }
            if seen.segment == job.segments.len() {
                seen.finishes.push(interval.to);
                seen.segment = 0;
            }
        }
        Ok(())
    }
}
