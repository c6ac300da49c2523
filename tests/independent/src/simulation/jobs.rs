//! Jobs: when each is released and what it runs, and the limits that section II of the report sets to the jobs of a task. A table here has no groups: each of
//! its resources is a lock.

use crate::listing;
use crate::table::{Table, Task, LOCKS};

/// A part of a job, to be run in one go but for preemption: free, or one request, with its lock (from 0).
#[derive(Clone, Copy, PartialEq, Eq, Debug)]
pub struct Segment {
    pub lock: Option<usize>,
    pub length: u64,
}

#[derive(Clone, PartialEq, Eq, Debug)]
pub struct Job {
    pub release: u64,
    pub segments: Vec<Segment>,
}

impl Job {
    pub fn new(release: u64, segments: &[Segment]) -> Job {
        Job { release, segments: segments.to_vec() }
    }
}

/// The jobs of each task, in the order of their releases.
pub type Jobs = Vec<Vec<Job>>;

pub fn free(length: u64) -> Segment {
    Segment { lock: None, length }
}

/// A request for the lock with this index (from 0).
pub fn request(lock: usize, length: u64) -> Segment {
    Segment { lock: Some(lock), length }
}

/// The same with neighbours that are both free made one, and without empty ones.
pub fn joined(segments: Vec<Segment>) -> Vec<Segment> {
    let mut all: Vec<Segment> = Vec::with_capacity(segments.len());
    for segment in segments.into_iter().filter(|segment| segment.length > 0) {
        match all.last_mut() {
            Some(last) if last.lock.is_none() && segment.lock.is_none() => last.length += segment.length,
            _ => all.push(segment),
        }
    }
    all
}

/// Whether one job of the task may run this: no more than C in all, and of each lock no more requests than N, none longer than c, together no
/// longer than CT. No lock is nested, as a segment has one at most.
pub fn may_run(task: &Task, segments: &[Segment]) -> bool {
    let all: u64 = segments.iter().map(|segment| segment.length).sum();
    let mut requests = [0; LOCKS];
    let mut together = [0; LOCKS];
    for segment in segments {
        if let Some(k) = segment.lock {
            requests[k] += 1;
            together[k] += segment.length;
            if segment.length > task.locks[k].c {
                return false;
            }
        }
    }
    let kept = |k: usize| requests[k] <= task.locks[k].n && together[k] <= task.locks[k].ct;
    segments.iter().all(|segment| segment.length > 0) && (1..=task.c).contains(&all) && (0..LOCKS).all(kept)
}

/// Whether these can be the jobs of the table's tasks: each runs what it may, and those of one task are released at least T apart.
pub fn may_be(table: &Table, jobs: &Jobs) -> bool {
    let apart = |task: &Task, jobs: &[Job]| jobs.windows(2).all(|pair| pair[0].release + task.t <= pair[1].release);
    let tasks = table.used();
    jobs.len() == tasks.len()
        && tasks.iter().zip(jobs).all(|(task, jobs)| apart(task, jobs) && jobs.iter().all(|job| may_run(task, &job.segments)))
}

/// The jobs as lines, times in milliseconds as in a listing.
pub fn text(jobs: &Jobs) -> String {
    let segment = |segment: &Segment| match segment.lock {
        None => listing::time_text(segment.length),
        Some(k) => format!("{} with lock {}", listing::time_text(segment.length), k + 1),
    };
    let job = |job: &Job| {
        let segments: Vec<String> = job.segments.iter().map(segment).collect();
        format!("  at {}: {}\n", listing::time_text(job.release), segments.join(", "))
    };
    (1..).zip(jobs).map(|(number, jobs)| format!("task {number}\n{}", jobs.iter().map(job).collect::<String>())).collect()
}
