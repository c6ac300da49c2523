//! Jobs of a table and choices of the kernel, drawn at random, all within the limits of the table and the model.

use super::jobs::{free, joined, request, Job, Jobs, Segment};
use super::kernel::{Granting, Inheritance, Kernel, Order, Wait};
use crate::random::Random;
use crate::table::{Table, Task};

/// One of the kernels that the model allows. Where the lowest comes first, it may take its lock just before a higher one arrives.
pub fn kernel(r: &mut Random) -> Kernel {
    let granting = *r.pick(&[Granting::Scheduled, Granting::Highest]);
    let order = match r.within(0, 5) {
        0 => Order::Sorted { arrivals_first: r.one_in(2), lowest_first: false },
        1 | 2 => Order::Sorted { arrivals_first: r.one_in(2), lowest_first: true },
        _ => Order::Drawn(r.next()),
    };
    Kernel { granting, inheritance: Inheritance::Waiting, wait: Wait::Suspended, order }
}

/// What one job of a task runs: mostly all that it may.
pub fn segments(r: &mut Random, task: &Task) -> Vec<Segment> {
    let mut drawn = requests(r, task);
    shuffle(r, &mut drawn);
    let held: u64 = drawn.iter().map(|request| request.length).sum();
    // what a job does not use of its lock times it may run outside of locks
    let left = task.c - held;
    let least = (held == 0) as u64;
    let outside = if r.one_in(4) { r.within(least, left) } else { left };
    spread(r, &mut drawn, outside);
    joined(drawn)
}

/// The requests of one job: mostly as many and as long as the task may make.
fn requests(r: &mut Random, task: &Task) -> Vec<Segment> {
    let mut drawn = Vec::new();
    for (k, lock) in task.locks.iter().enumerate().filter(|(_, lock)| lock.n > 0) {
        let mut left = match r.within(0, 9) {
            0 => 0,
            1 | 2 => r.within(1, lock.ct),
            _ => lock.ct,
        };
        for still in (0..lock.n).rev() {
            if left == 0 {
                break;
            }
            // what the requests that are still to come cannot hold, this one does
            let least = left.saturating_sub(still * lock.c).max(1);
            let most = left.min(lock.c);
            let length = if r.one_in(2) { most } else { r.within(least, most) };
            drawn.push(request(k, length));
            left -= length;
        }
    }
    drawn
}

fn shuffle(r: &mut Random, list: &mut [Segment]) {
    for at in (1..list.len()).rev() {
        list.swap(at, r.within(0, at as u64) as usize);
    }
}

/// Puts time outside of locks before, between and after the requests: at one place or at several.
fn spread(r: &mut Random, segments: &mut Vec<Segment>, mut outside: u64) {
    while outside > 0 {
        let length = if r.one_in(2) { outside } else { r.within(1, outside) };
        let at = r.within(0, segments.len() as u64) as usize;
        segments.insert(at, free(length));
        outside -= length;
    }
}

/// Jobs of a table around the release of a target at `start`, which is not 0, up to `end`.
pub fn jobs(r: &mut Random, table: &Table, target: usize, start: u64, end: u64) -> Jobs {
    let release = *r.pick(&[at_any_time, at_once, lower_just_before, carried_in]);
    let from_there_on = r.one_in(3);
    let lower_lock_first = r.one_in(2);
    let each = |(slot, task): (usize, &Task)| {
        let lower = slot > target;
        let at = if slot == target { start } else { release(r, task, lower, start) };
        let mut releases = if from_there_on { vec![] } else { earlier(r, task, at) };
        releases.extend(later(r, task, at, end));
        releases.into_iter().map(|release| Job { release, segments: ordered(segments(r, task), lower && lower_lock_first) }).collect()
    };
    table.used().iter().enumerate().map(each).collect()
}

/// The same segments, perhaps with the requests before all else.
fn ordered(mut segments: Vec<Segment>, requests_first: bool) -> Vec<Segment> {
    if requests_first {
        segments.sort_by_key(|segment| segment.lock.is_none());
    }
    joined(segments)
}

fn at_any_time(r: &mut Random, task: &Task, _: bool, start: u64) -> u64 {
    (start + r.within(0, task.t)).saturating_sub(r.within(0, task.t))
}

fn at_once(_: &mut Random, _: &Task, _: bool, start: u64) -> u64 {
    start
}

/// The lower tasks may so have their locks when the higher ones come.
fn lower_just_before(r: &mut Random, _: &Task, lower: bool, start: u64) -> u64 {
    if lower { start - r.within(0, 1) } else { start }
}

/// Released before the target, with a deadline by which it can run at most C from the target's release on.
fn carried_in(r: &mut Random, task: &Task, _: bool, start: u64) -> u64 {
    (start + r.within(1, task.c)).saturating_sub(task.d)
}

/// Mostly just T.
fn gap(r: &mut Random, task: &Task) -> u64 {
    if r.one_in(6) { task.t + r.within(0, task.t) } else { task.t }
}

/// The releases before one, as far as there is room.
fn earlier(r: &mut Random, task: &Task, at: u64) -> Vec<u64> {
    let mut all: Vec<u64> = std::iter::successors(Some(at), |release| release.checked_sub(gap(r, task))).skip(1).collect();
    all.reverse();
    all
}

/// One release and those after it.
fn later(r: &mut Random, task: &Task, at: u64, end: u64) -> Vec<u64> {
    let after = std::iter::successors(Some(at), |release| Some(release + gap(r, task)));
    after.enumerate().take_while(|&(place, release)| place == 0 || release <= end).map(|(_, release)| release).collect()
}
