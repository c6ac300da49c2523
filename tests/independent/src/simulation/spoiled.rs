//! Schedules spoiled on purpose: the audit finds what is wrong with each, and of most of them a fact of the proved model does not hold.

use super::generated::{self, Broken};
use super::jobs::{free, request, Job, Jobs};
use super::kernel::{Finishes, Granting, Inheritance, Interval, Kernel, Order, Wait};
use super::{audit, facts};

/// On one processor. Task 1 waits for task 3's lock from 2 to 4, has it to 5, and task 2 runs from then to 10.
fn inherited() -> Jobs {
    vec![vec![Job::new(2, &[request(0, 1)])], vec![Job::new(2, &[free(5)])], vec![Job::new(0, &[request(0, 4)])]]
}

/// On one processor. Task 2 waits for task 3's lock, which it is handed at 3, when task 1 has the processor; it has it to 5 without running.
fn handed() -> Jobs {
    vec![vec![Job::new(3, &[free(2)])], vec![Job::new(1, &[request(0, 1)])], vec![Job::new(0, &[request(0, 3)])]]
}

/// On one processor. Tasks 2 and 1 come to wait for task 3's lock, which task 1 gets at 4 and task 2 at 5.
fn queued() -> Jobs {
    vec![vec![Job::new(2, &[request(0, 1)])], vec![Job::new(1, &[request(0, 1)])], vec![Job::new(0, &[request(0, 4)])]]
}

/// On one processor. Task 1 runs from 1 on, has its lock from 3 to 4, and task 2, which is released at 2, has it after that.
fn left_out() -> Jobs {
    vec![vec![Job::new(1, &[free(2), request(0, 1)])], vec![Job::new(2, &[request(0, 5)])]]
}

type Spoil = fn(&mut Vec<Interval>, &mut Finishes);

/// What the audit says, the first fact that is broken, or nothing if none is, and how the schedule is spoiled.
type Spoiled = (&'static str, &'static str, Spoil);

const INHERITED: &[Spoiled] = &[
    ("from 2 to 4: more run than there are processors", "runs_pending at 8 us, task 2", |all, _| all[1].doing[1].runs = true),
    ("from 2 to 4: task 1 runs and may not", "runs_locked at 2 us, task 1", |all, _| (all[1].doing[0].runs, all[1].doing[2].runs) = (true, false)),
    ("from 0 to 2: task 2 runs and may not", "runs_pending at 0 us, task 2", |all, _| (all[0].doing[1].runs, all[0].doing[2].runs) = (true, false)),
    ("from 2 to 4: task 3 does not run and could", "conserves at 2 us, task 3", |all, _| (all[1].doing[1].runs, all[1].doing[2].runs) = (true, false)),
    ("from 4 to 5: task 1 does not run and could", "conserves at 4 us, task 1", |all, _| (all[2].doing[0].runs, all[2].doing[1].runs) = (false, true)),
    ("from 2 to 4: task 2 holds a lock out of its request", "holds_lock at 2 us, task 2", |all, _| all[1].doing[1].holds = Some(0)),
    ("from 0 to 2: task 3 holds a lock out of its request", "holds_lock at 0 us, task 3", |all, _| all[0].doing[2].holds = Some(1)),
    ("from 2 to 4: task 1 holds a lock that another holds", "conserves at 2 us, task 1", |all, _| all[1].doing[0].holds = Some(0)),
    ("from 2 to 4: task 1 waits for nobody", "conserves at 2 us, task 1", |all, _| all[1].doing[2].holds = None),
    ("from 2 to 4: task 3 lost its lock", "conserves at 2 us, task 1", |all, _| (all[1].doing[0].waits, all[1].doing[2].holds) = (false, None)),
    ("from 5 to 10: time was skipped", "conserves at 5 us, task 1", |all, _| drop(all.remove(2))),
    ("from 0 to 4: an event was skipped", "conserves at 2 us, task 1", |all, _| all[0].to = all.remove(1).to),
    ("from 4 to 10: task 1 runs past a segment", "runs_pending at 5 us, task 1", |all, _| all[2].to = all.remove(3).to),
    ("jobs were seen to finish at [[5], [10], [4]], not [[5], [9], [4]]", "", |_, finishes| finishes[1] = vec![9]),
    ("a job is not finished", "", |all, finishes| {
        all.pop();
        finishes[1].pop();
    }),
];

const HANDED: &[Spoiled] = &[("from 4 to 5: task 2 did not keep its lock", "keeps at 4 us, task 2", |all, _| {
    let mut later = all[2].clone();
    (all[2].to, later.from) = (4, 4);
    later.doing[1].holds = None;
    all.insert(3, later);
})];

const QUEUED: &[Spoiled] =
    &[("from 4 to 5: task 2 got a lock that a higher one waited for", "not_past at 4 us, task 2", |all, _| all[3].doing.swap(0, 1))];

const LEFT_OUT: &[Spoiled] =
    &[("from 2 to 3: task 2 got a lock without a processor", "keeps at 3 us, task 2", |all, _| all[2].doing[1].holds = Some(0))];

/// Says how many there are, and in how many of them a fact is broken, if each is found out.
pub fn hold() -> (usize, usize) {
    let all = [(inherited(), INHERITED), (handed(), HANDED), (queued(), QUEUED), (left_out(), LEFT_OUT)];
    all.iter().for_each(|(jobs, spoiled)| spoiled.iter().for_each(|spoiled| found_out(jobs, spoiled)));
    let spoiled = all.iter().flat_map(|(_, spoiled)| *spoiled);
    (spoiled.clone().count(), spoiled.filter(|(_, fact, _)| !fact.is_empty()).count())
}

fn found_out(jobs: &Jobs, (fault, fact, spoil): &Spoiled) {
    let order = Order::Sorted { arrivals_first: true, lowest_first: false };
    let kernel = Kernel { granting: Granting::Highest, inheritance: Inheritance::Waiting, wait: Wait::Suspended, order };
    let (mut finishes, mut intervals) = kernel.schedule(1, jobs);
    let broken = |intervals: &[Interval]| facts::in_intervals(1, &generated::job_set(jobs), intervals).broken;
    assert_eq!(audit::fault(1, jobs, &finishes, &intervals), Ok(()), "what is spoiled must be right before");
    assert!(broken(&intervals).is_empty(), "what is spoiled must be right before");
    spoil(&mut intervals, &mut finishes);
    assert_eq!(audit::fault(1, jobs, &finishes, &intervals), Err(fault.to_string()), "a spoiled schedule");
    assert_eq!(broken(&intervals).first().map_or(String::new(), Broken::to_string), *fact, "{fault}");
}
