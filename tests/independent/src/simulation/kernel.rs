//! Who runs when: Algorithm 1 of the report's section IV with line 11 always true, event by event, in whole microseconds. A job that waits for a
//! lock gives its processor up and takes no place among those that run. Of several that wait for one lock its holder inherits the highest, as section III-A has
//! it; line 9 to the letter would leave it the lowest. Nothing here knows of workloads or bounds.

use super::jobs::{Job, Jobs, Segment};
use crate::random::Random;
use crate::table::LOCKS;
use std::fmt;

/// Who gets a lock that was released.
#[derive(Clone, Copy, PartialEq, Eq, Debug)]
pub enum Granting {
    /// Whoever is scheduled and asks for it, in the order of priorities.
    Scheduled,
    /// The waiting job of the highest priority, at once, even if it does not run at once.
    Highest,
    /// A wrong kernel, with FIFO queues: who has waited longest.
    Longest,
}

/// From whom the holder of a lock inherits.
#[derive(Clone, Copy, PartialEq, Eq, Debug)]
pub enum Inheritance {
    /// From every job that waits for the lock.
    Waiting,
    /// A wrong kernel, section II to the letter: from a waiting job only while it is one of the m jobs of the highest effective priority, where those
    /// that wait count too.
    WaitingAmongHighest,
    /// A wrong kernel, without inheritance.
    Nobody,
}

/// What becomes of the processor of a job that waits.
#[derive(Clone, Copy, PartialEq, Eq, Debug)]
pub enum Wait {
    /// The job gives it up.
    Suspended,
    /// A wrong kernel: the job keeps it as long as its own priority lets it.
    Spinning,
}

/// In which order events of one instant happen.
#[derive(Clone, Copy, PartialEq, Eq, Debug)]
pub enum Order {
    Sorted { arrivals_first: bool, lowest_first: bool },
    /// Drawn anew for each instant.
    Drawn(u64),
}

/// One of each kind, for schedules made by hand.
pub const ORDERS: [Order; 5] = [
    Order::Sorted { arrivals_first: false, lowest_first: false },
    Order::Sorted { arrivals_first: false, lowest_first: true },
    Order::Sorted { arrivals_first: true, lowest_first: false },
    Order::Sorted { arrivals_first: true, lowest_first: true },
    Order::Drawn(1),
];

#[derive(Clone, Copy, PartialEq, Eq, Debug)]
pub struct Kernel {
    pub granting: Granting,
    pub inheritance: Inheritance,
    pub wait: Wait,
    pub order: Order,
}

impl fmt::Display for Kernel {
    fn fmt(&self, f: &mut fmt::Formatter) -> fmt::Result {
        let granting = match self.granting {
            Granting::Scheduled => "is taken by the highest that is scheduled and asks",
            Granting::Highest => "goes to the highest that waits",
            Granting::Longest => "goes to who has waited longest",
        };
        let inheritance = match self.inheritance {
            Inheritance::Waiting => "",
            Inheritance::WaitingAmongHighest => ", and its holder inherits only from one of the m highest",
            Inheritance::Nobody => ", and its holder inherits from nobody",
        };
        let wait = match self.wait {
            Wait::Suspended => "",
            Wait::Spinning => "; who waits spins",
        };
        writeln!(f, "a lock {granting}{inheritance}{wait}; the order of events at one instant: {:?}", self.order)
    }
}

/// When each job of each task finishes.
pub type Finishes = Vec<Vec<u64>>;

/// What a task does between two events. One with a pending job may do nothing.
#[derive(Clone, Copy, PartialEq, Eq, Debug)]
pub struct Doing {
    pub runs: bool,
    pub waits: bool,
    pub holds: Option<usize>,
}

/// A part of a schedule in which nothing changes, and what each task does in it.
#[derive(Clone)]
pub struct Interval {
    pub from: u64,
    pub to: u64,
    pub doing: Vec<Doing>,
}

impl Kernel {
    pub fn finishes(&self, m: u64, jobs: &Jobs) -> Finishes {
        Run::new(self, m, jobs).to_the_end(|_, _| ())
    }

    /// The same with the schedule, as intervals.
    pub fn schedule(&self, m: u64, jobs: &Jobs) -> (Finishes, Vec<Interval>) {
        let mut intervals = Vec::new();
        let finishes = Run::new(self, m, jobs).to_the_end(|run, to| {
            let doing = (0..jobs.len()).map(|task| run.doing(task)).collect();
            intervals.push(Interval { from: run.now, to, doing });
        });
        (finishes, intervals)
    }
}

/// How far a task has come. Its active job is the first that is not finished, once that has arrived.
#[derive(Clone, Default)]
struct Progress {
    arrived: usize,
    finished: usize,
    segment: usize,
    /// What is left of the segment.
    left: u64,
    runs: bool,
    holds: bool,
    /// Of a job that waits for a lock: how many had asked for one before it.
    waits: Option<u64>,
}

#[derive(Clone, Copy)]
enum Event {
    /// A running job comes to the end of a segment: to a request, the end of one, or its own.
    End(usize),
    Arrival(usize),
}

struct Run<'a> {
    kernel: &'a Kernel,
    processors: usize,
    jobs: &'a Jobs,
    now: u64,
    tasks: Vec<Progress>,
    holder: [Option<usize>; LOCKS],
    asked: u64,
    finishes: Finishes,
}

impl<'a> Run<'a> {
    fn new(kernel: &'a Kernel, m: u64, jobs: &'a Jobs) -> Run<'a> {
        let finishes = jobs.iter().map(|jobs| Vec::with_capacity(jobs.len())).collect();
        let tasks = vec![Progress::default(); jobs.len()];
        Run { kernel, processors: m as usize, jobs, now: 0, tasks, holder: [None; LOCKS], asked: 0, finishes }
    }

    /// `observe` sees each stretch of time in which nothing changes, before it passes: the run and the end of the stretch.
    fn to_the_end(mut self, mut observe: impl FnMut(&Run, u64)) -> Finishes {
        let mut events = Vec::new();
        while let Some(next) = self.next_event() {
            if next > self.now {
                observe(&self, next);
            }
            self.pass(next);
            self.events(&mut events);
            for &event in &events {
                self.happen(event);
                self.assign();
            }
        }
        assert!((0..self.tasks.len()).all(|task| !self.pending(task)), "a job is pending for ever");
        self.finishes
    }

    fn next_event(&self) -> Option<u64> {
        let ends = self.tasks.iter().filter(|task| task.runs).map(|task| self.now + task.left);
        let arrivals = (0..self.tasks.len()).filter_map(|task| self.next_arrival(task));
        ends.chain(arrivals).min()
    }

    fn next_arrival(&self, task: usize) -> Option<u64> {
        self.jobs[task].get(self.tasks[task].arrived).map(|job| job.release)
    }

    fn pass(&mut self, next: u64) {
        let passed = next - self.now;
        self.tasks.iter_mut().filter(|task| task.runs).for_each(|task| task.left -= passed);
        self.now = next;
    }

    /// The events of this instant, in the kernel's order.
    fn events(&self, events: &mut Vec<Event>) {
        let all = 0..self.tasks.len();
        events.clear();
        events.extend(all.clone().filter(|&task| self.tasks[task].runs && self.tasks[task].left == 0).map(Event::End));
        events.extend(all.filter(|&task| self.next_arrival(task) == Some(self.now)).map(Event::Arrival));
        events.sort_by_key(|&event| self.kernel.order.place(event, self.now));
    }

    fn happen(&mut self, event: Event) {
        match event {
            Event::Arrival(task) => {
                self.tasks[task].arrived += 1;
                if self.tasks[task].arrived == self.tasks[task].finished + 1 {
                    self.enter(task, 0);
                }
            }
            Event::End(task) => self.end_segment(task),
        }
    }

    fn end_segment(&mut self, task: usize) {
        if self.tasks[task].holds {
            self.release(task);
        }
        let next = self.tasks[task].segment + 1;
        if next < self.active(task).segments.len() {
            self.enter(task, next);
        } else {
            self.finish(task);
        }
    }

    fn enter(&mut self, task: usize, segment: usize) {
        let left = self.active(task).segments[segment].length;
        let progress = &mut self.tasks[task];
        (progress.segment, progress.left) = (segment, left);
    }

    fn finish(&mut self, task: usize) {
        self.finishes[task].push(self.now);
        self.tasks[task].finished += 1;
        if self.pending(task) {
            self.enter(task, 0);
        }
    }

    fn release(&mut self, task: usize) {
        let lock = self.segment(task).lock.expect("the lock of a request");
        self.tasks[task].holds = false;
        self.holder[lock] = None;
        let waiting = (0..self.tasks.len()).filter(|&other| self.waits_for(other) == Some(lock));
        match self.kernel.granting {
            // they ask again when they are scheduled
            Granting::Scheduled => waiting.collect::<Vec<_>>().into_iter().for_each(|other| self.tasks[other].waits = None),
            Granting::Highest => waiting.min().into_iter().for_each(|other| self.take(other, lock)),
            Granting::Longest => waiting.min_by_key(|&other| self.tasks[other].waits).into_iter().for_each(|other| self.take(other, lock)),
        }
    }

    fn take(&mut self, task: usize, lock: usize) {
        self.holder[lock] = Some(task);
        (self.tasks[task].holds, self.tasks[task].waits) = (true, None);
    }

    /// Algorithm 1. Where a job begins to wait, the holder's priority may rise: then the order is made anew, and those that came before it are where
    /// they were.
    fn assign(&mut self) {
        while !self.assigned_unless_one_waits() {}
    }

    fn assigned_unless_one_waits(&mut self) -> bool {
        let order = self.in_order();
        self.tasks.iter_mut().for_each(|task| task.runs = false);
        let mut unassigned = self.processors;
        for task in order {
            if unassigned == 0 {
                return true;
            }
            if self.tasks[task].waits.is_some() {
                unassigned -= 1;
                continue;
            }
            if let Some(lock) = self.requests(task) {
                if self.holder[lock].is_some() {
                    self.wait(task);
                    return false;
                }
                self.take(task, lock);
            }
            self.tasks[task].runs = true;
            unassigned -= 1;
        }
        true
    }

    fn wait(&mut self, task: usize) {
        self.tasks[task].waits = Some(self.asked);
        self.asked += 1;
    }

    /// The pending jobs that do not wait, and those that spin, in the order of their effective priorities.
    fn in_order(&self) -> Vec<usize> {
        let effective = match self.kernel.inheritance {
            Inheritance::Waiting => self.inherited(),
            Inheritance::WaitingAmongHighest => self.inherited_among_highest(),
            Inheritance::Nobody => (0..self.tasks.len()).collect(),
        };
        let wants_processor = |&task: &usize| self.pending(task) && (self.tasks[task].waits.is_none() || self.kernel.wait == Wait::Spinning);
        let mut all: Vec<usize> = (0..self.tasks.len()).filter(wants_processor).collect();
        all.sort_by_key(|&task| effective[task]);
        all
    }

    fn inherited(&self) -> Vec<usize> {
        let mut effective: Vec<usize> = (0..self.tasks.len()).collect();
        for waiting in 0..self.tasks.len() {
            self.raise(&mut effective, waiting);
        }
        effective
    }

    fn inherited_among_highest(&self) -> Vec<usize> {
        let mut effective: Vec<usize> = (0..self.tasks.len()).collect();
        let mut pending: Vec<usize> = (0..self.tasks.len()).filter(|&task| self.pending(task)).collect();
        for place in 0..self.processors.min(pending.len()) {
            pending.sort_by_key(|&task| (effective[task], task));
            self.raise(&mut effective, pending[place]);
        }
        effective
    }

    /// If the task waits, the holder of the lock gets its priority, unless that is lower.
    fn raise(&self, effective: &mut [usize], waiting: usize) {
        if let Some(holder) = self.waits_for(waiting).and_then(|lock| self.holder[lock]) {
            effective[holder] = effective[holder].min(waiting);
        }
    }

    fn pending(&self, task: usize) -> bool {
        self.tasks[task].finished < self.tasks[task].arrived
    }

    fn active(&self, task: usize) -> &'a Job {
        &self.jobs[task][self.tasks[task].finished]
    }

    fn segment(&self, task: usize) -> Segment {
        self.active(task).segments[self.tasks[task].segment]
    }

    /// The lock of the request that a pending job has come to, if it does not hold it yet.
    fn requests(&self, task: usize) -> Option<usize> {
        self.segment(task).lock.filter(|_| !self.tasks[task].holds)
    }

    fn waits_for(&self, task: usize) -> Option<usize> {
        self.tasks[task].waits.and_then(|_| self.requests(task))
    }

    fn doing(&self, task: usize) -> Doing {
        let Progress { runs, waits, .. } = self.tasks[task];
        let holds = self.holder.iter().position(|&holder| holder == Some(task));
        Doing { runs, waits: waits.is_some(), holds }
    }
}

impl Order {
    /// Events of one instant happen from the smallest place to the largest.
    fn place(self, event: Event, now: u64) -> (u64, u64) {
        let (arrives, task) = match event {
            Event::End(task) => (false, task as u64),
            Event::Arrival(task) => (true, task as u64),
        };
        match self {
            Order::Sorted { arrivals_first, lowest_first } => {
                ((arrives != arrivals_first) as u64, if lowest_first { u64::MAX - task } else { task })
            }
            Order::Drawn(seed) => (Random::new(seed ^ (now << 6) ^ (task << 1) ^ arrives as u64).next(), 0),
        }
    }
}
