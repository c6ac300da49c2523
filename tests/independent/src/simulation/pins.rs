//! Small schedules made by hand, with the finishes that were worked out on paper: what the kernel does about preemption, inheritance, waiting,
//! granting and the order of events at one instant.

use super::jobs::{free, may_be, may_run, request, Job, Segment};
use super::kernel::{Granting, Inheritance, Kernel, Order, Wait, ORDERS};
use super::scenario::Scenario;
use crate::table::{Lock, Task};
use crate::{cases, listing};

const HIGHEST_FIRST: Order = Order::Sorted { arrivals_first: false, lowest_first: false };
const LOWEST_FIRST: Order = Order::Sorted { arrivals_first: false, lowest_first: true };
const ARRIVALS_FIRST: Order = Order::Sorted { arrivals_first: true, lowest_first: false };
const BOTH_WAYS: &[Granting] = &[Granting::Scheduled, Granting::Highest];

/// A job, and when it finishes.
type Told = (Job, u64);

struct Pin {
    what: &'static str,
    m: u64,
    granting: &'static [Granting],
    orders: &'static [Order],
    /// The jobs of each task.
    told: Vec<Vec<Told>>,
}

/// A job that is released, runs and finishes as said.
fn job(release: u64, segments: &[Segment], finish: u64) -> Told {
    (Job::new(release, segments), finish)
}

/// With any kernel of the model the same comes out.
fn always(what: &'static str, m: u64, told: Vec<Vec<Told>>) -> Pin {
    Pin { what, m, granting: BOTH_WAYS, orders: &ORDERS, told }
}

/// Says how many there are, if each comes out as worked out.
pub fn hold() -> usize {
    let all: Vec<Pin> = [assigned(), inherited(), granted(), ordered(), vec![case_a()], together()].into_iter().flatten().collect();
    all.iter().for_each(Pin::hold);
    limits();
    all.len()
}

/// What a job may run, and what not: C is 10, and of lock 1 N is 2, c 3 and CT 5.
fn limits() {
    let mut task = Task { t: 10, c: 10, d: 10, ..Task::default() };
    task.locks[0] = Lock { n: 2, c: 3, ct: 5 };
    let may = |segments: &[Segment]| may_run(&task, segments);
    assert!(may(&[request(0, 3), free(5), request(0, 2)]), "all of it");
    assert!(may(&[free(10)]), "no lock, and all the time outside of locks");
    assert!(may(&[request(0, 1)]), "little of it");
    assert!(!may(&[]) && !may(&[free(0)]), "nothing");
    assert!(!may(&[free(11)]), "more than C");
    assert!(!may(&[request(0, 1), request(0, 1), request(0, 1)]), "more requests than N");
    assert!(!may(&[request(0, 4)]), "a request longer than c");
    assert!(!may(&[request(0, 3), request(0, 3)]), "more than CT");
    assert!(!may(&[request(1, 1)]), "a lock that is not used");
}

impl Pin {
    fn hold(&self) {
        let jobs: Vec<Vec<Job>> = self.told.iter().map(|jobs| jobs.iter().map(|(job, _)| job.clone()).collect()).collect();
        let finishes: Vec<Vec<u64>> = self.told.iter().map(|jobs| jobs.iter().map(|(_, finish)| *finish).collect()).collect();
        for (&granting, &order) in self.granting.iter().flat_map(|granting| self.orders.iter().map(move |order| (granting, order))) {
            let kernel = Kernel { granting, inheritance: Inheritance::Waiting, wait: Wait::Suspended, order };
            assert_eq!(kernel.finishes(self.m, &jobs), finishes, "{}: the finishes under {kernel:?}", self.what);
            let scenario = Scenario { jobs: jobs.clone(), kernel };
            assert_eq!((scenario.audited(self.m), scenario.breaks(self.m)), (Ok(()), vec![]), "{}: the schedule under {kernel:?}", self.what);
        }
    }
}

fn assigned() -> Vec<Pin> {
    vec![
        always("a higher job preempts", 1, vec![vec![job(3, &[free(2)], 5)], vec![job(0, &[free(5)], 7)]]),
        always(
            "the lowest of three gives way on two processors",
            2,
            vec![vec![job(2, &[free(3)], 5)], vec![job(0, &[free(4)], 4)], vec![job(0, &[free(4)], 6)]],
        ),
        always("jobs of a task run one at a time", 2, vec![vec![job(0, &[free(3)], 3), job(2, &[free(2)], 5)]]),
    ]
}

fn inherited() -> Vec<Pin> {
    let first = |finish| vec![job(2, &[request(0, 1)], finish)];
    let second = |finish| vec![job(2, &[free(5)], finish)];
    vec![
        always("the holder inherits", 1, vec![first(5), second(10), vec![job(0, &[request(0, 4)], 4)]]),
        always("it inherits only until it releases", 1, vec![first(5), second(10), vec![job(0, &[request(0, 4), free(3)], 13)]]),
        always(
            "who waits takes no place",
            2,
            vec![vec![job(1, &[request(0, 2)], 6)], vec![job(1, &[free(5)], 6)], vec![job(0, &[request(0, 4)], 4)], vec![job(1, &[free(2)], 8)]],
        ),
        always("a preempted holder keeps its lock", 1, vec![vec![job(1, &[free(2), request(0, 1)], 7)], vec![job(0, &[request(0, 4)], 6)]]),
    ]
}

/// Task 3 waits for task 4's lock, and when that is released tasks 1 and 2 have the processors.
fn granted() -> Vec<Pin> {
    let told = |first, third| {
        vec![
            vec![job(4, &[free(1), request(0, 2)], first)],
            vec![job(4, &[free(3)], 7)],
            vec![job(1, &[request(0, 2)], third)],
            vec![job(0, &[request(0, 4)], 4)],
        ]
    };
    let orders = &[ARRIVALS_FIRST];
    vec![
        Pin { what: "a free lock is taken by who is scheduled", m: 2, granting: &[Granting::Scheduled], orders, told: told(7, 9) },
        Pin { what: "a lock is handed to who waits", m: 2, granting: &[Granting::Highest], orders, told: told(9, 7) },
    ]
}

fn ordered() -> Vec<Pin> {
    let meeting = |first, second| vec![vec![job(2, &[free(1), request(0, 1)], first)], vec![job(0, &[free(2), request(0, 3)], second)]];
    let at_once = |first, second| vec![vec![job(0, &[request(0, 1)], first)], vec![job(0, &[request(0, 3)], second)]];
    let released = |first, second| {
        vec![vec![job(0, &[free(4), request(0, 2)], first)], vec![job(1, &[request(0, 3)], second)], vec![job(0, &[request(0, 4)], 4)]]
    };
    let pin = |what, m, granting, orders, told| Pin { what, m, granting, orders, told };
    vec![
        pin("a lock is taken just before a higher job arrives", 1, BOTH_WAYS, &[HIGHEST_FIRST, LOWEST_FIRST], meeting(7, 6)),
        pin("a higher job arrives just before a lock is taken", 1, BOTH_WAYS, &[ARRIVALS_FIRST], meeting(4, 7)),
        pin("the higher of two arrives first", 1, BOTH_WAYS, &[HIGHEST_FIRST], at_once(1, 4)),
        pin("the lower of two arrives first", 1, BOTH_WAYS, &[LOWEST_FIRST], at_once(4, 3)),
        pin("a request comes just before a release", 3, &[Granting::Highest], &[HIGHEST_FIRST], released(6, 9)),
        pin("a request comes just after a release", 3, &[Granting::Highest], &[LOWEST_FIRST], released(9, 7)),
    ]
}

/// Case A of the paper: task 3 takes the lock just before task 1 arrives, which is then as late as its bound, 3.25 ms. When it has released the lock, task 3
/// gives way until task 1 is done.
fn case_a() -> Pin {
    let told: Vec<Vec<Told>> = vec![
        vec![job(0, &[request(0, 500), free(2_000)], 3_250)],
        vec![job(0, &[free(4_000)], 4_000)],
        vec![job(0, &[request(0, 750), free(4_500), request(0, 750)], 8_500)],
    ];
    assert!(of_listing(cases::CASE_A, &told), "not jobs of case A");
    Pin { what: "case A", m: 2, granting: BOTH_WAYS, orders: &[LOWEST_FIRST], told }
}

/// Whether these can be the jobs of a listing. A group is one lock, with the index of its first member.
fn of_listing(text: &str, told: &[Vec<Told>]) -> bool {
    let table = listing::read(text.as_bytes()).expect("an accepted listing");
    may_be(&table.one_lock_a_group(), &told.iter().map(|jobs| jobs.iter().map(|(job, _)| job.clone()).collect()).collect())
}

/// Two locks of a group, one after the other. Let go between them, it is had by task 1 when it is free, in 2.9 ms of a bound of 3. Held from the first lock's
/// start to the second's end, it takes 3.9 ms: that is no job of the first listing, but one of the second, whose bound is 4.
fn together() -> Vec<Pin> {
    let let_go = vec![vec![job(100, &[request(0, 1_000)], 3_000)], vec![job(0, &[request(0, 2_000), request(0, 2_000)], 5_000)]];
    let held = vec![vec![job(100, &[request(0, 1_000)], 4_000)], vec![job(0, &[request(0, 3_000), free(1_000)], 4_000)]];
    let listings = [cases::OVERLAPPING, cases::OVERLAPPING_TYPED];
    assert_eq!(listings.map(|text| of_listing(text, &let_go)), [true, true]);
    assert_eq!(listings.map(|text| of_listing(text, &held)), [false, true]);
    vec![always("a group is let go between two locks", 2, let_go), always("a group is held over two locks", 2, held)]
}
