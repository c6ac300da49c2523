//! Schedules in which a bound is passed because something is not as it presumes, told with their listings: a task misses, the kernel is a wrong one, or a job
//! holds a group for longer than it may. Each is replayed from its releases and segments, and takes exactly as long as told. Where all tasks meet and the jobs
//! keep to their limits, no job is late with a right kernel.

use super::jobs::{free, may_be, request, Job, Jobs, Segment};
use super::kernel::{Granting, Inheritance, Kernel, Wait, ORDERS};
use super::printed::Report;
use super::scenario::Scenario;
use super::{generated, Stop};
use crate::{cases, listing};

/// A kernel but for its order of events at one instant, which does not matter in these schedules: each is replayed in several.
type Way = (Granting, Inheritance, Wait);

const RIGHT: [Way; 2] =
    [(Granting::Scheduled, Inheritance::Waiting, Wait::Suspended), (Granting::Highest, Inheritance::Waiting, Wait::Suspended)];
const FIFO: [Way; 1] = [(Granting::Longest, Inheritance::Waiting, Wait::Suspended)];
const TO_THE_LETTER: [Way; 1] = [(Granting::Scheduled, Inheritance::WaitingAmongHighest, Wait::Suspended)];
const UNINHERITED: [Way; 2] =
    [(Granting::Scheduled, Inheritance::Nobody, Wait::Suspended), (Granting::Highest, Inheritance::Nobody, Wait::Suspended)];
const SPINNING: [Way; 2] =
    [(Granting::Scheduled, Inheritance::Waiting, Wait::Spinning), (Granting::Highest, Inheritance::Waiting, Wait::Spinning)];

struct Replay {
    listing: &'static str,
    /// The numbers of the tasks that miss.
    misses: &'static [usize],
    /// The number of the task that is later than its bound, that bound, and how long it takes in one of these ways.
    task: usize,
    bound: u64,
    response: u64,
    ways: &'static [Way],
    /// The facts of the proved model that such kernels break here.
    breaks: &'static [&'static str],
    /// Those that the jobs break.
    limits: &'static [&'static str],
    jobs: Jobs,
}

fn replays() -> Vec<Replay> {
    vec![
        Replay {
            listing: cases::BACKLOG,
            misses: &[3],
            task: 4,
            bound: 6_000,
            response: 13_000,
            ways: &RIGHT,
            breaks: &[],
            limits: &[],
            jobs: vec![
                alike(&[0, 6_000, 12_000, 18_000, 24_000, 30_000], &[free(3_000)]),
                alike(&[0, 6_000, 12_000, 18_000, 27_000, 33_000], &[free(3_000)]),
                alike(&[0, 3_000, 6_000, 9_000, 12_000, 15_000, 18_000, 21_000, 24_000, 27_000, 30_000, 33_000], &[free(2_000)]),
                alike(&[24_000], &[free(1_000)]),
            ],
        },
        Replay {
            listing: cases::BACKLOG_BELOW,
            misses: &[4],
            task: 3,
            bound: 10_000,
            response: 10_800,
            ways: &RIGHT,
            breaks: &[],
            limits: &[],
            jobs: vec![
                alike(&[10_200, 16_200], &[request(0, 1_000)]),
                alike(&[10_200, 16_200], &[free(3_000)]),
                alike(&[10_200], &[free(5_000)]),
                vec![Job::new(5_100, &[request(1, 1_000), request(0, 2_000)]), Job::new(16_100, &[request(0, 2_000), request(1, 1_000)])],
                alike(&[4_100], &[request(1, 5_000)]),
            ],
        },
        Replay {
            listing: cases::BACKLOG_ABOVE,
            misses: &[1],
            task: 2,
            bound: 3_000,
            response: 3_800,
            ways: &RIGHT,
            breaks: &[],
            limits: &[],
            jobs: vec![
                vec![Job::new(1_500, &[request(0, 1_000), request(1, 1_000)]), Job::new(7_500, &[request(1, 1_000), request(0, 1_000)])],
                alike(&[6_200], &[request(1, 1_000), request(1, 1_000)]),
                alike(&[0], &[request(0, 5_000)]),
            ],
        },
        Replay {
            listing: cases::QUEUED,
            misses: &[],
            task: 1,
            bound: 3_000,
            response: 4_800,
            ways: &FIFO,
            breaks: &["not_past"],
            limits: &[],
            jobs: vec![alike(&[200], &[request(0, 1_000)]), alike(&[100], &[request(0, 2_000)]), alike(&[0], &[request(0, 2_000)])],
        },
        Replay {
            listing: cases::TO_THE_LETTER,
            misses: &[],
            task: 2,
            bound: 3_000,
            response: 12_500,
            ways: &TO_THE_LETTER,
            breaks: &["conserves"],
            limits: &[],
            jobs: vec![
                alike(&[300], &[request(0, 1_000)]),
                alike(&[300], &[request(1, 1_000)]),
                alike(&[300], &[free(10_000)]),
                alike(&[100], &[request(1, 2_000)]),
                alike(&[0], &[request(0, 10_000)]),
            ],
        },
        Replay {
            listing: cases::UNINHERITED,
            misses: &[],
            task: 1,
            bound: 3_000,
            response: 7_900,
            ways: &UNINHERITED,
            breaks: &["conserves"],
            limits: &[],
            jobs: vec![alike(&[100], &[request(0, 1_000)]), alike(&[200], &[free(5_000)]), alike(&[0], &[request(0, 2_000)])],
        },
        Replay {
            listing: cases::SPINNING,
            misses: &[],
            task: 2,
            bound: 5_000,
            response: 6_800,
            ways: &SPINNING,
            breaks: &["conserves"],
            limits: &[],
            jobs: vec![alike(&[100], &[request(0, 1_000)]), alike(&[200], &[free(5_000)]), alike(&[0], &[request(0, 2_000)])],
        },
        // task 2 has one lock from 0 to 2 and the other from 1 to 3, and does not let the group go between
        Replay {
            listing: cases::OVERLAPPING,
            misses: &[],
            task: 1,
            bound: 3_000,
            response: 3_900,
            ways: &RIGHT,
            breaks: &[],
            limits: &["longest"],
            jobs: vec![alike(&[100], &[request(0, 1_000)]), alike(&[0], &[request(0, 3_000), free(1_000)])],
        },
    ]
}

fn alike(releases: &[u64], segments: &[Segment]) -> Vec<Job> {
    releases.iter().map(|&release| Job::new(release, segments)).collect()
}

/// Says how many there are, if each comes out as told.
pub fn hold(report: &Report) -> Result<usize, Stop> {
    let all = replays();
    all.iter().try_for_each(|replay| replay.hold(report))?;
    Ok(all.len())
}

impl Replay {
    fn hold(&self, report: &Report) -> Result<(), Stop> {
        let table = listing::read(self.listing.as_bytes()).expect("an accepted listing");
        let bounds = report.bounds(self.listing)?;
        let missing: Vec<usize> = (1..).zip(&bounds).filter(|(_, bound)| bound.is_none()).map(|(number, _)| number).collect();
        assert_eq!(missing, self.misses, "the tasks that miss in\n{}", self.listing);
        assert_eq!(bounds[self.task - 1], Some(self.bound), "the bound of task {} in\n{}", self.task, self.listing);
        let locks = table.one_lock_a_group();
        assert_eq!(may_be(&locks, &self.jobs), self.limits.is_empty(), "the limits of the jobs in\n{}", self.listing);
        let broken = generated::broken(&locks, &generated::job_set(&self.jobs));
        assert_eq!(generated::names(&broken), self.limits, "the facts that the jobs break in\n{}", self.listing);
        self.scenarios(self.ways).for_each(|scenario| self.as_told(&scenario, table.m));
        if missing.is_empty() && self.limits.is_empty() {
            self.scenarios(&RIGHT).for_each(|scenario| self.in_time(&scenario, table.m, &bounds));
        }
        Ok(())
    }

    fn scenarios<'a>(&'a self, ways: &'a [Way]) -> impl Iterator<Item = Scenario> + 'a {
        let kernels = ways.iter().flat_map(|&(granting, inheritance, wait)| ORDERS.map(|order| Kernel { granting, inheritance, wait, order }));
        kernels.map(|kernel| Scenario { jobs: self.jobs.clone(), kernel })
    }

    /// The audit agrees if the kernel is a right one, and finds a wrong one out, as a fact of the proved model does.
    fn as_told(&self, scenario: &Scenario, m: u64) {
        let Kernel { granting, inheritance, wait, .. } = scenario.kernel;
        assert_eq!(scenario.response(m, self.task - 1), self.response, "task {} under {} of\n{}", self.task, scenario.kernel, self.listing);
        assert_eq!(scenario.audited(m).is_ok(), RIGHT.contains(&(granting, inheritance, wait)), "audited under {} of\n{}", scenario.kernel, self.listing);
        assert_eq!(scenario.breaks(m), self.breaks, "the facts that are broken under {} of\n{}", scenario.kernel, self.listing);
    }

    fn in_time(&self, scenario: &Scenario, m: u64, bounds: &[Option<u64>]) {
        assert_eq!((scenario.audited(m), scenario.breaks(m)), (Ok(()), vec![]), "{} of\n{}", scenario.kernel, self.listing);
        for (task, bound) in bounds.iter().enumerate() {
            assert!(Some(scenario.response(m, task)) <= *bound, "task {} is late under {} of\n{}", task + 1, scenario.kernel, self.listing);
        }
    }
}
