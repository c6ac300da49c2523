//! What the model of Theorem 1 says of a kernel, under its names there: the facts of `FactAt` (crates/schedules/specs/Schedule.antt), held to a
//! schedule at every instant, a whole microsecond. Nothing is shared with the audit, and nothing taken from the kernel but what each task was seen
//! to do: progress, waiting and priorities are worked out as the model says.

use super::generated::{Broken, JobSet, ModelJob, Unit};
use super::kernel::{Doing, Interval};
use std::ops::Range;

/// A schedule of no more instants than these is looked at microsecond by microsecond.
const ONE_BY_ONE: u64 = 1_000;

/// What the model's `Schedule` has of an instant and a task.
#[derive(Clone, Copy)]
pub struct Does {
    pub runs: bool,
    pub holds: bool,
    pub asked: bool,
}

/// What was found in a schedule: the facts that do not hold, and how many instants were looked at.
pub struct Found {
    pub broken: Vec<Broken>,
    pub looked_at: u64,
}

/// A task at an instant: what it does, and by its progress whether a job of it is pending, which resource its next unit needs, 0 for none, and whether
/// a stretch begins with that unit.
#[derive(Clone, Copy, Default)]
struct At {
    runs: bool,
    holds: bool,
    asked: bool,
    pending: bool,
    needs: u8,
    begins: bool,
}

/// All tasks at an instant.
struct Instant(Vec<At>);

impl Instant {
    fn all(&self) -> Range<usize> {
        0..self.0.len()
    }

    fn waits_for(&self, w: usize, l: usize) -> bool {
        let (w, l) = (self.0[w], self.0[l]);
        w.asked && !w.holds && l.holds && w.needs == l.needs
    }

    fn waits(&self, w: usize) -> bool {
        self.all().any(|l| self.waits_for(w, l))
    }

    fn priority(&self, l: usize) -> usize {
        self.all().find(|&w| w == l || self.waits_for(w, l)).unwrap_or(l)
    }

    /// How many run whose priorities are no lower than that of l.
    fn ahead_of(&self, l: usize) -> usize {
        let own = self.priority(l);
        self.all().filter(|&h| self.0[h].runs && self.priority(h) <= own).count()
    }

    /// The facts about a task l at this instant, s in the model: `!a || b` is its a → b.
    fn facts(&self, m: u64, l: usize, mut fact: impl FnMut(&'static str, bool)) {
        let At { runs, holds, pending, needs, .. } = self.0[l];
        fact("runs_pending", !runs || pending);
        fact("runs_locked", !(runs && needs > 0) || holds);
        fact("conserves", !pending || runs || self.waits(l) || m <= self.ahead_of(l) as u64);
        fact("one_holder", !holds || self.all().all(|w| !self.0[w].holds || needs != self.0[w].needs || l == w));
        fact("holds_pending", !holds || pending);
        fact("holds_lock", !holds || needs > 0);
    }

    /// Those that look at the instant before, r, too.
    fn facts_since(&self, r: &Instant, l: usize, mut fact: impl FnMut(&'static str, bool)) {
        let (had, has) = (r.0[l], self.0[l]);
        // `gotAfter`, of one that holds its lock: who waits for it says that it does
        let got = has.holds && if had.runs { has.begins } else { !had.holds };
        let asked_before = |w: usize| r.0[w].asked && !r.0[w].runs && self.waits_for(w, l);
        fact("keeps", !(had.holds && !had.runs) || has.holds);
        fact("goes_on", !(had.runs && has.needs > 0 && !has.begins) || has.holds);
        fact("asked_on", !(had.asked && !had.runs) || has.asked);
        fact("not_past", !got || self.all().all(|w| !asked_before(w) || l < w));
    }
}

/// The job that a task is at, the first that is not finished, and how many of that job's units it has run.
#[derive(Clone, Copy, Default)]
struct Progress {
    job: usize,
    unit: usize,
}

/// A way through a schedule: where each task is, by what it ran so far.
struct Walk<'a> {
    m: u64,
    jobs: &'a JobSet,
    now: u64,
    progress: Vec<Progress>,
    /// This instant and the one before. Before the instant 0 nobody does anything: then no fact asks for anything.
    at: Instant,
    before: Instant,
    found: Found,
}

/// Holds the facts to a schedule that is told instant by instant.
pub fn in_instants(m: u64, jobs: &JobSet, instants: &[Vec<Does>]) -> Found {
    let mut walk = Walk::new(m, jobs);
    for instant in instants {
        walk.look(|l, _| instant[l]);
        walk.pass(1);
    }
    walk.found
}

/// To one that was simulated.
pub fn in_intervals(m: u64, jobs: &JobSet, intervals: &[Interval]) -> Found {
    let mut walk = Walk::new(m, jobs);
    let one_by_one = intervals.last().map_or(0, |last| last.to) <= ONE_BY_ONE;
    intervals.iter().for_each(|interval| walk.through(interval, one_by_one));
    walk.found
}

/// Who waits for a lock or holds it has asked for it, and still has where the lock is free before it gets it. When it has run it is at its next unit.
fn seen(doing: &Doing, before: At) -> Does {
    let holds = doing.holds.is_some();
    Does { runs: doing.runs, holds, asked: holds || doing.waits || before.asked && !before.runs }
}

impl<'a> Walk<'a> {
    fn new(m: u64, jobs: &'a JobSet) -> Walk<'a> {
        let nobody = || Instant(vec![At::default(); jobs.len()]);
        let found = Found { broken: Vec::new(), looked_at: 0 };
        Walk { m, jobs, now: 0, progress: vec![Progress::default(); jobs.len()], at: nobody(), before: nobody(), found }
    }

    fn job(&self, l: usize) -> Option<&'a ModelJob> {
        self.jobs[l].get(self.progress[l].job)
    }

    /// Of instants that are alike the first, the second and the last stand for all: each task does the same at all of them, and after the first none
    /// comes to another stretch, so that from the second on what the facts read of an instant, and of the one before it, stays the same.
    fn through(&mut self, interval: &Interval, one_by_one: bool) {
        self.now = interval.from;
        while self.now < interval.to {
            let alike = if one_by_one { 1 } else { self.alike(interval) };
            let steps = match alike {
                1 => [1, 0, 0],
                2 => [1, 1, 0],
                _ => [1, alike - 2, 1],
            };
            for step in steps.into_iter().filter(|&step| step > 0) {
                self.look(|l, before| seen(&interval.doing[l], before));
                self.holds_no_other(interval);
                self.pass(step);
            }
        }
    }

    /// How many instants from this one on are alike: until the interval ends, or a stretch that is run, or a job is released.
    fn alike(&self, interval: &Interval) -> u64 {
        let mut least = interval.to - self.now;
        for (l, doing) in interval.doing.iter().enumerate() {
            let Some(job) = self.job(l) else { continue };
            if self.now < job.release {
                least = least.min(job.release - self.now);
            }
            if doing.runs {
                let next = &job.units[self.progress[l].unit + 1..];
                least = least.min(1 + next.iter().take_while(|unit| !unit.starts).count() as u64);
            }
        }
        least
    }

    /// Holds each fact to this instant.
    fn look(&mut self, does: impl Fn(usize, At) -> Does) {
        self.found.looked_at += 1;
        std::mem::swap(&mut self.at, &mut self.before);
        for l in 0..self.jobs.len() {
            let Does { runs, holds, asked } = does(l, self.before.0[l]);
            let job = self.job(l);
            let pending = job.is_some_and(|job| job.release <= self.now);
            let unit = job.map_or(Unit { lock: 0, starts: true }, |job| job.units[self.progress[l].unit]);
            self.at.0[l] = At { runs, holds, asked, pending, needs: unit.lock, begins: unit.starts };
        }
        for l in 0..self.jobs.len() {
            let mut note = |fact, holds: bool| {
                if !holds {
                    self.found.broken.push(Broken { fact, task: l, at: self.now });
                }
            };
            self.at.facts(self.m, l, &mut note);
            self.at.facts_since(&self.before, l, &mut note);
        }
    }

    /// The model's `holds` is of the lock that the next unit needs; a simulated task could hold another.
    fn holds_no_other(&mut self, interval: &Interval) {
        for (l, doing) in interval.doing.iter().enumerate() {
            let needs = self.at.0[l].needs as usize;
            if doing.holds.is_some_and(|k| needs > 0 && needs != k + 1) {
                self.found.broken.push(Broken { fact: "holds_lock", task: l, at: self.now });
            }
        }
    }

    /// So many instants later, who ran is so many units further: if these are more than one, in its stretch.
    fn pass(&mut self, step: u64) {
        for l in (0..self.jobs.len()).filter(|&l| self.at.0[l].runs) {
            let Progress { job, unit } = self.progress[l];
            let unit = unit + step as usize;
            let cost = self.job(l).map_or(0, |job| job.units.len());
            self.progress[l] = if unit < cost { Progress { job, unit } } else { Progress { job: job + 1, unit: 0 } };
        }
        self.now += step;
    }
}
