//! The bound of each task and the rounds that it takes, written from the paper's section 'The analysis' and requests 3/12, 6/12 and 9/12. What the paper says
//! of a resource is read of a column of the merged pairs.

use crate::listing;
use crate::merge::{Column, Merged};
use crate::table::{Table, Task};

/// Up to this deadline every length is tried, and the climb is held to what that finds.
const TRIED: u64 = 3_000;

/// More rounds than any table takes: the allowance that never runs out.
pub const UNLIMITED: u64 = u64::MAX;

#[derive(Clone, Copy, PartialEq, Eq, Debug)]
pub enum Verdict {
    Meets(u64),
    Misses,
    Open,
}

/// What is said of a task: the verdict, and how many demands were worked out for it.
#[derive(Clone, Copy, PartialEq, Eq, Debug)]
pub struct Found {
    pub verdict: Verdict,
    pub rounds: u64,
}

impl Found {
    pub fn meets(bound: u64, rounds: u64) -> Found {
        Found { verdict: Verdict::Meets(bound), rounds }
    }

    pub fn misses(rounds: u64) -> Found {
        Found { verdict: Verdict::Misses, rounds }
    }

    pub fn open(rounds: u64) -> Found {
        Found { verdict: Verdict::Open, rounds }
    }

    /// The bound, to compare by: that of a task without one is above all others.
    pub fn bound(&self) -> u64 {
        match self.verdict {
            Verdict::Meets(t) => t,
            Verdict::Misses | Verdict::Open => u64::MAX,
        }
    }

    /// What becomes of it under an allowance: it is open exactly if it takes more rounds than that, and then all that are allowed were taken.
    pub fn under(self, allowance: u64) -> Found {
        if allowance < self.rounds { Found::open(allowance) } else { self }
    }
}

/// The workload of a task over a length t, of which x units count, as the paper has it; x is at most the task's C.
pub fn uncapped(task: &Task, t: u64, x: u64) -> u64 {
    assert!(x <= task.c, "more units than the task runs");
    if t == 0 {
        return 0;
    }
    let a = t as i64 - x as i64 + task.d as i64;
    let q = a / task.t as i64;
    let rest = a - q * task.t as i64;
    (q * x as i64 + (x as i64).min(rest)) as u64
}

/// The same since request 3/12: one task cannot run more than t in a window of t.
pub fn workload(task: &Task, t: u64, x: u64) -> u64 {
    t.min(uncapped(task, t, x))
}

/// Which workload an analysis reads: that of request 3/12, or the paper's, to compare with.
#[derive(Clone, Copy)]
pub enum By {
    Capped,
    Uncapped,
}

impl By {
    fn workload(self) -> fn(&Task, u64, u64) -> u64 {
        match self {
            By::Capped => workload,
            By::Uncapped => uncapped,
        }
    }

    /// The most that a workload over a length t counts.
    fn most(self, t: u64) -> u64 {
        match self {
            By::Capped => t,
            By::Uncapped => u64::MAX,
        }
    }
}

/// What the paper adds up for one task at one length, each under its own letter, so that each can be looked at.
pub struct Terms {
    pub db: u64,
    pub s: u64,
    pub o: u64,
    pub f: u64,
    pub l: u64,
}

fn uses(column: &Column, i: usize) -> bool {
    column[i].n > 0
}

/// The ceiling, as a place from 0 on: some task uses the resource.
fn ceiling(column: &Column) -> usize {
    (0..column.len()).find(|&i| uses(column, i)).expect("a column that is used")
}

/// The terms of the task at `i` (from 0) of a checked table by some workload, as the paper lists them: nothing is kept from one length to the
/// next.
pub fn terms(merged: &Merged, i: usize, t: u64, workload: impl Fn(&Task, u64, u64) -> u64) -> Terms {
    let Merged { columns, .. } = merged;
    let tasks = merged.tasks();
    let (above, below) = (0..i, i + 1..tasks.len());
    let longest_below = |column: &Column| column[below.clone()].iter().map(|lock| lock.c).max().unwrap_or(0);
    // the CT of those of a task's resources that are wanted
    let total = |l: usize, wanted: &dyn Fn(&Column) -> bool| columns.iter().filter(|column| wanted(column)).map(|column| column[l].ct).sum();
    let load = |l: usize, x: u64| workload(&tasks[l], t, x);
    Terms {
        db: merged.used_by(i).map(|column| column[i].n * longest_below(column)).sum(),
        s: above.clone().map(|l| load(l, total(l, &|column| uses(column, i)))).sum(),
        o: above.clone().map(|l| load(l, total(l, &|column| !uses(column, i)))).sum(),
        f: above.map(|l| load(l, tasks[l].outside_locks())).sum(),
        l: below.clone().map(|l| load(l, total(l, &|column| ceiling(column) < i))).sum(),
    }
}

impl Terms {
    /// The demand of the task at `i` (from 0) that is made of them.
    pub fn demand(self, Merged { table, .. }: &Merged, i: usize) -> u64 {
        let Terms { db, s, o, f, l } = self;
        let number = i as u64 + 1;
        let quotient = if number <= table.m { 0 } else { (o + f + l).div_ceil(table.m) };
        table.tasks[i].c + db + s + quotient
    }
}

/// The demand of the task at `i` (from 0) of a checked table, made of the paper's terms.
pub fn demand(merged: &Merged, i: usize, t: u64, by: By) -> u64 {
    terms(merged, i, t, by.workload()).demand(merged, i)
}

/// One task's workload that counts: its period, its units, and D less the units.
struct Part {
    period: u64,
    units: u64,
    off: u64,
}

impl Part {
    fn uncapped(&self, t: u64) -> u64 {
        let a = t + self.off;
        let q = a / self.period;
        q * self.units + self.units.min(a - q * self.period)
    }

    fn load(&self, t: u64, most: u64) -> u64 {
        most.min(self.uncapped(t))
    }
}

/// What the demand of one task is made of, worked out once.
pub struct Reduced {
    base: u64,
    whole: Vec<Part>,
    divided: Vec<Part>,
    m: u64,
    by: By,
}

impl Reduced {
    pub fn new(merged: &Merged, i: usize, by: By) -> Reduced {
        let Merged { table, columns } = merged;
        let tasks = merged.tasks();
        let used_above: Vec<bool> = columns.iter().map(|column| column[..i].iter().any(|lock| lock.n > 0)).collect();
        let (mut whole, mut divided) = (Vec::new(), Vec::new());
        let push = |list: &mut Vec<Part>, task: &Task, units: u64| {
            if units > 0 {
                list.push(Part { period: task.t, units, off: task.d - units });
            }
        };
        let long = i as u64 + 1 > table.m;
        for (l, task) in tasks[..i].iter().enumerate() {
            let (mut shared, mut all) = (0, 0);
            for column in columns {
                all += column[l].ct;
                if column[i].n > 0 {
                    shared += column[l].ct;
                }
            }
            push(&mut whole, task, shared);
            if long {
                push(&mut divided, task, all - shared);
                push(&mut divided, task, task.c - all);
            }
        }
        for (l, task) in tasks.iter().enumerate().skip(i + 1).filter(|_| long) {
            let high = columns.iter().zip(&used_above).filter(|(_, used_above)| **used_above).map(|(column, _)| column[l].ct);
            push(&mut divided, task, high.sum());
        }
        let worst_below = |column: &Column| column[i + 1..].iter().fold(0, |worst, lock| lock.c.max(worst));
        let db: u64 = columns.iter().map(|column| column[i].n * worst_below(column)).sum();
        Reduced { base: tasks[i].c + db, whole, divided, m: table.m, by }
    }

    pub fn demand(&self, t: u64) -> u64 {
        let most = self.by.most(t);
        let whole: u64 = self.whole.iter().map(|p| p.load(t, most)).sum();
        let divided: u64 = self.divided.iter().map(|p| p.load(t, most)).sum();
        self.base + whole + divided.div_ceil(self.m)
    }

    /// How many workloads the cap holds at t.
    pub fn held(&self, t: u64) -> usize {
        self.whole.iter().chain(&self.divided).filter(|p| p.uncapped(t) > t).count()
    }
}

/// Request 6/12: a length, C to begin with, is replaced by the demand at it until it repeats or passes D, or no more rounds are allowed.
pub fn replaced(c: u64, d: u64, allowance: u64, demand: impl Fn(u64) -> u64) -> Found {
    let (mut t, mut rounds) = (c, 0);
    while rounds < allowance {
        let f = demand(t);
        rounds += 1;
        if f == t {
            return Found::meets(t, rounds);
        }
        if f > d {
            return Found::misses(rounds);
        }
        t = f;
    }
    Found::open(rounds)
}

/// The same of the task at `i` (from 0) of a checked table.
pub fn iterate(merged: &Merged, i: usize, by: By, allowance: u64) -> Found {
    let reduced = Reduced::new(merged, i, by);
    let Task { c, d, .. } = merged.tasks()[i];
    replaced(c, d, allowance, |t| reduced.demand(t))
}

/// The demand by the paper's terms. `Reduced` is held to it at this length: it has the shape of the proved program's shares, and might have
/// its slips.
fn agreed(merged: &Merged, i: usize, reduced: &Reduced, t: u64) -> u64 {
    let f = demand(merged, i, t, reduced.by);
    assert_eq!(reduced.demand(t), f, "not the paper's demand: task {} at {t} of\n{}", i + 1, listing::write(merged.table));
    f
}

/// The least length that covers its own demand, by trying each.
fn tried(merged: &Merged, i: usize, by: By) -> Verdict {
    let reduced = Reduced::new(merged, i, by);
    (1..=merged.tasks()[i].d).find(|&t| agreed(merged, i, &reduced, t) <= t).map_or(Verdict::Misses, Verdict::Meets)
}

/// The same without trying each: no length below C covers its demand, and as demand never falls, none from a length up to the demand there
/// does. So a miss too rests on the paper's terms, at every round: the ten million of the slow listing take about a second.
fn climbed(merged: &Merged, i: usize, by: By) -> Found {
    let task = &merged.tasks()[i];
    let reduced = Reduced::new(merged, i, by);
    let (mut t, mut rounds) = (task.c, 0);
    while t <= task.d {
        let f = agreed(merged, i, &reduced, t);
        rounds += 1;
        if f <= t {
            return Found::meets(t, rounds);
        }
        t = f;
    }
    Found::misses(rounds)
}

/// What is said of the task at `i` if its rounds are not limited.
pub fn found(merged: &Merged, i: usize) -> Found {
    found_by(merged, i, By::Capped)
}

/// The same by one workload or the other, by the paper's terms. Where it can, it holds the climb to a search through every length; and always
/// the iteration to the climb, and the rounds to the D - C + 1 lengths that there are.
pub fn found_by(merged: &Merged, i: usize, by: By) -> Found {
    let task = &merged.tasks()[i];
    let at = || format!("task {} of\n{}", i + 1, listing::write(merged.table));
    let found = climbed(merged, i, by);
    if task.d <= TRIED {
        assert_eq!(found.verdict, tried(merged, i, by), "the climb and the search differ: {}", at());
    }
    assert_eq!(iterate(merged, i, by, UNLIMITED), found, "the iteration and the climb differ: {}", at());
    assert!(found.rounds <= task.d - task.c + 1, "more rounds than lengths: {}", at());
    found
}

/// What is said of each task if its rounds are not limited.
pub fn all(table: &Table) -> Vec<Found> {
    let merged = table.merged();
    (0..table.n as usize).map(|i| found(&merged, i)).collect()
}

/// What is said of the task at `i` under an allowance. The iteration that stops there is held to what was found without one.
pub fn allowed(merged: &Merged, i: usize, found: Found, allowance: u64) -> Found {
    let stopped = iterate(merged, i, By::Capped, allowance);
    assert_eq!(stopped, found.under(allowance), "an allowance of {allowance} rounds: task {} of\n{}", i + 1, listing::write(merged.table));
    stopped
}

/// The same of each task by the iteration alone, as the benchmark wants it.
pub fn quick(table: &Table, allowance: u64) -> Vec<Found> {
    let merged = table.merged();
    (0..table.n as usize).map(|i| iterate(&merged, i, By::Capped, allowance)).collect()
}
