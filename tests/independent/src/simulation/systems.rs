//! Tables to simulate: random ones of small times, so that schedules are dense, and ones in which a certain term of the demand is likely to count. The
//! periods are made as short as lets every task meet, so that bounds are not far from what can happen.

use crate::analysis::{self, Verdict, UNLIMITED};
use crate::random::Random;
use crate::table::{Lock, Table, Task};
use crate::{cases, listing};

/// How often periods are made longer. A table in which tasks still miss is not searched.
const LONGER: u64 = 10;

/// Tables without end from a seed. The analysis here is only to make it likely that all tasks meet: `report` decides.
pub fn random(seed: u64) -> impl Iterator<Item = Table> {
    let mut r = Random::new(seed);
    std::iter::repeat_with(move || {
        let shape = *r.pick(&[any, any, held_above, held_below, often_requested]);
        let mut table = shape(&mut r);
        let_meet(&mut table);
        shorten_deadlines(&mut r, &mut table);
        table
    })
}

/// The same with groups of some of the first locks, which those that hold most of them share out. What the tasks share is not the same then, so that the periods
/// come after the groups.
pub fn grouped(seed: u64) -> impl Iterator<Item = Table> {
    let mut r = Random::new(seed);
    std::iter::repeat_with(move || {
        let shape = *r.pick(&[any_of_several, any_of_several, held_above, held_below]);
        let mut table = shape(&mut r);
        put_together(&mut r, &mut table);
        let_meet(&mut table);
        shorten_deadlines(&mut r, &mut table);
        table
    })
}

/// The first locks in one group or in two, or some of them by themselves. Their numbers may be those of other locks.
fn put_together(r: &mut Random, table: &mut Table) {
    let [one, other] = [(); 2].map(|()| r.within(1, 4) as u32);
    let among = *r.pick(&[[one, one, one], [one, one, other], [one, one, 0]]);
    table.groups[..4].iter_mut().for_each(|group| *group = *r.pick(&among));
}

/// Tables made by hand for other reasons, in milliseconds most of them.
pub fn chosen() -> impl Iterator<Item = Table> {
    let [story, easier, falls] = [cases::STORY, cases::EASIER, cases::FALLS];
    let capped = [cases::LONG_ABOVE, cases::LONGER_ABOVE, cases::LONG_LOCK_ABOVE, cases::LONG_LOCK_BELOW, cases::TWO_ABOVE, cases::O_AND_F];
    let others = [cases::CASE_A, cases::THIRDS, cases::QUEUED, cases::TO_THE_LETTER, cases::UNINHERITED, cases::SPINNING, include_str!("../../../../examples/board.txt")];
    let [coarser, smaller] = [cases::COARSER, cases::COARSER_AND_SMALLER];
    let grouped = [cases::TOGETHER, cases::MERGED, cases::SMALLER, cases::OVERLAPPING, cases::OVERLAPPING_TYPED];
    let all = [&story[..], &easier, &falls, &capped, &others, &coarser, &smaller, &grouped].concat();
    all.into_iter().map(|text| listing::read(text.as_bytes()).expect("an accepted listing"))
}

/// Processors and a number of tasks: mostly more tasks than processors, often few more, since the fewer delay a task, the closer to its bound it comes.
fn size(r: &mut Random) -> (u64, u64) {
    let m = r.within(1, 4);
    let n = match r.within(0, 3) {
        0 => r.within(2, 8),
        1 => r.within(m + 1, 8),
        _ => r.within(m + 1, m + 2),
    };
    (m, n)
}

/// A table of one scale. `lock` gives the task in a slot (from 0) its locks.
fn filled(r: &mut Random, (m, n): (u64, u64), mut lock: impl FnMut(&mut Random, usize, &mut Task)) -> Table {
    let mut table = Table { m, n, ..Table::zero() };
    let longest = *r.pick(&[3, 6, 6, 12, 12, 40, 150, 600]);
    for slot in 0..n as usize {
        let c = r.within(1, longest);
        let t = c * r.within(2, 9) + r.within(0, longest);
        let mut task = Task { t, c, d: t, ..Task::default() };
        lock(r, slot, &mut task);
        table.tasks[slot] = task;
    }
    table
}

/// A lock that the task holds for so long in all, by up to so many requests.
fn give_lock(r: &mut Random, task: &mut Task, k: usize, ct: u64, requests: u64) {
    let n = r.within(1, requests);
    let c = r.within(ct.div_ceil(n), ct);
    task.locks[k] = Lock { n, c, ct };
}

/// Half of the time or more that a task runs.
fn most_of(r: &mut Random, task: &Task) -> u64 {
    r.within(task.c.div_ceil(2), task.c)
}

/// Any locks or none in any task.
fn any(r: &mut Random) -> Table {
    let (size, locks) = (size(r), *r.pick(&[0, 0, 1, 2, 3]));
    any_of(r, size, locks)
}

fn any_of_several(r: &mut Random) -> Table {
    let (size, locks) = (size(r), *r.pick(&[2, 3, 4]));
    any_of(r, size, locks)
}

fn any_of(r: &mut Random, size: (u64, u64), locks: usize) -> Table {
    filled(r, size, |r, _, task| {
        for k in 0..locks {
            let left = task.outside_locks();
            if left > 0 && r.one_in(2) {
                let ct = if r.one_in(4) { left } else { r.within(1, left) };
                give_lock(r, task, k, ct, 3);
            }
        }
    })
}

/// For O: the higher tasks run under locks that the lower ones do not use, most of their time.
fn held_above(r: &mut Random) -> Table {
    let (m, n) = size(r);
    let (locks, holders) = (r.within(1, 3) as usize, r.within(1, n - 1) as usize);
    filled(r, (m, n), |r, slot, task| {
        if slot < holders {
            let ct = most_of(r, task);
            give_lock(r, task, slot % locks, ct, 2);
        }
    })
}

/// For L: the lowest tasks hold, for long, locks that the highest use for short, and those between use none.
fn held_below(r: &mut Random) -> Table {
    let (m, n) = size(r);
    let high = r.within(1, m.min(n - 1));
    let low = n - r.within(1, high.min(n - high));
    filled(r, (m, n), |r, slot, task| {
        if slot < high as usize {
            let ct = r.within(1, task.c.div_ceil(3));
            give_lock(r, task, slot, ct, 1);
        } else if slot >= low as usize {
            let ct = most_of(r, task);
            give_lock(r, task, slot - low as usize, ct, 2);
        }
    })
}

/// For DB and S: one lock, which tasks request several times each.
fn often_requested(r: &mut Random) -> Table {
    let size = size(r);
    filled(r, size, |r, _, task| {
        if !r.one_in(3) {
            let ct = r.within(1, task.c);
            give_lock(r, task, 0, ct, 4);
        }
    })
}

/// Makes the periods and deadlines of the tasks that miss longer, a few times.
fn let_meet(table: &mut Table) {
    for _ in 0..LONGER {
        let found = analysis::quick(table, UNLIMITED);
        for (task, _) in table.tasks.iter_mut().zip(&found).filter(|(_, found)| found.verdict == Verdict::Misses) {
            task.t = (task.t * 4).div_ceil(3);
            task.d = task.t;
        }
    }
}

/// A deadline may be as short as the bound: no demand grows when one falls.
fn shorten_deadlines(r: &mut Random, table: &mut Table) {
    for (task, found) in analysis::quick(table, UNLIMITED).into_iter().enumerate() {
        let task = &mut table.tasks[task];
        if let Verdict::Meets(bound) = found.verdict {
            task.d = match r.within(0, 3) {
                0 => task.d,
                1 => r.within(bound, task.d),
                _ => bound,
            };
        }
    }
}
