//! Tables a step inside and a step outside every limit. Chance seldom sets a field of a used pair to just such a number. And tables with alpha or groups
//! whose refusal is known.

use crate::table::{Lock, Refusal, Table, Task, ALPHA, COUNT, CPUS, LOCKS, TASKS, TIME};

/// The locks that are changed in both tasks: 1 both use, 2 and 16 one does, 8 neither.
const CHANGED: [usize; 4] = [0, 1, 7, 15];

/// A table that nothing is to be said against, though only just: task 1's totals add up to its C, and its N times c is past 32 bits, with a
/// low half below CT; task 2's totals are the least and the most that N and c allow.
fn base() -> Table {
    let mut table = Table::zero();
    (table.m, table.n) = (1, 2);
    table.tasks[0] = Task { t: TIME, c: TIME, d: TIME, ..Task::default() };
    table.tasks[0].locks[0] = Lock { n: COUNT, c: 4_294_968, ct: 4_294_968 };
    table.tasks[0].locks[15] = Lock { n: 1, c: 5_705_032, ct: 5_705_032 };
    table.tasks[1] = Task { t: TIME, c: 100, d: 9_000_000, ..Task::default() };
    table.tasks[1].locks[0] = Lock { n: 3, c: 20, ct: 20 };
    table.tasks[1].locks[1] = Lock { n: 3, c: 10, ct: 30 };
    table
}

/// Every field that is changed.
fn fields(table: &mut Table) -> Vec<&mut u64> {
    let mut all = vec![&mut table.m];
    for task in &mut table.tasks[..2] {
        all.extend([&mut task.t, &mut task.c, &mut task.d]);
        for (k, lock) in task.locks.iter_mut().enumerate() {
            if CHANGED.contains(&k) {
                all.extend([&mut lock.n, &mut lock.c, &mut lock.ct]);
            }
        }
    }
    all
}

/// The base, and tables that differ from it in n, of which both halves count, or in one field: next to its own number, or at or past a limit.
pub fn tables() -> Vec<Table> {
    assert_eq!(base().check(), Ok(()), "what is changed must be right before");
    let mut all = vec![base()];
    for n in [0, 1, 3, 32, 33, u32::MAX as u64, 1 << 32, (1 << 32) + 1, (1 << 32) + 2, u64::MAX] {
        all.push(Table { n, ..base() });
    }
    for at in 0..fields(&mut base()).len() {
        let own = *fields(&mut base())[at];
        for value in [0, 1, own.saturating_sub(1), own + 1, CPUS, CPUS + 1, COUNT, COUNT + 1, TIME, TIME + 1, u32::MAX as u64] {
            let mut table = base();
            *fields(&mut table)[at] = value;
            if !all.contains(&table) {
                all.push(table);
            }
        }
    }
    all
}

/// The base with three tasks, of which the last is like the second, and with these alphas in the first slots.
fn with_alphas(alphas: &[u64]) -> Table {
    let mut table = Table { n: 3, ..base() };
    table.tasks[2] = table.tasks[1];
    table.tasks.iter_mut().zip(alphas).for_each(|(task, alpha)| task.alpha = *alpha);
    table
}

/// As many tasks as there can be, with these alphas.
fn with_most_tasks(alpha: impl Fn(u64) -> u64) -> Table {
    let mut table = Table { n: TASKS as u64, ..base() };
    for (i, task) in (0..).zip(&mut table.tasks) {
        *task = Task { alpha: alpha(i), ..base().tasks[1] };
    }
    table
}

/// The table with one task changed, counted from 1.
fn with_task(mut table: Table, number: usize, change: fn(&mut Task)) -> Table {
    change(&mut table.tasks[number - 1]);
    table
}

/// A table with its name, and the refusal that it gets, if any.
pub type Named = (&'static str, Table, Option<Refusal>);

/// Request 8/12: where alpha is refused, and what comes before and after.
pub fn alphas() -> Vec<Named> {
    [accepted(), for_some(), out_of_range(), rising(), past_the_last()].concat()
}

fn accepted() -> Vec<Named> {
    vec![
        ("no alpha", with_alphas(&[0, 0, 0]), None),
        ("the least alpha", with_alphas(&[1, 1, 1]), None),
        ("the largest alpha", with_alphas(&[64, 64, 64]), None),
        ("falling alphas", with_alphas(&[64, 2, 1]), None),
        ("32 tasks with the largest alpha", with_most_tasks(|_| ALPHA), None),
        ("32 tasks with falling alphas", with_most_tasks(|i| ALPHA - i), None),
        ("one task with alpha", Table { n: 1, ..with_alphas(&[64]) }, None),
    ]
}

/// What 17 is for, which looks at whether there is one and not at its range. It comes after m and before all tasks.
fn for_some() -> Vec<Named> {
    let mixed = || with_alphas(&[2, 0, 2]);
    let some = Some((17, 0));
    vec![
        ("alpha of the first task only", with_alphas(&[2, 0, 0]), some),
        ("alpha of the second task only", with_alphas(&[0, 2, 0]), some),
        ("alpha of the last task only", with_alphas(&[0, 0, 2]), some),
        ("no alpha of the first task", with_alphas(&[0, 2, 2]), some),
        ("no alpha of the second task", mixed(), some),
        ("no alpha of the last task", with_alphas(&[2, 2, 0]), some),
        ("no alpha of the last of 32 tasks", with_most_tasks(|i| (i < 31) as u64), some),
        ("alpha of the last of 32 tasks only", with_most_tasks(|i| (i == 31) as u64), some),
        ("17 before 4: 200 is given, and another has none", with_alphas(&[200, 0, 0]), some),
        ("17 before 4: none, and then 200", with_alphas(&[0, 0, 200]), some),
        ("17 before 4: the most that a word holds", with_alphas(&[u32::MAX as u64, 64, 0]), some),
        ("17 before 4: a multiple of 256", with_alphas(&[256, 0, 0]), some),
        ("17 before 4 of T", with_task(mixed(), 1, |task| task.t = 0), some),
        ("17 before 4 of C", with_task(mixed(), 1, |task| task.c = TIME + 1), some),
        ("17 before 4 of a lock", with_task(mixed(), 1, |task| task.locks[7].c = 1), some),
        ("17 before 5", with_task(mixed(), 1, |task| task.d = TIME - 1), some),
        ("17 before 7", with_task(mixed(), 1, |task| task.locks[0].ct = 1), some),
        ("17 before 18", with_alphas(&[2, 3, 0]), some),
        ("17 after 4 of m, 0", Table { m: 0, ..mixed() }, Some((4, 0))),
        ("17 after 4 of m, 65", Table { m: 65, ..mixed() }, Some((4, 0))),
        ("17 after 8", Table { n: 33, ..mixed() }, Some((8, 0))),
        ("17 after 8, which the high word shows", Table { n: (1 << 32) + 3, ..mixed() }, Some((8, 0))),
        ("17 after 9", Table { n: 0, ..mixed() }, Some((9, 0))),
    ]
}

/// What 4 is for. It comes after T, C and D of its task, which get the same number, and before 18 and 5.
fn out_of_range() -> Vec<Named> {
    let beyond = || with_alphas(&[65, 65, 65]);
    vec![
        ("65 of every task", beyond(), Some((4, 1))),
        ("200 of every task", with_alphas(&[200, 200, 200]), Some((4, 1))),
        ("256 of every task", with_alphas(&[256, 256, 256]), Some((4, 1))),
        ("257 of every task", with_alphas(&[257, 257, 257]), Some((4, 1))),
        ("the most that a word holds", with_alphas(&[u32::MAX as u64; 3]), Some((4, 1))),
        ("65 of the last task", with_alphas(&[64, 64, 65]), Some((4, 3))),
        ("65 of one task", Table { n: 1, ..with_alphas(&[65]) }, Some((4, 1))),
        ("4 of alpha and of T", with_task(beyond(), 1, |task| task.t = 0), Some((4, 1))),
        ("4 of alpha before 18", with_alphas(&[2, 65, 1]), Some((4, 2))),
        ("4 of alpha before 5", with_task(beyond(), 1, |task| task.d = TIME - 1), Some((4, 1))),
        ("4 of alpha before 5 at the last task", with_task(with_alphas(&[9, 9, 65]), 3, |task| task.c = 9_000_001), Some((4, 3))),
        ("4 of alpha before 7", with_task(beyond(), 1, |task| task.locks[0].ct = 1), Some((4, 1))),
        ("4 of alpha after 5 of the task before", with_task(with_alphas(&[9, 65, 9]), 1, |task| task.d = TIME - 1), Some((5, 1))),
        ("4 of alpha after 18 of the task before", with_alphas(&[9, 10, 65]), Some((18, 2))),
    ]
}

/// What 18 is for. It comes after 4 and before 5.
fn rising() -> Vec<Named> {
    let up = || with_alphas(&[2, 3, 3]);
    vec![
        ("one more than the first", up(), Some((18, 2))),
        ("63 and 64", with_alphas(&[64, 63, 64]), Some((18, 3))),
        ("more than the task before, less than the first", with_alphas(&[9, 2, 3]), Some((18, 3))),
        ("more in the last of 32 tasks", with_most_tasks(|i| 1 + i / 31), Some((18, 32))),
        ("18 after 4 of T", with_task(up(), 2, |task| task.t = 0), Some((4, 2))),
        ("18 after 4 of C", with_task(up(), 2, |task| task.c = 0), Some((4, 2))),
        ("18 after 4 of D", with_task(up(), 2, |task| task.d = TIME + 1), Some((4, 2))),
        ("18 before 5", with_task(up(), 2, |task| task.d = 99), Some((18, 2))),
        ("18 before 4 of a lock", with_task(up(), 2, |task| task.locks[7].c = 1), Some((18, 2))),
        ("18 before 7", with_task(up(), 2, |task| task.locks[0].ct = 19), Some((18, 2))),
        ("18 before 4 of the next task", with_task(up(), 3, |task| task.t = 0), Some((18, 2))),
        ("18 after 5 of the task before", with_task(up(), 1, |task| task.d = TIME - 1), Some((5, 1))),
        ("18 after 7 of the task before", with_task(up(), 1, |task| task.locks[0].ct = 1), Some((7, 1))),
        ("5 beside a good alpha", with_task(with_alphas(&[2, 2, 2]), 2, |task| task.d = 99), Some((5, 2))),
        ("7 beside a good alpha", with_task(with_alphas(&[2, 2, 2]), 2, |task| task.locks[0].ct = 19), Some((7, 2))),
    ]
}

/// Slots past the nth are not looked at, for 17 neither.
fn past_the_last() -> Vec<Named> {
    let two = |alphas: &[u64]| Table { n: 2, ..with_alphas(alphas) };
    vec![
        ("alpha past the last task only", two(&[0, 0, 2]), None),
        ("no alpha past the last task", two(&[2, 2, 0]), None),
        ("a larger alpha past the last task", two(&[2, 2, 3]), None),
        ("200 past the last task", two(&[2, 2, 200]), None),
        ("200 past the last task only", two(&[0, 0, 200]), None),
        ("alpha of the first task and past the last", two(&[2, 0, 2]), Some((17, 0))),
    ]
}

/// Request 9/12: where groups are refused, and what comes before and after.
pub fn groups() -> Vec<Named> {
    [grouped(), above_the_limit(), as_typed(), beside_alpha()].concat()
}

/// The base with these resources, counted from 1, in groups.
fn with_groups(groups: &[(usize, u32)]) -> Table {
    let mut table = base();
    groups.iter().for_each(|(k, group)| table.groups[k - 1] = *group);
    table
}

fn grouped() -> Vec<Named> {
    let every = |group: fn(u32) -> u32| Table { groups: std::array::from_fn(|k| group(k as u32 + 1)), ..base() };
    let often = || {
        let mut table = every(|_| 3);
        table.tasks[1].locks = [Lock { n: COUNT, c: 1, ct: 1 }; LOCKS];
        table
    };
    vec![
        ("one resource in a group", with_groups(&[(1, 1)]), None),
        ("the last resource in the last group", with_groups(&[(16, 16)]), None),
        ("two in a group that one task uses", with_groups(&[(1, 1), (16, 1)]), None),
        ("two in a group that both tasks use", with_groups(&[(1, 2), (2, 2)]), None),
        ("two in a group with the number of another", with_groups(&[(1, 2), (16, 2)]), None),
        ("two in a group with the number of one that nobody uses", with_groups(&[(1, 8), (2, 8)]), None),
        ("one that nobody uses in a group", with_groups(&[(8, 1)]), None),
        ("two that nobody uses in a group", with_groups(&[(8, 9), (9, 9)]), None),
        ("one in use and one that nobody uses in a group", with_groups(&[(1, 8), (8, 8)]), None),
        ("all sixteen in the first group", every(|_| 1), None),
        ("all sixteen in the last group", every(|_| 16), None),
        ("sixteen groups of one", every(|k| k), None),
        ("sixteen groups of one, backwards", every(|k| 17 - k), None),
        ("eight groups of two neighbours", every(|k| k.div_ceil(2)), None),
        ("eight groups of two, eight apart", every(|k| (k - 1) % 8 + 1), None),
        ("a group with 16,000 requests of one task", often(), None),
    ]
}

/// What 4 is for, with place 0: of all sixteen resources, also of those that nobody uses. It comes after 9 and 8, and before all tasks.
fn above_the_limit() -> Vec<Named> {
    let beyond = || with_groups(&[(8, 17)]);
    let four = Some((4, 0));
    vec![
        ("group 17 of the first resource", with_groups(&[(1, 17)]), four),
        ("group 17 of the last resource", with_groups(&[(16, 17)]), four),
        ("group 17 of a resource that one task uses", with_groups(&[(2, 17)]), four),
        ("group 17 of one that nobody uses", beyond(), four),
        ("group 17 after good ones", with_groups(&[(1, 1), (2, 1), (3, 16), (4, 17)]), four),
        ("group 32", with_groups(&[(1, 32)]), four),
        ("group 256, of which a byte is 0", with_groups(&[(1, 256)]), four),
        ("group 257, of which a byte is 1", with_groups(&[(1, 257)]), four),
        ("group 65,536", with_groups(&[(1, 1 << 16)]), four),
        ("group 2,147,483,648", with_groups(&[(1, 1 << 31)]), four),
        ("the most that a word holds", with_groups(&[(1, u32::MAX)]), four),
        ("the most that a word holds, of one that nobody uses", with_groups(&[(8, u32::MAX)]), four),
        ("a group above the limit and m 0", Table { m: 0, ..beyond() }, four),
        ("a group above the limit before 4 of T", with_task(beyond(), 1, |task| task.t = 0), four),
        ("a group above the limit before 5", with_task(beyond(), 1, |task| task.d = TIME - 1), four),
        ("a group above the limit before 7", with_task(beyond(), 1, |task| task.locks[0].ct = 1), four),
        ("a group above the limit after 8", Table { n: 33, ..beyond() }, Some((8, 0))),
        ("a group above the limit after 8, which the high word shows", Table { n: (1 << 32) + 2, ..beyond() }, Some((8, 0))),
        ("a group above the limit after 9", Table { n: 0, ..beyond() }, Some((9, 0))),
        ("good groups and no task", Table { n: 0, ..with_groups(&[(1, 1)]) }, Some((9, 0))),
        ("good groups and m 65", Table { m: 65, ..with_groups(&[(1, 1)]) }, four),
    ]
}

/// 4 and 7 are of the pairs as typed: merged, each of these would do.
fn as_typed() -> Vec<Named> {
    let both = || with_groups(&[(1, 2), (2, 2), (8, 2)]);
    vec![
        ("CT below c of a member", with_task(both(), 2, |task| task.locks[0].ct = 19), Some((7, 2))),
        ("CT above N times c of a member", with_task(both(), 2, |task| task.locks[1].ct = 31), Some((7, 2))),
        ("c of a member that is not used", with_task(both(), 2, |task| task.locks[7].c = 1), Some((4, 2))),
        ("CT of a member that is not used", with_task(both(), 2, |task| task.locks[7].ct = 1), Some((4, 2))),
        ("c of a member that is not used, and 5", with_task(with_task(both(), 2, |task| task.locks[7].c = 1), 2, |task| task.d = 99), Some((5, 2))),
        ("1,001 requests of a member", with_task(both(), 2, |task| task.locks[0].n = COUNT + 1), Some((4, 2))),
        ("the CT of the members above C", with_task(both(), 2, |task| task.c = 49), Some((7, 2))),
    ]
}

/// A group above the limit comes before 17, and before 4 and 18 of alpha.
fn beside_alpha() -> Vec<Named> {
    let with = |alphas: &[u64], group: u32| {
        let mut table = with_alphas(alphas);
        table.groups[0] = group;
        table
    };
    vec![
        ("groups and alpha", with(&[3, 2, 1], 16), None),
        ("a group above the limit before 17", with(&[2, 0, 2], 17), Some((4, 0))),
        ("a group above the limit before 18", with(&[2, 3, 3], 17), Some((4, 0))),
        ("a group above the limit before 4 of alpha", with(&[65, 65, 65], 17), Some((4, 0))),
        ("17 beside a good group", with(&[2, 0, 2], 16), Some((17, 0))),
        ("18 beside a good group", with(&[2, 3, 3], 16), Some((18, 2))),
        ("4 of alpha beside a good group", with(&[65, 65, 65], 16), Some((4, 1))),
    ]
}
