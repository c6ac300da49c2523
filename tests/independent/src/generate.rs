//! Tables and listings to compare on: valid ones of many shapes, and damaged ones.

use crate::listing::{self, Round};
use crate::random::Random;
use crate::table::{Lock, Table, Task, ALPHA, COUNT, GROUPS, LOCKS, TASKS, TIME};

/// A table that nothing is to be said against.
pub fn table(r: &mut Random) -> Table {
    let n = *r.pick(&[1, 2, 3, 4, 6, 8, 12, 20, 31, 32]) as usize;
    let m = *r.pick(&[1, 1, 2, 2, 3, 4, 4, 8, 16, 64]);
    let locks = *r.pick(&[0, 1, 1, 2, 4, 8, 16]) as usize;
    let longest = *r.pick(&[3, 40, 400, 3_000, 60_000, 1_000_000, TIME]);
    // how much of its period a task runs: few tables would meet if each took much
    let load = *r.pick(&[1, 2, 4, 10, 30, 100]);
    let mut table = Table::zero();
    (table.m, table.n) = (m, n as u64);
    for slot in 0..n {
        table.tasks[slot] = task(r, locks, longest, load);
    }
    table
}

/// The same with long tasks among short ones, on two processors or more. The cap of request 3/12 counts only there: where a bound is shorter
/// than what another task has to run.
pub fn long_among_short(r: &mut Random) -> Table {
    let m = *r.pick(&[2, 2, 2, 3, 4, 8]);
    let n = m as usize + r.within(1, 4) as usize;
    let locks = *r.pick(&[0, 1, 1, 2, 4]) as usize;
    let longest = *r.pick(&[12, 40, 400, 3_000, 60_000, 1_000_000, TIME]);
    let mut table = Table::zero();
    (table.m, table.n) = (m, n as u64);
    for slot in 0..n {
        table.tasks[slot] = if r.one_in(3) { long_task(r, locks, longest) } else { task(r, locks, (longest / 4).max(3), 20) };
    }
    table
}

/// A table on which rounds climb alike, and are broken off. Above are tasks that hardly ever let go, about as many as there are processors, or half as
/// many that each bring in two parts, and some that the cap holds at first. Among them are up to two of a very short period, and the lengths of
/// those at the bottom climb step by step.
pub fn broken_off(r: &mut Random) -> Table {
    let m = *r.pick(&[1, 1, 2, 2, 3, 4, 7, 19]);
    let longest = *r.pick(&[100, 700, 3_000, 12_000]);
    let mut parts = if r.one_in(3) { r.within((m - 1).max(1), m + 1) } else { m };
    let mut tasks = Vec::new();
    while parts > 0 {
        let two = parts > 1 && r.one_in(2);
        let held = !two && r.one_in(4);
        tasks.push(if held { held_at_first(r, longest) } else { hardly_idle(r, longest, two) });
        parts -= 1 + two as u64;
    }
    for _ in 0..r.within(0, 2) {
        let at = r.within(0, tasks.len() as u64) as usize;
        tasks.insert(at, of_short_period(r));
    }
    for _ in 0..r.within(1, 3) {
        let d = r.within(longest / 3, longest);
        let mut last = Task { t: longest, c: *r.pick(&[1, 1, 1, 2, 3]), d, ..Task::default() };
        if r.one_in(2) {
            last.locks[r.one_in(2) as usize] = Lock { n: 1, c: 1, ct: 1 };
        }
        tasks.push(last);
    }
    let mut table = Table::zero();
    (table.m, table.n) = (m, tasks.len() as u64);
    table.tasks[..tasks.len()].copy_from_slice(&tasks);
    table
}

/// A task that lets go for a twentieth of its deadline at most. It holds a lock for a part of its time if it is to bring in two parts, and some of the
/// others for all of it, by many short requests.
fn hardly_idle(r: &mut Random, longest: u64, two: bool) -> Task {
    let t = if r.one_in(2) { longest } else { r.within(longest / 3, longest) };
    let d = t - if r.one_in(2) { 0 } else { r.within(0, 2.min(t - 1)) };
    let c = d - if r.one_in(2) { 0 } else { r.within(0, d / 20) };
    let mut task = Task { t, c, d, ..Task::default() };
    if two || r.one_in(4) {
        let ct = if two { r.within(1, c - 1) } else { c };
        task.locks[r.one_in(2) as usize] = Lock { n: COUNT, c: ct.div_ceil(COUNT), ct };
    }
    task
}

/// A task whose workload the cap holds at t until t is its run time; then it stays, as long as the deadline is before the next period.
fn held_at_first(r: &mut Random, longest: u64) -> Task {
    let d = r.within(longest / 2, longest - 1);
    Task { t: longest, c: r.within(d / 4, d / 2), d, ..Task::default() }
}

/// A task of a period of 1 to 100 microseconds; some of them have no time between two jobs.
fn of_short_period(r: &mut Random) -> Task {
    let t = *r.pick(&[1, 2, 3, 17, 100]);
    let d = if r.one_in(2) { t } else { r.within(1, t) };
    let c = if r.one_in(2) { d } else { r.within(1, d) };
    let mut task = Task { t, c, d, ..Task::default() };
    if r.one_in(2) {
        let ct = r.within(1, c);
        task.locks[r.one_in(2) as usize] = Lock { n: 1, c: ct, ct };
    }
    task
}

/// A table with many pairs in use and few different longest requests, and with alpha: which of them count, and how often, shows in its waits. In some
/// every pair is in use. No run time is short beside the others, so that no length climbs for long.
pub fn many_pairs(r: &mut Random) -> Table {
    let n = *r.pick(&[2, 3, 4, 8, 16, 32, 32]) as usize;
    let locks = *r.pick(&[1, 2, 3, 8, 16, 16]) as usize;
    let every_pair = r.one_in(3);
    let longest = *r.pick(&[1, 3, 40, 10_000, TIME / 80]);
    let several = [(); 3].map(|()| r.within(1, longest));
    let mut table = Table::zero();
    (table.m, table.n) = (*r.pick(&[1, 2, 4, 64]), n as u64);
    for task in &mut table.tasks[..n] {
        for lock in &mut task.locks[..locks] {
            if every_pair || r.one_in(2) {
                let c = if r.one_in(4) { r.within(1, longest) } else { *r.pick(&several) };
                let n = *r.pick(&[1, 1, 2, 3, 7, COUNT]);
                *lock = Lock { n, c, ct: r.within(c, c * n.min(4)) };
            }
        }
        let held: u64 = task.locks.iter().map(|lock| lock.ct).sum();
        task.c = held + r.within(longest, 2 * longest);
        task.d = r.within(task.c.max(TIME / 2), TIME);
        task.t = r.within(task.d, TIME);
    }
    with_alpha(r, table)
}

/// The table with alpha for the tasks in use, never rising. It may begin so large that all pairs below count, or so small that hardly any do.
pub fn with_alpha(r: &mut Random, mut table: Table) -> Table {
    let mut alpha = *r.pick(&[1, 2, 3, 5, 16, ALPHA - 1, ALPHA]);
    let falls = r.one_in(2);
    for task in &mut table.tasks[..table.n.min(TASKS as u64) as usize] {
        task.alpha = alpha;
        alpha = match r.within(0, 9) {
            0 if falls => r.within(1, alpha),
            1..=3 if falls => (alpha - 1).max(1),
            _ => alpha,
        };
    }
    table
}

/// One table in three with alpha.
pub fn some_with_alpha(r: &mut Random, table: Table) -> Table {
    if r.one_in(3) { with_alpha(r, table) } else { table }
}

/// The same table with other alphas: given, taken away, or others.
pub fn other_alpha(r: &mut Random, table: &Table) -> Table {
    if r.one_in(3) { table.without_alpha() } else { with_alpha(r, table.clone()) }
}

/// The table with groups: of resources in use and of others, all sixteen in one, sixteen of one, numbers that are other resources' too.
pub fn with_groups(r: &mut Random, mut table: Table) -> Table {
    let tasks = &table.tasks[..table.n.min(TASKS as u64) as usize];
    let (in_use, others): (Vec<usize>, Vec<usize>) = (0..LOCKS).partition(|&k| tasks.iter().any(|task| task.locks[k].n > 0));
    table.groups = match r.within(0, 9) {
        0 => [number(r); LOCKS],
        1 => sixteen(r),
        // eight of two
        2 => sixteen(r).map(|group| group.div_ceil(2)),
        3 => of_some(r, &[0; LOCKS], &others),
        4 => named_after_another(r, &in_use),
        5 => std::array::from_fn(|_| r.within(0, GROUPS as u64) as u32),
        _ => {
            let several = [0, number(r), number(r), number(r)];
            let any = std::array::from_fn(|_| *r.pick(&several));
            of_some(r, &any, &in_use)
        }
    };
    table
}

/// Any number that a group may have.
fn number(r: &mut Random) -> u32 {
    r.within(1, GROUPS as u64) as u32
}

/// Sixteen numbers, each once.
fn sixteen(r: &mut Random) -> [u32; LOCKS] {
    let mut all = std::array::from_fn(|k| k as u32 + 1);
    if !r.one_in(4) {
        (1..LOCKS).rev().for_each(|at| all.swap(at, r.within(0, at as u64) as usize));
    }
    all
}

/// These groups, with some of these resources (from 0) in one more; there may be none.
fn of_some(r: &mut Random, groups: &[u32; LOCKS], resources: &[usize]) -> [u32; LOCKS] {
    let (mut all, group) = (*groups, number(r));
    resources.iter().filter(|_| r.one_in(2)).for_each(|&k| all[k] = group);
    all
}

/// One group of some of these resources (from 0), with the number of one that is in no group.
fn named_after_another(r: &mut Random, resources: &[usize]) -> [u32; LOCKS] {
    let mut all = [0; LOCKS];
    let by_itself = if resources.is_empty() { 0 } else { *r.pick(resources) };
    (0..LOCKS).filter(|&k| k != by_itself && (resources.contains(&k) || r.one_in(4))).for_each(|k| all[k] = by_itself as u32 + 1);
    all
}

/// One table in three with groups.
pub fn some_with_groups(r: &mut Random, table: Table) -> Table {
    if r.one_in(3) { with_groups(r, table) } else { table }
}

/// The same table with its groups numbered otherwise.
pub fn renumbered(r: &mut Random, table: &Table) -> Table {
    let numbers = sixteen(r);
    Table { groups: table.groups.map(|group| if group == 0 { 0 } else { numbers[group as usize - 1] }), ..table.clone() }
}

/// The same table with groups of one: some of its resources by themselves, and each in a group of its own.
pub fn groups_of_one(r: &mut Random, table: &Table) -> Table {
    Table { groups: sixteen(r).map(|group| if r.one_in(3) { 0 } else { group }), ..table.without_groups() }
}

/// The first two kinds in turn, from a seed of their own.
pub fn tables(seed: u64, how_many: u64) -> impl Iterator<Item = Table> {
    let mut r = Random::new(seed);
    (0..how_many).map(move |at| if at % 2 == 0 { table(&mut r) } else { long_among_short(&mut r) })
}

/// A task that may run for as long as its deadline. Half of them hold one lock for most of it, by many short requests, for which nobody waits
/// long.
fn long_task(r: &mut Random, locks: usize, longest: u64) -> Task {
    let mut task = task(r, 0, longest, 1);
    if locks > 0 && r.one_in(2) {
        let ct = r.within(task.c.div_ceil(2), task.c);
        task.locks[r.next() as usize % locks] = Lock { n: COUNT, c: ct.div_ceil(COUNT), ct };
    }
    task
}

fn task(r: &mut Random, locks: usize, longest: u64, load: u64) -> Task {
    let t = r.within((longest / 10).max(1), longest);
    let d = if r.one_in(3) { t } else { r.within((t / 2).max(1), t) };
    let c = r.within(1, (d / load).max(1));
    let mut task = Task { t, c, d, ..Task::default() };
    let mut left = c;
    for k in 0..locks.min(LOCKS) {
        if left == 0 || r.one_in(2) {
            continue;
        }
        let ct = if r.one_in(8) { left } else { r.within(1, left.div_ceil(3)) };
        let c = r.within(ct.div_ceil(COUNT), ct);
        let least = ct.div_ceil(c);
        let n = if r.one_in(2) { least } else { r.within(least, COUNT) };
        task.locks[k] = Lock { n, c, ct };
        left -= ct;
    }
    task
}

/// The same table made harder, as demand 3 has it: no more processors, no period longer, no count of requests or longest request smaller,
/// perhaps more tasks at the bottom. Everything else is as it was.
pub fn harder(r: &mut Random, table: &Table) -> Table {
    let mut harder = table.clone();
    if r.one_in(2) {
        harder.m = r.within(1, table.m);
    }
    for task in &mut harder.tasks[..table.n as usize] {
        if r.one_in(2) {
            task.t = r.within(task.d, task.t);
        }
        for lock in in_use(task) {
            if r.one_in(3) {
                lock.n = r.within(lock.n, (lock.n + 2).min(COUNT));
                lock.c = r.within(lock.c, lock.ct);
            }
        }
    }
    let longest = table.used().iter().map(|task| task.t).max().unwrap_or(TIME);
    while harder.n < TASKS as u64 && r.one_in(3) {
        // half of the last one's, or none
        let alpha = harder.used().last().map_or(0, |last| last.alpha.div_ceil(2));
        harder.tasks[harder.n as usize] = Task { alpha, ..task(r, LOCKS, longest, 20) };
        harder.n += 1;
    }
    harder
}

/// The same table with longer run times, as request 7/12 has it: no C, no CT and no C less all CT smaller. Everything else is as it was, so that no
/// total is above N times c.
pub fn longer(r: &mut Random, table: &Table) -> Table {
    let mut longer = table.clone();
    for task in &mut longer.tasks[..table.n as usize] {
        let room = run_longer(r, task);
        hold_longer(r, task, room, |lock| lock.n * lock.c);
    }
    longer
}

/// Both at once. So a total may pass what N times c was, with more or longer requests, and a longest request may pass what the total was: neither
/// change need be accepted alone.
pub fn no_easier(r: &mut Random, table: &Table) -> Table {
    let mut longer = table.clone();
    for task in &mut longer.tasks[..table.n as usize] {
        let room = run_longer(r, task);
        hold_longer(r, task, room, |_| TIME);
        in_use(task).for_each(|lock| request_enough(r, lock));
    }
    harder(r, &longer)
}

/// The same table with longer totals inside the same run times. They are longer run times but for one condition: C less all CT gets smaller.
pub fn held_longer(r: &mut Random, table: &Table) -> Table {
    let mut held = table.clone();
    for task in &mut held.tasks[..table.n as usize] {
        let room = task.outside_locks();
        hold_longer(r, task, room, |lock| lock.n * lock.c);
    }
    held
}

/// A task runs longer, one time in two: mostly by a little, sometimes up to its deadline. Says by how much.
fn run_longer(r: &mut Random, task: &mut Task) -> u64 {
    let before = task.c;
    task.c = match r.within(0, 9) {
        0 => task.d,
        1 => r.within(task.c, task.d),
        2..=4 => r.within(task.c, (task.c + task.c.div_ceil(4)).min(task.d)),
        _ => task.c,
    };
    task.c - before
}

/// A task's totals grow: all of them together by no more than there is room, and each to no more than is said of its pair.
fn hold_longer(r: &mut Random, task: &mut Task, mut room: u64, most: impl Fn(&Lock) -> u64) {
    for lock in in_use(task) {
        let before = lock.ct;
        let most = most(lock).min(lock.ct + room);
        lock.ct = if r.one_in(4) { most } else { r.within(lock.ct, most) };
        room -= lock.ct - before;
    }
}

/// As many requests as a total takes that has grown, or as long ones. Where it is still N times c at most, they stay as they were.
fn request_enough(r: &mut Random, lock: &mut Lock) {
    if r.one_in(2) {
        lock.n = lock.n.max(lock.ct.div_ceil(lock.c)).min(COUNT);
    }
    lock.c = lock.c.max(lock.ct.div_ceil(lock.n));
}

fn in_use(task: &mut Task) -> impl Iterator<Item = &mut Lock> {
    task.locks.iter_mut().filter(|lock| lock.n > 0)
}

/// Some spelling of a time that is rounded to these microseconds. A traced one may be up to 999 ns off: above if it is rounded down, below if
/// up, so that 1 µs may be 0.000001.
fn time(r: &mut Random, us: u64, round: Round, traced: bool) -> String {
    if !traced {
        return spelling(r, us * 1_000, 3);
    }
    let step = *r.pick(&[1, 10, 100, 1_000]);
    let off = if step < 1_000 { step * r.within(1, 999 / step) } else { 0 };
    let ns = match round {
        Round::Down => us * 1_000 + off,
        Round::Up => us * 1_000 - off,
    };
    spelling(r, ns, 6)
}

/// Some spelling of a time in nanoseconds, with as many decimals as it needs, or more, up to `most`.
fn spelling(r: &mut Random, ns: u64, most: u64) -> String {
    let (whole, fraction) = (ns / 1_000_000, ns % 1_000_000);
    let least = whole.to_string().len();
    let width = if r.one_in(4) { r.within(least as u64, least.max(5) as u64) as usize } else { least };
    let mut text = format!("{whole:0width$}");
    let digits = format!("{fraction:06}");
    let needed = digits.trim_end_matches('0').len();
    let kept = if r.one_in(4) { r.within(needed as u64, most) as usize } else { needed };
    if kept > 0 {
        text.push('.');
        text.push_str(&digits[..kept]);
    }
    text
}

fn count(r: &mut Random, x: u64) -> String {
    let least = x.to_string().len();
    let width = if r.one_in(4) { r.within(least as u64, least.max(4) as u64) as usize } else { least };
    format!("{x:0width$}")
}

/// A listing of a table, but for alpha and groups, in some spelling, as lines without their LF. Half of them have three decimals at most.
pub fn lines(r: &mut Random, table: &Table) -> Vec<String> {
    let traced = r.one_in(2);
    let down = |r: &mut Random, us: u64| time(r, us, Round::Down, traced);
    let up = |r: &mut Random, us: u64| time(r, us, Round::Up, traced);
    let mut lines = vec![format!("cpus {}", count(r, table.m))];
    for task in table.used() {
        lines.push(format!("task {} {} {}", down(r, task.t), up(r, task.c), down(r, task.d)));
        for (k, lock) in task.locks.iter().enumerate() {
            if lock.n > 0 {
                lines.push(format!("use {} {} {} {}", count(r, k as u64 + 1), count(r, lock.n), up(r, lock.c), up(r, lock.ct)));
            }
        }
    }
    lines
}

/// Puts the alpha of the table's tasks into its listing, in some spelling.
pub fn put_alpha(r: &mut Random, table: &Table, lines: &mut Vec<String>) {
    let mut tasks = table.used().iter();
    for line in std::mem::take(lines) {
        let task = if line.starts_with("task ") { tasks.next() } else { None };
        lines.push(line);
        lines.extend(task.filter(|task| task.alpha > 0).map(|task| format!("alpha {}", count(r, task.alpha))));
    }
}

/// Puts the groups of the table into its listing, in some spelling.
pub fn put_groups(r: &mut Random, table: &Table, lines: &mut Vec<String>) {
    let grouped = (1..).zip(table.groups).filter(|(_, group)| *group > 0);
    let groups: Vec<String> = grouped.map(|(k, group)| format!("group {} {}", count(r, group as u64), count(r, k))).collect();
    lines.splice(1..1, groups);
}

pub fn join(lines: &[String]) -> Vec<u8> {
    lines.iter().flat_map(|line| line.bytes().chain([b'\n'])).collect()
}

/// A field that means trouble, or nearly.
fn odd_field(r: &mut Random) -> String {
    r.pick(&[
        "0", "00000", "0.0", "0.001", "10000", "10000.000", "10000.001", "10001", "99999.999", "100000", "2.", ".5", "2.5000", "2.5.5", "2,5", "-1",
        "+1", "x", "1x", "1 ", " 1", "", "64", "65", "16", "17", "1000", "1001", "9999", "09999", "00001", "1\r", "1\t", "\u{e9}", "1e3", "0x1", "4294967297",
        "0.000001", "0.0000001", "0.0009", "0.000999", "0.0009999", "0.001000", "0.001001", "0.0010001", "2.500000", "2.500001", "2.5000001", "1.0000",
        "9999.999999", "9999.9999999", "10000.000000", "10000.000001", "10000.0000001", "10000.000999", "10000.0009999", "10000.001000", "99999.999999",
    ])
    .to_string()
}

/// The line with one of its times less than a microsecond off. A line that was damaged before may have none there.
fn nudge(r: &mut Random, line: &str) -> String {
    let mut words: Vec<String> = line.split(' ').map(String::from).collect();
    let w = match words[0].as_str() {
        "task" => r.within(1, 3) as usize,
        "use" => r.within(3, 4) as usize,
        _ => return line.into(),
    };
    if let Some(Ok(ns)) = words.get(w).map(|word| listing::nanoseconds(word.as_bytes())) {
        let off = r.within(1, 999);
        let ns = if r.one_in(2) { ns + off } else { ns.saturating_sub(off) };
        words[w] = spelling(r, ns, 6);
    }
    words.join(" ")
}

/// One change of a line's fields, of the order of lines, or of bytes.
pub fn damage(r: &mut Random, lines: &mut Vec<String>) -> Vec<u8> {
    let changes = if r.one_in(3) { 2 } else { 1 };
    for _ in 0..changes {
        if lines.is_empty() {
            break;
        }
        let at = r.next() as usize % lines.len();
        match r.within(0, 11) {
            0..=3 => {
                let mut words: Vec<String> = lines[at].split(' ').map(String::from).collect();
                let w = r.next() as usize % words.len();
                words[w] = odd_field(r);
                lines[at] = words.join(" ");
            }
            4 => {
                lines.remove(at);
            }
            5 => {
                let copy = lines[at].clone();
                lines.insert(at, copy);
            }
            6 => {
                let other = r.next() as usize % lines.len();
                lines.swap(at, other);
            }
            7 => {
                let word = *r.pick(&["cpus", "task", "use", "tasks", "Use", ""]);
                let rest = lines[at].split_once(' ').map_or("", |p| p.1).to_string();
                lines[at] = format!("{word} {rest}");
            }
            8 => {
                let words: Vec<&str> = lines[at].split(' ').collect();
                let fewer = r.one_in(2);
                lines[at] = if fewer { words[..words.len() - 1].join(" ") } else { format!("{} 1", lines[at]) };
            }
            9 | 10 => lines[at] = nudge(r, &lines[at]),
            _ => {
                let made = format!("use {} {} {} {}", r.within(1, 17), r.within(1, 5), r.within(1, 3), r.within(1, 9));
                lines.insert(at + 1, made);
            }
        }
    }
    let mut bytes = join(lines);
    if r.one_in(3) && !bytes.is_empty() {
        let at = r.next() as usize % bytes.len();
        match r.within(0, 4) {
            0 => bytes[at] = r.next() as u8,
            1 => bytes[at] = *r.pick(b"0123456789. \n"),
            2 => {
                bytes.remove(at);
            }
            3 => bytes.insert(at, *r.pick(b"0123456789. \n\r\t\0")),
            _ => bytes.truncate(at),
        }
    }
    bytes
}

/// One change of what a listing says of alpha: of one line or of many, of a field or of a place.
pub fn damage_alpha(r: &mut Random, lines: &mut Vec<String>) {
    let (anywhere, last) = (r.next() as usize % (lines.len() + 1), lines.len() - 1);
    let made = format!("alpha {}", some_alpha(r));
    let own: Vec<usize> = (0..lines.len()).filter(|&at| lines[at].starts_with("alpha ")).collect();
    if own.is_empty() {
        return lines.insert(anywhere, made);
    }
    let at = *r.pick(&own);
    match r.within(0, 14) {
        0 | 1 => drop(lines.remove(at)),
        2 | 3 => lines.retain(|line| !line.starts_with("alpha ") || r.one_in(2)),
        4 => lines.insert(at, lines[at].clone()),
        5 => lines.insert(anywhere, made),
        // past the next line, which may be a use; or anywhere
        6 => lines.swap(at, last.min(at + 1)),
        7 => {
            let line = lines.remove(at);
            lines.insert(anywhere.min(last), line);
        }
        8 => lines[at] = format!("{} {}", r.pick(&["Alpha", "alphas", "alph", "task", "use", "cpus", ""]), some_alpha(r)),
        9 => lines[at] = r.pick(&["alpha", "alpha ", "alpha 1 1", "alpha  1", "alpha 1 ", " alpha 1"]).to_string(),
        10 => lines[at] = format!("alpha {}", odd_field(r)),
        _ => lines[at] = made,
    }
}

/// One change of what a listing says of groups: of a line, of a field or of a place.
pub fn damage_groups(r: &mut Random, lines: &mut Vec<String>) {
    let (anywhere, last) = (r.next() as usize % (lines.len() + 1), lines.len() - 1);
    let made = format!("group {} {}", some_number(r), some_number(r));
    let own: Vec<usize> = (0..lines.len()).filter(|&at| lines[at].starts_with("group ")).collect();
    if own.is_empty() {
        return lines.insert(if r.one_in(2) { anywhere } else { 1.min(lines.len()) }, made);
    }
    let at = *r.pick(&own);
    match r.within(0, 14) {
        0 => drop(lines.remove(at)),
        1 | 2 => lines.insert(at, lines[at].clone()),
        3 => lines.insert(anywhere, made),
        // the K falls, or the line comes before `cpus` or after a task
        4 => lines.swap(at, *r.pick(&own)),
        5 => lines.swap(at, last.min(at + 1)),
        6 => {
            let line = lines.remove(at);
            lines.insert(*r.pick(&[0, 1, anywhere.min(last), last]), line);
        }
        7 => lines.insert(0, made),
        8 => lines.push(made),
        9 => lines[at] = format!("{} {} {}", r.pick(&["Group", "groups", "grou", "task", "use", "cpus", "alpha", ""]), some_number(r), some_number(r)),
        10 => lines[at] = r.pick(&["group", "group ", "group 1", "group 1 ", "group 1 1 1", "group  1 1", "group 1  1", " group 1 1", "group 1 1 "]).to_string(),
        11 => {
            let odd = odd_field(r);
            lines[at] = if r.one_in(2) { format!("group {odd} {}", some_number(r)) } else { format!("group {} {odd}", some_number(r)) };
        }
        _ => lines[at] = made,
    }
}

/// The number of a group or of a resource in some spelling, or what is nearly one.
fn some_number(r: &mut Random) -> String {
    let x = if r.one_in(4) { *r.pick(&[0, 17, 18, 32, 256, 257, 9_999, 10_000]) } else { r.within(1, GROUPS as u64) };
    count(r, x)
}

/// An alpha in some spelling, or what is nearly one.
fn some_alpha(r: &mut Random) -> String {
    let alpha = if r.one_in(2) { r.within(1, ALPHA) } else { *r.pick(&[0, 1, ALPHA, ALPHA + 1, 200, 256, 9_999, 10_000]) };
    count(r, alpha)
}

/// A table of any numbers at all, most of it near the limits.
pub fn raw_table(r: &mut Random) -> Table {
    let mut table = table(r);
    // what stands past the nth slot is not looked at
    if r.one_in(2) {
        for slot in table.n as usize..TASKS {
            table.tasks[slot] = Task { t: r.next() as u32 as u64, c: r.next() as u32 as u64, d: 0, alpha: 200, locks: [Lock { n: 7, c: 9, ct: 3 }; LOCKS] };
        }
    }
    for _ in 0..*r.pick(&[0, 1, 1, 1, 2, 3]) {
        let value = *r.pick(&[0, 1, 2, 16, 17, 32, 33, 64, 65, 1_000, 1_001, TIME, TIME + 1, u32::MAX as u64]);
        let slot = r.next() as usize % (table.n as usize).clamp(1, TASKS);
        let k = r.next() as usize % LOCKS;
        let task = &mut table.tasks[slot];
        match r.within(0, 7) {
            0 => table.m = value,
            1 => table.n = *r.pick(&[0, 1, 2, 3, 31, 32, 33, 64, u32::MAX as u64, u64::MAX]),
            2 => task.t = value,
            3 => task.c = value,
            4 => task.d = value,
            5 => task.locks[k].n = value,
            6 => task.locks[k].c = value,
            _ => task.locks[k].ct = value,
        }
    }
    table
}

/// The same with alpha, mostly with a fault in it: none for some task, one above the limit or above the one before.
pub fn raw_alpha(r: &mut Random) -> Table {
    let raw = raw_table(r);
    let mut table = with_alpha(r, raw);
    for _ in 0..*r.pick(&[0, 1, 1, 1, 2, 3]) {
        let slot = r.next() as usize % (table.n as usize).clamp(1, TASKS);
        let own = table.tasks[slot].alpha;
        table.tasks[slot].alpha = *r.pick(&[0, 0, own + 1, own + 1, 1, ALPHA, ALPHA + 1, 200, u32::MAX as u64]);
    }
    table
}

/// Any table with groups, mostly with a fault in them: a number above the limit, of a resource in use or of another.
pub fn raw_groups(r: &mut Random) -> Table {
    let raw = if r.one_in(2) { table(r) } else { raw_alpha(r) };
    let mut table = with_groups(r, raw);
    for _ in 0..*r.pick(&[0, 1, 1, 2]) {
        let k = r.next() as usize % LOCKS;
        table.groups[k] = *r.pick(&[0, 1, GROUPS, GROUPS + 1, GROUPS + 1, 32, 255, 256, 256 + GROUPS, 1 << 16, 1 << 31, u32::MAX]);
    }
    table
}
