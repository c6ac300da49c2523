//! Request 8/12, by number: the laws of the waits, and wrong programs, each told apart by its waits. And what a wait is made of, so that the comparison can
//! say which kinds it has tried.

use std::collections::BTreeSet;

use crate::merge::Merged;
use crate::random::Random;
use crate::table::{Lock, Table, ALPHA, TIME};
use crate::{cases, generate, groups, listing, wait};

/// How many tables of each kind are made for the laws.
const TABLES: u64 = 300;
/// Of no more values than this every choice is tried.
const FEW: usize = 8;

/// Stops the comparison if a law fails, or a wrong program is not told apart.
pub fn hold() {
    let mut r = Random::new(27);
    let mut tables: Vec<Table> = generate::tables(28, TABLES).map(|table| generate::with_alpha(&mut r, table)).collect();
    tables.extend((0..TABLES).map(|_| generate::many_pairs(&mut r)));
    tables.extend(groups::tables(37, TABLES).filter(|table| table.tasks[0].alpha > 0));
    for table in &tables {
        assert_eq!(listing::read(listing::write(table).as_bytes()).as_ref(), Ok(table), "not read back");
    }
    let tried: u64 = tables.iter().map(|table| laws(&mut r, table)).sum();
    assert!(tried > 1_000, "every choice was tried {tried} times only");
    told_apart();
}

/// The lowest task does not wait, nor does one without locks. No wait gets shorter as alpha gets larger, and no figure is read but the counts, the longest
/// requests and alpha. Says how often every choice of lower values was tried.
fn laws(r: &mut Random, table: &Table) -> u64 {
    let waits = wait::all(table);
    let merged = &table.merged();
    let at = |i: usize| format!("task {} of\n{}", i + 1, listing::write(table));
    let mut tried = 0;
    for (i, task) in table.used().iter().enumerate() {
        let lowest = i + 1 == table.used().len();
        let no_locks = in_use(merged, i).next().is_none();
        assert!(!(lowest || no_locks) || waits[i] == Some(0), "a wait for nobody, or for nothing: {}", at(i));
        assert!(task.alpha == ALPHA || waits[i] <= with(table, i, task.alpha + 1), "a larger alpha and a shorter wait: {}", at(i));
        for values in in_use(merged, i).map(|k| wait::below(merged, i, k)) {
            let sum = wait::sum_of_largest(values.clone(), task.alpha);
            assert_eq!(sum, one_by_one(values.clone(), task.alpha), "not the largest: {}", at(i));
            if values.len() <= FEW {
                assert_eq!(sum, most(&values, task.alpha), "not the most: {}", at(i));
                tried += 1;
            }
        }
    }
    assert_eq!(wait::all(&other_figures(r, table)), waits, "other figures that are not read:\n{}", listing::write(table));
    assert_eq!(wait::all(&table.without_alpha()), vec![None; table.used().len()], "a wait without alpha:\n{}", listing::write(table));
    tried
}

/// The wait of the task at `i` with another alpha.
fn with(table: &Table, i: usize, alpha: u64) -> Option<u64> {
    let mut other = table.clone();
    other.tasks[i].alpha = alpha;
    wait::wait(&other.merged(), i)
}

/// The largest value taken out so many times.
fn one_by_one(mut values: Vec<u64>, how_many: u64) -> u64 {
    let mut sum = 0;
    for _ in 0..how_many {
        let Some(at) = (0..values.len()).max_by_key(|&at| values[at]) else { break };
        sum += values.swap_remove(at);
    }
    sum
}

/// The most that so many of the values can add up to, or fewer.
fn most(values: &[u64], how_many: u64) -> u64 {
    let choices = (0u32..1 << values.len()).filter(|choice| choice.count_ones() as u64 <= how_many);
    let sum = |choice: u32| (0..values.len()).filter(|at| choice >> at & 1 == 1).map(|at| values[at]).sum();
    choices.map(sum).max().unwrap_or(0)
}

/// The table with other processors, times and totals. It is accepted again.
fn other_figures(r: &mut Random, table: &Table) -> Table {
    let mut other = table.clone();
    other.m = r.within(1, 64);
    for task in &mut other.tasks[..table.n as usize] {
        task.locks.iter_mut().for_each(|lock| lock.ct = lock.c);
        task.c = r.within(task.c, TIME);
        task.d = r.within(task.c, TIME);
        task.t = r.within(task.d, TIME);
    }
    assert_eq!(other.check(), Ok(()), "{}", listing::write(&other));
    other
}

const NO_ALPHA: &str = "no alpha";
const NONE: &str = "a wait of 0";
const SOME: &str = "a wait above 0";
const LONG: &str = "a wait past 32 bits";
const FEWER: &str = "fewer lower values count than there are";
const EQUAL: &str = "of equal lower values some count";
const AS_MANY: &str = "as many lower values count as there are";
const ALL: &str = "fewer lower values than alpha";

/// What comes up in the wait of the task at `i` (from 0) of a checked table.
pub fn kinds(merged: &Merged, i: usize) -> BTreeSet<&'static str> {
    let Some(wait) = wait::wait(merged, i) else { return BTreeSet::from([NO_ALPHA]) };
    let mut kinds = BTreeSet::from([if wait == 0 { NONE } else { SOME }]);
    kinds.extend((wait > u32::MAX as u64).then_some(LONG));
    let alpha = merged.tasks()[i].alpha as usize;
    for k in in_use(merged, i) {
        let mut values = wait::below(merged, i, k);
        values.sort_by(|a, b| b.cmp(a));
        let count = values.len();
        kinds.extend((count > alpha).then_some(FEWER));
        kinds.extend((count > alpha && values[alpha - 1] == values[alpha]).then_some(EQUAL));
        kinds.extend((count == alpha).then_some(AS_MANY));
        kinds.extend((0 < count && count < alpha).then_some(ALL));
    }
    kinds
}

pub const KINDS: [&str; 8] = [NO_ALPHA, NONE, SOME, LONG, FEWER, EQUAL, AS_MANY, ALL];

/// A merged pair in use: its task and its column, both from 0, and its figures.
#[derive(Clone, Copy)]
struct Pair {
    task: usize,
    k: usize,
    lock: Lock,
}

fn pairs(merged: &Merged) -> Vec<Pair> {
    let of_task = |task: usize| merged.columns.iter().enumerate().map(move |(k, column)| Pair { task, k, lock: column[task] });
    (0..merged.tasks().len()).flat_map(of_task).filter(|pair| pair.lock.n > 0).collect()
}

/// What some program takes the wait of the task at `i` (from 0) to be.
type Wait = fn(&Merged, usize) -> u64;

/// Wrong programs, with what they print of three tasks in place of 12,100, 9,300 and 0.
const WRONG: &[(&str, Wait, [u64; 3])] = &[
    ("one value more than alpha", one_more, [15_600, 10_000, 0]),
    ("one value less than alpha", one_less, [8_300, 5_000, 0]),
    ("the smallest", smallest, [10_400, 9_100, 0]),
    ("the first task's alpha", first_alpha, [12_100, 10_000, 0]),
    ("alpha values for all resources together", together, [7_500, 6_000, 0]),
    ("the same resource too", same_too, [12_500, 10_200, 0]),
    ("the same resource alone", same_alone, [4_900, 4_400, 0]),
    ("the largest of all, of which those of the same resource do not count", left_out_after, [10_700, 5_800, 0]),
    ("no resource that the task uses", none_in_use, [11_500, 4_200, 0]),
    ("equal values once", equal_once, [10_200, 9_300, 0]),
    ("one value of each task", one_of_each_task, [8_300, 5_000, 0]),
    ("one value of each resource", one_of_each_resource, [11_600, 9_300, 0]),
    ("the task itself too", itself_too, [13_300, 9_700, 3_500]),
    ("the tasks above too", above_too, [12_100, 11_200, 4_000]),
    ("the tasks above alone", above_alone, [0, 8_000, 4_000]),
    ("CT in place of c", totals, [19_200, 12_800, 0]),
    ("not times N", once, [4_800, 4_800, 0]),
    ("no wait if i is at most m", past_processors, [0, 9_300, 0]),
];

fn told_apart() {
    let table = listing::read(cases::EQUAL_VALUES.as_bytes()).expect("an accepted listing");
    let merged = table.merged();
    let right = wait::all(&table).into_iter().flatten().collect::<Vec<_>>();
    assert_eq!(right, [12_100, 9_300, 0]);
    for (name, wrong, printed) in WRONG {
        assert_eq!([0, 1, 2].map(|i| wrong(&merged, i)), *printed, "{name}");
        assert_ne!(right, printed, "{name}");
    }
    let longest = listing::read(cases::longest_wait().as_bytes()).expect("an accepted listing");
    assert_eq!(wait::wait(&longest.merged(), 0), Some(15_000 * 310_000_000));
}

fn alpha(merged: &Merged, i: usize) -> usize {
    merged.tasks()[i].alpha as usize
}

/// The pairs with the largest c.
fn largest(mut all: Vec<Pair>, how_many: usize) -> Vec<Pair> {
    all.sort_by_key(|pair| std::cmp::Reverse(pair.lock.c));
    all.truncate(how_many);
    all
}

fn sum(all: Vec<Pair>) -> u64 {
    all.iter().map(|pair| pair.lock.c).sum()
}

/// The columns that the task at `i` uses.
fn in_use<'a>(merged: &'a Merged, i: usize) -> impl Iterator<Item = usize> + 'a {
    (0..merged.columns.len()).filter(move |&k| merged.columns[k][i].n > 0)
}

/// The wait if this is added for each request of a resource that the task uses.
fn for_each(merged: &Merged, i: usize, added: impl Fn(usize) -> u64) -> u64 {
    in_use(merged, i).map(|k| merged.columns[k][i].n * added(k)).sum()
}

/// The right pairs for a resource of the task at `i`.
fn lower(merged: &Merged, i: usize, k: usize) -> Vec<Pair> {
    pairs(merged).into_iter().filter(|pair| pair.task > i && pair.k != k).collect()
}

/// The wait if other pairs count, of which the largest are taken.
fn of_others(merged: &Merged, i: usize, counts: impl Fn(&Pair, usize) -> bool) -> u64 {
    for_each(merged, i, |k| sum(largest(pairs(merged).into_iter().filter(|pair| counts(pair, k)).collect(), alpha(merged, i))))
}

fn one_more(merged: &Merged, i: usize) -> u64 {
    for_each(merged, i, |k| sum(largest(lower(merged, i, k), alpha(merged, i) + 1)))
}

fn one_less(merged: &Merged, i: usize) -> u64 {
    for_each(merged, i, |k| sum(largest(lower(merged, i, k), alpha(merged, i) - 1)))
}

fn smallest(merged: &Merged, i: usize) -> u64 {
    for_each(merged, i, |k| {
        let mut all = lower(merged, i, k);
        all.sort_by_key(|pair| pair.lock.c);
        all.truncate(alpha(merged, i));
        sum(all)
    })
}

fn first_alpha(merged: &Merged, i: usize) -> u64 {
    for_each(merged, i, |k| sum(largest(lower(merged, i, k), alpha(merged, 0))))
}

fn together(merged: &Merged, i: usize) -> u64 {
    let of_lock = |k: usize| lower(merged, i, k).into_iter().map(move |pair| merged.columns[k][i].n * pair.lock.c);
    wait::sum_of_largest(in_use(merged, i).flat_map(of_lock).collect(), merged.tasks()[i].alpha)
}

fn same_too(merged: &Merged, i: usize) -> u64 {
    of_others(merged, i, |pair, _| pair.task > i)
}

fn same_alone(merged: &Merged, i: usize) -> u64 {
    of_others(merged, i, |pair, k| pair.task > i && pair.k == k)
}

fn left_out_after(merged: &Merged, i: usize) -> u64 {
    let below = || pairs(merged).into_iter().filter(|pair| pair.task > i).collect();
    for_each(merged, i, |k| sum(largest(below(), alpha(merged, i)).into_iter().filter(|pair| pair.k != k).collect()))
}

fn none_in_use(merged: &Merged, i: usize) -> u64 {
    of_others(merged, i, |pair, _| pair.task > i && merged.columns[pair.k][i].n == 0)
}

fn equal_once(merged: &Merged, i: usize) -> u64 {
    for_each(merged, i, |k| {
        let values: BTreeSet<u64> = wait::below(merged, i, k).into_iter().collect();
        wait::sum_of_largest(values.into_iter().collect(), merged.tasks()[i].alpha)
    })
}

/// The largest pair of each kind.
fn one_of_each(all: Vec<Pair>, kind: impl Fn(&Pair) -> usize) -> Vec<Pair> {
    let mut seen = BTreeSet::new();
    let count = all.len();
    largest(all, count).into_iter().filter(|pair| seen.insert(kind(pair))).collect()
}

fn one_of_each_task(merged: &Merged, i: usize) -> u64 {
    for_each(merged, i, |k| sum(largest(one_of_each(lower(merged, i, k), |pair| pair.task), alpha(merged, i))))
}

fn one_of_each_resource(merged: &Merged, i: usize) -> u64 {
    for_each(merged, i, |k| sum(largest(one_of_each(lower(merged, i, k), |pair| pair.k), alpha(merged, i))))
}

fn itself_too(merged: &Merged, i: usize) -> u64 {
    of_others(merged, i, |pair, k| pair.task >= i && pair.k != k)
}

fn above_too(merged: &Merged, i: usize) -> u64 {
    of_others(merged, i, |pair, k| pair.task != i && pair.k != k)
}

fn above_alone(merged: &Merged, i: usize) -> u64 {
    of_others(merged, i, |pair, k| pair.task < i && pair.k != k)
}

fn totals(merged: &Merged, i: usize) -> u64 {
    for_each(merged, i, |k| wait::sum_of_largest(lower(merged, i, k).iter().map(|pair| pair.lock.ct).collect(), merged.tasks()[i].alpha))
}

fn once(merged: &Merged, i: usize) -> u64 {
    in_use(merged, i).map(|k| sum(largest(lower(merged, i, k), alpha(merged, i)))).sum()
}

fn past_processors(merged: &Merged, i: usize) -> u64 {
    if (i as u64) < merged.table.m { 0 } else { of_others(merged, i, |pair, k| pair.task > i && pair.k != k) }
}
