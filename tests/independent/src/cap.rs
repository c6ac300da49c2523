//! Request 3/12, by number: the laws of the new workload, and wrong programs, each with a listing that tells it apart.

use crate::analysis::{demand, quick, replaced, terms, uncapped, workload, By, Found, Terms, Verdict, UNLIMITED};
use crate::merge::Merged;
use crate::random::Random;
use crate::report::{self, REPORT};
use crate::table::{Table, Task};
use crate::{cases, generate, listing};

/// How far the laws are tried: every period and every length up to these.
const PERIODS: u64 = 12;
const LENGTHS: u64 = 40;
/// How many tables are made for what no verdict shows, and the deadlines of those that are tried.
const TABLES: u64 = 500;
const SHORT: u64 = 400;

/// Stops the comparison if a law fails, or a wrong program is not told apart.
pub fn hold() {
    laws();
    WRONG.iter().for_each(told_apart);
    same_verdicts();
}

fn task(t: u64, d: u64) -> Task {
    Task { t, c: d, d, ..Task::default() }
}

/// For every small T, D, x and t: never above t nor above the paper's, and it rises with t, with x, and as T gets shorter.
/// The paper's falls with x: that is a point.
fn laws() {
    for (period, d) in (1..=PERIODS).flat_map(|period| (1..=period).map(move |d| (period, d))) {
        for (x, t) in (0..=d).flat_map(|x| (0..=LENGTHS).map(move |t| (x, t))) {
            let here = workload(&task(period, d), t, x);
            let at = format!("T {period}, D {d}, x {x}, t {t}");
            assert!(here <= t && here <= uncapped(&task(period, d), t, x), "above t or the paper's: {at}");
            assert!(here <= workload(&task(period, d), t + 1, x), "falls as t grows: {at}");
            assert!(x == d || here <= workload(&task(period, d), t, x + 1), "falls as x grows: {at}");
            assert!(d == period || here <= workload(&task(period - 1, d), t, x), "falls as T gets shorter: {at}");
        }
    }
}

/// What some program takes a task's demand at a length to be.
type Demand = fn(&Merged, usize, u64) -> u64;

/// A wrong program, with a listing that tells it apart: the one line that it prints there in place of the right one.
struct Wrong {
    name: &'static str,
    demand: Demand,
    listing: &'static str,
    right: &'static str,
    printed: &'static str,
}

const WRONG: &[Wrong] = &[
    Wrong { name: "no cap", demand: left_out, listing: cases::LONG_ABOVE, right: "3 meets 3 3", printed: "3 misses - 2" },
    Wrong { name: "no cap", demand: left_out, listing: cases::LONGER_ABOVE, right: "3 meets 3 3", printed: "3 misses - 3" },
    Wrong { name: "a cap of t + 1", demand: one_more, listing: cases::LONGER_ABOVE, right: "3 meets 3 3", printed: "3 meets 4 3" },
    Wrong { name: "a cap on S alone", demand: whole_only, listing: cases::LONG_ABOVE, right: "3 meets 3 3", printed: "3 misses - 2" },
    Wrong { name: "no cap on S", demand: divided_only, listing: cases::LONG_SHARED_ABOVE, right: "2 misses - 2", printed: "2 misses - 1" },
    Wrong { name: "no cap on O", demand: not_o, listing: cases::LONG_LOCK_ABOVE, right: "3 meets 3 3", printed: "3 misses - 2" },
    Wrong { name: "no cap on F", demand: not_f, listing: cases::LONG_ABOVE, right: "3 meets 3 3", printed: "3 misses - 2" },
    Wrong { name: "no cap on L", demand: not_l, listing: cases::LONG_LOCK_BELOW, right: "3 meets 4 3", printed: "3 misses - 3" },
    Wrong { name: "a cap on the sum over the tasks", demand: over_the_tasks, listing: cases::TWO_ABOVE, right: "3 misses - 2", printed: "3 meets 2 2" },
    Wrong { name: "a cap on a task's O and F together", demand: o_and_f, listing: cases::O_AND_F, right: "3 misses - 2", printed: "3 meets 3 3" },
    Wrong { name: "a cap on a task's S, O and F together", demand: s_o_and_f, listing: cases::S_AND_F, right: "3 misses - 3", printed: "3 meets 5 4" },
    Wrong { name: "a cap on the quotient", demand: quotient, listing: cases::LONG_ABOVE, right: "3 meets 3 3", printed: "3 misses - 3" },
];

/// What is said of each task by some demand: the rounds by its iteration, and the verdict by every length too.
fn by_demand(table: &Table, demand: Demand) -> Vec<Found> {
    let merged = &table.merged();
    let found = |(i, task): (usize, &Task)| {
        let found = replaced(task.c, task.d, UNLIMITED, |t| demand(merged, i, t));
        let tried = (1..=task.d).find(|&t| demand(merged, i, t) <= t).map_or(Verdict::Misses, Verdict::Meets);
        assert_eq!(found.verdict, tried, "the iteration and the search differ: task {} of\n{}", i + 1, listing::write(table));
        found
    };
    table.used().iter().enumerate().map(found).collect()
}

fn told_apart(wrong: &Wrong) {
    let table = listing::read(wrong.listing.as_bytes()).expect("an accepted listing");
    let (right, printed) = (report::verdicts(&table, REPORT), report::accepted(&by_demand(&table, wrong.demand)));
    let unlike: Vec<(&str, &str)> = right.lines().zip(printed.lines()).filter(|(a, b)| a != b).collect();
    assert_eq!(unlike, [(wrong.right, wrong.printed)], "{} on\n{}", wrong.name, wrong.listing);
}

/// A program that caps O, F and L and not S works out other demands, and yet no verdict tells it apart. A workload of S that the cap lowers is
/// t with it and more without; it counts whole, beside a C of 1 or more, so that either way the demand is above t and t is no bound. The
/// length climbs faster, so that the rounds of request 6/12 do tell.
fn same_verdicts() {
    let case_a = listing::read(cases::CASE_A.as_bytes()).expect("an accepted listing");
    let merged = case_a.merged();
    assert_eq!([demand(&merged, 2, 100, By::Capped), divided_only(&merged, 2, 100)], [6_200, 6_600]);
    let verdicts = |all: Vec<Found>| all.iter().map(|found| found.verdict).collect::<Vec<_>>();
    let mut r = Random::new(5);
    let tables = (0..TABLES).map(|_| generate::long_among_short(&mut r));
    for table in tables.filter(|table| table.used().iter().all(|task| task.d <= SHORT)) {
        assert_eq!(verdicts(by_demand(&table, divided_only)), verdicts(quick(&table, UNLIMITED)), "{}", listing::write(&table));
    }
}

fn left_out(merged: &Merged, i: usize, t: u64) -> u64 {
    terms(merged, i, t, uncapped).demand(merged, i)
}

fn one_more(merged: &Merged, i: usize, t: u64) -> u64 {
    terms(merged, i, t, |task, t, x| uncapped(task, t, x).min(t + 1)).demand(merged, i)
}

/// Some terms by the one workload, and the others by the other.
fn mixed(merged: &Merged, i: usize, t: u64, mix: impl Fn(Terms, Terms) -> Terms) -> u64 {
    mix(terms(merged, i, t, workload), terms(merged, i, t, uncapped)).demand(merged, i)
}

/// S, which counts whole, is capped; what is divided is not.
fn whole_only(merged: &Merged, i: usize, t: u64) -> u64 {
    mixed(merged, i, t, |capped, all| Terms { s: capped.s, ..all })
}

fn divided_only(merged: &Merged, i: usize, t: u64) -> u64 {
    mixed(merged, i, t, |capped, all| Terms { s: all.s, ..capped })
}

fn not_o(merged: &Merged, i: usize, t: u64) -> u64 {
    mixed(merged, i, t, |capped, all| Terms { o: all.o, ..capped })
}

fn not_f(merged: &Merged, i: usize, t: u64) -> u64 {
    mixed(merged, i, t, |capped, all| Terms { f: all.f, ..capped })
}

fn not_l(merged: &Merged, i: usize, t: u64) -> u64 {
    mixed(merged, i, t, |capped, all| Terms { l: all.l, ..capped })
}

/// Each letter at most t, and not each task's part of it.
fn over_the_tasks(merged: &Merged, i: usize, t: u64) -> u64 {
    let Terms { db, s, o, f, l } = terms(merged, i, t, uncapped);
    Terms { db, s: s.min(t), o: o.min(t), f: f.min(t), l: l.min(t) }.demand(merged, i)
}

/// What one task brings in by itself.
fn of_one(merged: &Merged, i: usize, t: u64, one: &Task) -> Terms {
    terms(merged, i, t, |task, t, x| if std::ptr::eq(task, one) { workload(task, t, x) } else { 0 })
}

fn o_and_f(merged: &Merged, i: usize, t: u64) -> u64 {
    let each = merged.tasks().iter().map(|one| of_one(merged, i, t, one));
    let f = each.map(|Terms { o, f, .. }| (o + f).min(t)).sum();
    Terms { o: 0, f, ..terms(merged, i, t, workload) }.demand(merged, i)
}

/// What S leaves of t is all that O and F of the same task get.
fn s_o_and_f(merged: &Merged, i: usize, t: u64) -> u64 {
    let each = merged.tasks().iter().map(|one| of_one(merged, i, t, one));
    let f = each.map(|Terms { s, o, f, .. }| (o + f).min(t - s)).sum();
    Terms { o: 0, f, ..terms(merged, i, t, workload) }.demand(merged, i)
}

/// The quotient is at most t, and not what is divided.
fn quotient(merged: &Merged, i: usize, t: u64) -> u64 {
    let whole = Terms { o: 0, f: 0, l: 0, ..terms(merged, i, t, workload) }.demand(merged, i);
    let all = terms(merged, i, t, uncapped);
    let rest = all.o + all.f + all.l;
    whole + if (i as u64) < merged.table.m { 0 } else { rest.div_ceil(merged.table.m).min(t) }
}
