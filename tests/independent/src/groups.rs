//! Request 9/12, by number: the laws of groups, listings in which they make a bound larger or smaller, and wrong programs, each told apart by its bounds or
//! its waits. And what the groups of a table are, so that the comparison can say which kinds it has tried.

use std::collections::{BTreeMap, BTreeSet};

use crate::analysis::{self, iterate, quick, replaced, terms, workload, By, Terms, Verdict, UNLIMITED};
use crate::merge::{Column, Merged, Together};
use crate::random::Random;
use crate::table::{Lock, Table, COUNT, LOCKS};
use crate::{cases, generate, listing, smaller, wait};

/// How many tables are made for the laws.
const TABLES: u64 = 450;

/// Tables with groups of every kind, from a seed: of any shape, with long tasks among short ones, and with many pairs and alpha; a third of the others have
/// alpha too.
pub fn tables(seed: u64, how_many: u64) -> impl Iterator<Item = Table> {
    let mut r = Random::new(seed);
    (0..how_many).map(move |at| {
        let mut table = any(&mut r, at);
        // most of them have something to put together
        while table.merged().columns.len() < 2 && !r.one_in(4) {
            table = any(&mut r, at);
        }
        let table = if at % 3 < 2 { generate::some_with_alpha(&mut r, table) } else { table };
        generate::with_groups(&mut r, table)
    })
}

fn any(r: &mut Random, at: u64) -> Table {
    match at % 3 {
        0 => generate::table(r),
        1 => generate::long_among_short(r),
        _ => generate::many_pairs(r),
    }
}

/// Stops the comparison if a law fails, a bound is not as told, or a wrong program is not told apart.
pub fn hold() {
    let mut r = Random::new(32);
    let accepted = tables(33, TABLES).filter(|table| laws(&mut r, table)).count();
    assert!(accepted > 100, "the merged pairs were typed {accepted} times only");
    either_way();
    told_apart();
}

/// What is said of the tasks of a table: the verdicts with their rounds, and the waits.
fn said(table: &Table) -> (Vec<analysis::Found>, Vec<Option<u64>>) {
    (quick(table, UNLIMITED), wait::all(table))
}

/// Only who is together makes a difference: not the numbers of the groups, nor whether a resource is in a group of its own, nor whether the merged pairs are
/// typed, where they can be. Says whether they can.
fn laws(r: &mut Random, table: &Table) -> bool {
    assert_eq!(listing::read(listing::write(table).as_bytes()).as_ref(), Ok(table), "not read back");
    let here = said(table);
    let same = |what: &str, one: &Table, other: &Table, said_of_one: &(Vec<_>, Vec<_>)| {
        assert_eq!(&said(other), said_of_one, "{what}:\n{}\n{}", listing::write(one), listing::write(other));
    };
    same("other numbers", table, &generate::renumbered(r, table), &here);
    same("groups of one left out", table, &several_alone(table), &here);
    let without = table.without_groups();
    same("groups of one", &without, &generate::groups_of_one(r, &without), &said(&without));
    sums(table);
    let typed = table.one_lock_a_group();
    let accepted = typed.check().is_ok();
    if accepted {
        same("the merged pairs typed", table, &typed, &here);
    }
    accepted
}

/// The same table without the groups that have one member.
fn several_alone(table: &Table) -> Table {
    let members = |group: u32| table.groups.iter().filter(|&&other| other == group).count();
    Table { groups: table.groups.map(|group| if members(group) > 1 { group } else { 0 }), ..table.clone() }
}

/// The figures of group G once more, without a map: over all K whose group is G.
fn sums(table: &Table) {
    let columns = table.columns();
    for (i, task) in table.used().iter().enumerate() {
        for group in 1..=16 {
            let members = || (0..LOCKS).filter(|&k| table.groups[k] == group).map(|k| task.locks[k]);
            let figures = Lock { n: members().map(|l| l.n).sum(), c: members().map(|l| l.c).max().unwrap_or(0), ct: members().map(|l| l.ct).sum() };
            assert_eq!(columns.get(&Together::Group(group)).map_or(Lock::default(), |column| column[i]), figures, "group {group}");
        }
        for k in (0..LOCKS).filter(|&k| table.groups[k] == 0) {
            assert_eq!(columns[&Together::Alone(k)][i], task.locks[k], "resource {}", k + 1);
        }
    }
}

/// The bounds of a listing with its groups, and without them.
fn bounds<const N: usize>(text: &str) -> [[Option<u64>; N]; 2] {
    let bound = |verdict| if let Verdict::Meets(bound) = verdict { Some(bound) } else { None };
    [text, &cases::without_groups(text)].map(|text| {
        let found = analysis::all(&listing::read(text.as_bytes()).expect("an accepted listing"));
        std::array::from_fn(|i| bound(found[i].verdict))
    })
}

/// A coarser lock makes most bounds larger, and some smaller: it is no promise either way.
fn either_way() {
    let meets = |bounds: [u64; 2]| bounds.map(Some);
    assert_eq!(bounds(cases::COARSER[0]), [meets([3_000, 4_000]), meets([1_000, 4_000])]);
    assert_eq!(bounds(cases::COARSER[1]), [[3_000, 7_000, 6_000], [1_000, 3_000, 6_000]].map(|bounds| bounds.map(Some)));
    assert_eq!(bounds(cases::COARSER_AND_SMALLER[0]), [meets([4_000, 3_000]), meets([3_000, 5_000])]);
    assert_eq!(bounds(cases::COARSER_AND_SMALLER[1]), [[4_000, 1_000, 4_000], [3_000, 1_000, 5_000]].map(|bounds| bounds.map(Some)));
    assert_eq!(bounds(cases::SMALLER), [[4_000, 10_000, 8_000], [4_000, 12_000, 8_000]].map(|bounds| bounds.map(Some)));
    assert_eq!(smaller::find(), smaller::Pair { grouped: cases::COARSER_AND_SMALLER[0].into(), bounds: [5_000, 3_000] });
}

const NO_GROUPS: &str = "no groups";
const SEVERAL: &str = "a task uses several of a group";
const SHARED: &str = "tasks use different ones of a group";
const OF_ONE: &str = "a group of one";
const OF_NOBODY: &str = "a group that nobody uses";
const ALL: &str = "all sixteen in one group";
const SIXTEEN: &str = "sixteen groups";
const ITS_NUMBER: &str = "a group in use with the number of a resource in use that is in none";
const MANY: &str = "more requests of a group than a line can say";
const LARGER: &str = "a bound larger than without groups";
const SMALLER: &str = "a bound smaller than without groups";
const ANOTHER_WAIT: &str = "another wait than without groups";

pub const KINDS: [&str; 12] = [NO_GROUPS, SEVERAL, SHARED, OF_ONE, OF_NOBODY, ALL, SIXTEEN, ITS_NUMBER, MANY, LARGER, SMALLER, ANOTHER_WAIT];

/// What comes up in a checked table.
pub fn kinds(table: &Table) -> BTreeSet<&'static str> {
    if !table.has_groups() {
        return BTreeSet::from([NO_GROUPS]);
    }
    let mut kinds = BTreeSet::new();
    let used = |k: usize| table.used().iter().any(|task| task.locks[k].n > 0);
    let groups: BTreeSet<u32> = table.groups.into_iter().filter(|&group| group > 0).collect();
    for &group in &groups {
        let members: Vec<usize> = (0..LOCKS).filter(|&k| table.groups[k] == group).collect();
        let by_task: BTreeSet<Vec<usize>> = table.used().iter().map(|task| members.iter().copied().filter(|&k| task.locks[k].n > 0).collect()).collect();
        let in_use = members.iter().any(|&k| used(k));
        let its_number = group as usize - 1;
        kinds.extend(by_task.iter().any(|of_task| of_task.len() > 1).then_some(SEVERAL));
        kinds.extend((by_task.iter().filter(|of_task| !of_task.is_empty()).count() > 1).then_some(SHARED));
        kinds.extend((members.len() == 1).then_some(OF_ONE));
        kinds.extend((members.len() == LOCKS).then_some(ALL));
        kinds.extend((!in_use).then_some(OF_NOBODY));
        kinds.extend((in_use && table.groups[its_number] == 0 && used(its_number)).then_some(ITS_NUMBER));
    }
    kinds.extend((groups.len() == LOCKS).then_some(SIXTEEN));
    kinds.extend(table.merged().columns.iter().flatten().any(|lock| lock.n > COUNT).then_some(MANY));
    let (with, without) = (said(table), said(&table.without_groups()));
    let bounds = || with.0.iter().zip(&without.0).map(|(with, without)| (with.bound(), without.bound()));
    kinds.extend(bounds().any(|(with, without)| with > without).then_some(LARGER));
    kinds.extend(bounds().any(|(with, without)| with < without).then_some(SMALLER));
    kinds.extend((with.1 != without.1).then_some(ANOTHER_WAIT));
    kinds
}

/// What some program takes the columns of a table to be.
pub type Merging = fn(&Table) -> Vec<Column>;

/// The bound and the wait of each of four tasks.
type Row = [(u64, u64); 4];

/// Wrong programs, with what they print of four tasks in place of 4,000 and 1,000, 13,000 and 3,000, 14,000 and 0, 15,000 and 0. Where K is in the place of G
/// no two resources are together here.
const WRONG: &[(&str, Merging, Row)] = &[
    ("no groups", apart, [(4_000, 2_000), (9_000, 3_000), (11_000, 1_000), (15_000, 0)]),
    ("a group and the resource of its number", by_number, [(4_000, 0), (15_000, 0), (14_000, 0), (15_000, 0)]),
    ("G and K exchanged", exchanged, [(4_000, 2_000), (9_000, 3_000), (11_000, 1_000), (15_000, 0)]),
    ("c summed", c_summed, [(5_000, 1_000), (13_000, 4_000), (14_000, 0), (15_000, 0)]),
    ("c of the first member", c_of_first, [(3_000, 1_000), (13_000, 2_000), (14_000, 0), (15_000, 0)]),
    ("N the largest", n_largest, [(4_000, 1_000), (13_000, 3_000), (13_000, 0), (15_000, 0)]),
    ("CT the largest", ct_largest, [(4_000, 1_000), (11_000, 3_000), (14_000, 0), (15_000, 0)]),
    ("the first member alone", first_alone, [(3_000, 1_000), (9_000, 2_000), (13_000, 0), (15_000, 0)]),
    ("the last member alone", last_alone, [(4_000, 1_000), (11_000, 3_000), (13_000, 0), (15_000, 0)]),
    ("at the first member that the task uses", first_in_use, [(2_000, 3_000), (5_000, 3_000), (12_000, 0), (15_000, 0)]),
];

fn told_apart() {
    let table = listing::read(cases::MERGED.as_bytes()).expect("an accepted listing");
    let right = row(&table, |table| table.merged().columns);
    assert_eq!(right, [(4_000, 1_000), (13_000, 3_000), (14_000, 0), (15_000, 0)]);
    for (name, merging, printed) in WRONG {
        assert_eq!(row(&table, *merging), *printed, "{name}");
        assert_ne!(right, *printed, "{name}");
    }
    assert_eq!(right.map(|(bound, _)| bound), by_terms(&table, |i| terms_of(&table, i)), "the bounds by the terms");
    assert_eq!(by_terms(&table, |i| ceiling_of_first(&table, i)), [4_000, 5_000, 12_000, 15_000], "the ceiling of the first member");
    assert_eq!(wait::all(&table.without_groups()), [2_000, 3_000, 1_000, 0].map(Some), "the waits of the pairs as typed");
}

fn row(table: &Table, merging: Merging) -> Row {
    let merged = Merged { table, columns: merging(table) };
    std::array::from_fn(|i| (iterate(&merged, i, By::Capped, UNLIMITED).bound(), wait::wait(&merged, i).unwrap_or(0)))
}

/// The columns by some key of a resource, the pairs of each added up in some way, one after another.
fn by<K: Ord>(table: &Table, key: impl Fn(usize) -> K, add: impl Fn(Lock, Lock) -> Lock) -> Vec<Column> {
    let mut all: BTreeMap<K, Column> = BTreeMap::new();
    for k in 0..LOCKS {
        let column = all.entry(key(k)).or_default();
        column.iter_mut().zip(table.used()).for_each(|(pair, task)| *pair = add(*pair, task.locks[k]));
    }
    all.into_values().filter(|column| column.iter().any(|pair| pair.n > 0)).collect()
}

/// As it should be.
fn add(a: Lock, b: Lock) -> Lock {
    Lock { n: a.n + b.n, c: a.c.max(b.c), ct: a.ct + b.ct }
}

pub fn apart(table: &Table) -> Vec<Column> {
    by(table, |k| k, add)
}

fn by_number(table: &Table) -> Vec<Column> {
    by(table, |k| if table.groups[k] > 0 { table.groups[k] } else { k as u32 + 1 }, add)
}

fn exchanged(table: &Table) -> Vec<Column> {
    let mut other = table.without_groups();
    for (k, group) in (1..).zip(table.groups).filter(|(_, group)| *group > 0) {
        other.groups[group as usize - 1] = k;
    }
    other.merged().columns
}

fn c_summed(table: &Table) -> Vec<Column> {
    by(table, |k| table.together(k), |a, b| Lock { c: a.c + b.c, ..add(a, b) })
}

pub fn c_of_first(table: &Table) -> Vec<Column> {
    by(table, |k| table.together(k), |a, b| Lock { c: if a.n > 0 { a.c } else { b.c }, ..add(a, b) })
}

pub fn n_largest(table: &Table) -> Vec<Column> {
    by(table, |k| table.together(k), |a, b| Lock { n: a.n.max(b.n), ..add(a, b) })
}

pub fn ct_largest(table: &Table) -> Vec<Column> {
    by(table, |k| table.together(k), |a, b| Lock { ct: a.ct.max(b.ct), ..add(a, b) })
}

fn first_alone(table: &Table) -> Vec<Column> {
    by(table, |k| table.together(k), |a, b| if a.n > 0 { a } else { b })
}

fn last_alone(table: &Table) -> Vec<Column> {
    by(table, |k| table.together(k), |a, b| if b.n > 0 { b } else { a })
}

/// Each task's pairs are merged, and stand at the first member that this task uses: two tasks that use different members share nothing.
pub fn first_in_use(table: &Table) -> Vec<Column> {
    let mut other = table.without_groups();
    for (task, typed) in other.tasks.iter_mut().zip(table.used()) {
        task.locks = [Lock::default(); LOCKS];
        for k in (0..LOCKS).filter(|&k| typed.locks[k].n > 0) {
            let first = (0..k).find(|&other| typed.locks[other].n > 0 && table.together(other) == table.together(k)).unwrap_or(k);
            task.locks[first] = add(task.locks[first], typed.locks[k]);
        }
    }
    apart(&other)
}

/// The bounds by the demand of each task at each length.
fn by_terms<D: Fn(u64) -> u64>(table: &Table, demand: impl Fn(usize) -> D) -> [u64; 4] {
    std::array::from_fn(|i| replaced(table.tasks[i].c, table.tasks[i].d, UNLIMITED, demand(i)).bound())
}

fn terms_of(table: &Table, i: usize) -> impl Fn(u64) -> u64 + '_ {
    let merged = table.merged();
    move |t| terms(&merged, i, t, workload).demand(&merged, i)
}

/// The ceiling of a group's first member in place of the group's: some of L is left out.
fn ceiling_of_first(table: &Table, i: usize) -> impl Fn(u64) -> u64 + '_ {
    let merged = table.merged();
    let first = |together: Together| (0..LOCKS).find(|&k| table.together(k) == together);
    let above = move |k: usize| table.tasks[..i].iter().any(|task| task.locks[k].n > 0);
    let high: Vec<Column> = table.columns().into_iter().filter(|(together, _)| first(*together).is_some_and(above)).map(|(_, column)| column).collect();
    let units = move |l: usize| high.iter().map(|column| column[l].ct).sum();
    move |t| {
        let l = (i + 1..table.used().len()).map(|l| workload(&table.tasks[l], t, units(l))).sum();
        Terms { l, ..terms(&merged, i, t, workload) }.demand(&merged, i)
    }
}
