//! Demand 3 and request 7/12, one result, by number: no task has a worse verdict in a table than in one that is no easier. That is one that is made
//! harder, has longer run times, or both at once.

use crate::analysis::{iterate, By, Found, Verdict, UNLIMITED};
use crate::compare::Tally;
use crate::random::Random;
use crate::table::{Lock, Table, Task};
use crate::{generate, listing};

/// Whether the second of two accepted tables is no easier than the first. All is said of the tasks of the first; the second may have more below them.
pub fn is_no_easier(first: &Table, second: &Table) -> bool {
    no_figure_is_easier(first, second) && no_less_outside_locks(first, second)
}

/// What demand 3 speaks of: no easier, with the same run times.
pub fn is_harder(first: &Table, second: &Table) -> bool {
    is_no_easier(first, second) && same(second, &harder_alone(first, second))
}

/// What request 7/12 speaks of: no easier, with everything but the run times the same.
pub fn is_longer(first: &Table, second: &Table) -> bool {
    is_no_easier(first, second) && same(second, &longer_alone(first, second))
}

/// The conditions on what a listing has: no more processors, no period longer, the same groups, deadlines and pairs in use, and nothing else smaller.
pub fn no_figure_is_easier(first: &Table, second: &Table) -> bool {
    let locks = |a: &Task, b: &Task| a.locks.iter().zip(&b.locks).all(|(a, b)| no_pair_is_easier(a, b));
    let task = |(a, b): (&Task, &Task)| a.t >= b.t && a.c <= b.c && a.d == b.d && locks(a, b);
    first.m >= second.m && first.n <= second.n && first.groups == second.groups && first.used().iter().zip(second.used()).all(task)
}

fn no_pair_is_easier(a: &Lock, b: &Lock) -> bool {
    (a.n > 0) == (b.n > 0) && a.n <= b.n && a.c <= b.c && a.ct <= b.ct
}

/// What follows from these for the merged pairs, which the bounds read.
fn no_merged_pair_is_easier(first: &Table, second: &Table) -> bool {
    let (ours, theirs) = (first.columns(), second.columns());
    ours.keys().eq(theirs.keys())
        && ours.values().zip(theirs.values()).all(|(a, b)| (0..first.n as usize).all(|i| no_pair_is_easier(&a[i], &b[i])))
}

/// The condition that does not follow from these, as CT may grow by more than C: no C less all CT smaller.
pub fn no_less_outside_locks(first: &Table, second: &Table) -> bool {
    first.used().iter().zip(second.used()).all(|(a, b)| a.outside_locks() <= b.outside_locks())
}

/// Demand 3's change alone: the second table with the run times of the first. It need not be accepted.
fn harder_alone(first: &Table, second: &Table) -> Table {
    with_run_times(second, first)
}

/// The run times' change alone: the first table with those of the second. It need not be accepted.
fn longer_alone(first: &Table, second: &Table) -> Table {
    with_run_times(first, second)
}

/// A table with the C and the CT of another's tasks, as far as both have them.
fn with_run_times(table: &Table, other: &Table) -> Table {
    let mut mixed = table.clone();
    for (task, other) in mixed.tasks[..table.n as usize].iter_mut().zip(other.used()) {
        task.c = other.c;
        task.locks.iter_mut().zip(&other.locks).for_each(|(lock, other)| lock.ct = other.ct);
    }
    mixed
}

/// As the paper and request 9/12 have it: processors, n, groups and the first n tasks agree. Alpha is not looked at, since no verdict reads it.
fn same(one: &Table, other: &Table) -> bool {
    let [one, other] = [one, other].map(Table::without_alpha);
    (one.m, one.groups, one.used()) == (other.m, other.groups, other.used())
}

/// Two tables, and what is said of each task of the first: there, and in the second. The rounds are not limited: the first may take more of them, so
/// that under one allowance for both the result would be false.
struct Pair {
    first: Table,
    second: Table,
    said: Vec<(Found, Found)>,
}

impl Pair {
    fn new(first: Table, second: Table, by: By) -> Pair {
        let merged = [&first, &second].map(Table::merged);
        let each = |i| merged.each_ref().map(|merged| iterate(merged, i, by, UNLIMITED)).into();
        let said = (0..first.n as usize).map(each).collect();
        Pair { first, second, said }
    }

    fn has(&self, is: impl Fn(&Found, &Found) -> bool) -> bool {
        self.said.iter().any(|(first, second)| is(first, second))
    }

    /// The result: a task of the first table that has a bound in the second has one in the first, no larger.
    fn no_worse(&self) {
        if let Some(i) = self.said.iter().position(|(first, second)| first.bound() > second.bound()) {
            panic!("task {} has a worse verdict in the first of\n{}", i + 1, shown(&self.first, &self.second));
        }
    }
}

fn shown(first: &Table, second: &Table) -> String {
    [first, second].map(listing::write).join("\n")
}

fn meets(found: &Found) -> bool {
    matches!(found.verdict, Verdict::Meets(_))
}

/// What may come up in a pair, in words, and whether it does.
type Outcome = (&'static str, fn(&Pair) -> bool);

const LARGER: Outcome = ("a bound is larger", |pair| pair.has(|first, second| meets(second) && first.bound() < second.bound()));
const MISSED: Outcome = ("a bound became a miss", |pair| pair.has(|first, second| meets(first) && !meets(second)));
const BY_GROUPS: Outcome = ("a bound is larger, with groups", |pair| pair.first.has_groups() && (LARGER.1)(pair));
const FEWER_ROUNDS: Outcome =
    ("a bound takes fewer rounds", |pair| pair.has(|first, second| meets(first) && meets(second) && first.rounds > second.rounds));
const SMALLER: Outcome = ("a bound is smaller", |pair| pair.has(|first, second| meets(first) && first.bound() > second.bound()));
const MET: Outcome = ("a miss became a bound", |pair| pair.has(|first, second| !meets(first) && meets(second)));
/// Where it comes up, no accepted table has the whole of one change and nothing of the other.
const NEITHER: Outcome = ("neither change alone is accepted", |Pair { first, second, .. }| {
    [harder_alone, longer_alone].iter().all(|alone| alone(first, second).check().is_err())
});

const BOTH_CHANGES: Outcome = ("both changes", both_changes);
const BOTH_LARGER: Outcome = ("both changes, and a bound is larger", |pair| both_changes(pair) && (LARGER.1)(pair));
/// The edge of the condition on C less all CT: it stays as it is, where a total gets longer.
const HELD_SO_MUCH: Outcome = ("a run time is longer by as much as its totals", |Pair { first, second, .. }| {
    first.used().iter().zip(second.used()).any(|(a, b)| a.c < b.c && a.outside_locks() == b.outside_locks())
});

/// Neither demand 3 nor request 7/12 alone speaks of it.
fn both_changes(pair: &Pair) -> bool {
    !is_harder(&pair.first, &pair.second) && !is_longer(&pair.first, &pair.second)
}

/// A kind of pairs: the seeds of the first tables and of the changes, how many pairs are tried, how the second table is made of the first, what it is
/// to the first then, the workload by which both are analysed, and what must come up.
struct Kind {
    name: &'static str,
    seeds: [u64; 2],
    pairs: u64,
    made: fn(&mut Random, &Table) -> Table,
    related: fn(&Table, &Table) -> bool,
    by: By,
    wanted: &'static [Outcome],
}

const HARDER: Kind = Kind {
    name: "tables made harder",
    seeds: [13, 12],
    pairs: 1_500,
    made: generate::harder,
    related: is_harder,
    by: By::Capped,
    wanted: &[LARGER, BY_GROUPS, MISSED, FEWER_ROUNDS],
};

const LONGER: Kind = Kind {
    name: "tables with longer run times",
    seeds: [14, 15],
    pairs: 1_500,
    made: generate::longer,
    related: is_longer,
    by: By::Capped,
    wanted: &[LARGER, BY_GROUPS, MISSED, FEWER_ROUNDS, HELD_SO_MUCH],
};

const BOTH: Kind = Kind {
    name: "tables made harder, with longer run times",
    seeds: [16, 17],
    pairs: 3_000,
    made: generate::no_easier,
    related: is_no_easier,
    by: By::Capped,
    wanted: &[LARGER, BY_GROUPS, MISSED, FEWER_ROUNDS, BOTH_CHANGES, BOTH_LARGER, NEITHER],
};

/// Longer run times but for the condition on C less all CT.
const HELD_LONGER: Kind = Kind {
    name: "tables with longer totals inside the same run times",
    seeds: [18, 19],
    pairs: 1_500,
    made: generate::held_longer,
    related: |first, second| no_figure_is_easier(first, second) && same(second, &longer_alone(first, second)),
    by: By::Capped,
    wanted: &[SMALLER, MET],
};

const BY_THE_PAPER: Kind =
    Kind { name: "tables with longer run times, by the paper's workload", by: By::Uncapped, wanted: &[SMALLER, MET], ..LONGER };

/// Stops the comparison if a task has a worse verdict in a table than in one that is no easier. That this can fail is seen too: some have one without
/// the condition on C less all CT, and some by the paper's workload.
pub fn hold() {
    [HARDER, LONGER, BOTH].iter().for_each(|kind| kind.compare(Pair::no_worse));
    [HELD_LONGER, BY_THE_PAPER].iter().for_each(|kind| kind.compare(|_| ()));
}

impl Kind {
    /// The pair whose first table is this. Both are accepted, and related as the kind says, also where the second has other alphas.
    fn pair(&self, r: &mut Random, alphas: &mut Random, first: Table) -> Pair {
        let made = (self.made)(r, &first);
        assert_eq!(made.check(), Ok(()), "{}: not accepted\n{}", self.name, shown(&first, &made));
        let second = if alphas.one_in(3) { generate::other_alpha(alphas, &made) } else { made };
        assert_eq!([first.check(), second.check()], [Ok(()); 2], "{}: not both accepted\n{}", self.name, shown(&first, &second));
        assert!((self.related)(&first, &second), "{}: not related\n{}", self.name, shown(&first, &second));
        assert!(no_merged_pair_is_easier(&first, &second), "{}: not so merged\n{}", self.name, shown(&first, &second));
        Pair::new(first, second, self.by)
    }

    /// Holds each pair to a law, and counts what comes up.
    fn compare(&self, law: impl Fn(&Pair)) {
        let [tables, changes] = self.seeds;
        let (mut r, mut alphas, mut groups, mut tally) = (Random::new(changes), Random::new(25), Random::new(38), Tally::new());
        for first in generate::tables(tables, self.pairs) {
            let first = generate::some_with_groups(&mut groups, generate::some_with_alpha(&mut alphas, first));
            let pair = self.pair(&mut r, &mut alphas, first);
            law(&pair);
            tally.compared += 1;
            self.wanted.iter().filter(|(_, is)| is(&pair)).for_each(|(what, _)| tally.count(what.to_string()));
        }
        tally.print(&format!("{}: {} compared", self.name, tally.compared));
        assert!(tally.covers(&self.wanted.iter().map(|(what, _)| what.to_string()).collect::<Vec<_>>()));
    }
}
