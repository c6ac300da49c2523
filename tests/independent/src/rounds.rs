//! Request 6/12, by number: the laws of the rounds and of an allowance of them, and wrong programs, each with a listing that tells it apart.

use crate::analysis::{demand, iterate, quick, replaced, terms, workload, By, Found, Verdict, UNLIMITED};
use crate::merge::Merged;
use crate::report::{self, BENCH, REPORT};
use crate::table::{Table, Task};
use crate::{cases, generate, listing};

/// How many tables are made for the laws.
const TABLES: u64 = 300;
/// Of a task that takes no more rounds than this, they are counted from the definition too, and every allowance is tried.
const FEW: u64 = 50;

/// Stops the comparison if a law fails, or a wrong program is not told apart.
pub fn hold() {
    laws();
    wrong().iter().for_each(told_apart);
}

/// The laws, for every task of many tables; and that among them there is one that takes several rounds and all that there can be.
fn laws() {
    let mut all_there_can_be = 0;
    for table in generate::tables(11, TABLES) {
        let merged = table.merged();
        for (i, task) in table.used().iter().enumerate() {
            let rounds = counted(&merged, i);
            under_allowances(&merged, i, rounds);
            all_there_can_be += (rounds > 1 && rounds == task.d - task.c + 1) as u64;
        }
    }
    assert!(all_there_can_be > 0, "no task takes D - C + 1 rounds");
}

/// The rounds of a task: at most D - C + 1, and as many as the definition counts by the paper's terms. Its lengths go from C on, each the demand
/// at the one before, to the first that repeats that or passes D.
fn counted(merged: &Merged, i: usize) -> u64 {
    let task = &merged.tasks()[i];
    let rounds = iterate(merged, i, By::Capped, UNLIMITED).rounds;
    assert!(rounds <= task.d - task.c + 1, "more rounds than lengths: task {} of\n{}", i + 1, listing::write(merged.table));
    if rounds <= FEW {
        let lengths = || std::iter::successors(Some(task.c), |&t| Some(demand(merged, i, t, By::Capped)));
        let before_last = lengths().zip(lengths().skip(1)).position(|(t, f)| f == t || f > task.d);
        assert_eq!(before_last, Some(rounds as usize - 1), "not the count of the definition: task {} of\n{}", i + 1, listing::write(merged.table));
    }
    rounds
}

/// A task is open exactly if it takes more rounds than are allowed, and then they are those that are allowed. What is not open stays, with its
/// rounds, under every larger allowance.
fn under_allowances(merged: &Merged, i: usize, rounds: u64) {
    let few = if rounds <= FEW { (1..=rounds + 2).collect() } else { vec![1, 2, BENCH, rounds / 2, rounds - 1, rounds, rounds + 1] };
    let rising = [few, vec![REPORT, REPORT + 1, UNLIMITED]].concat();
    let mut decided = None;
    for allowance in rising {
        let found = iterate(merged, i, By::Capped, allowance);
        let at = || format!("an allowance of {allowance}: task {} of\n{}", i + 1, listing::write(merged.table));
        assert_eq!(found.verdict == Verdict::Open, rounds > allowance, "{}", at());
        assert_eq!(found.rounds, rounds.min(allowance), "{}", at());
        if found.verdict != Verdict::Open {
            assert_eq!(*decided.get_or_insert(found), found, "{}", at());
        }
    }
}

/// What some program says of each task under an allowance.
type Program = fn(&Table, u64) -> Vec<Found>;

/// A wrong program, with a listing and an allowance that tell it apart: the one line that it prints there in place of the right one.
struct Wrong {
    name: &'static str,
    program: Program,
    listing: String,
    allowance: u64,
    right: &'static str,
    printed: &'static str,
}

fn wrong() -> Vec<Wrong> {
    let case = |name, program, listing: String, allowance, right, printed| Wrong { name, program, listing, allowance, right, printed };
    let a = || String::from(cases::CASE_A);
    let late = || cases::CASE_A.replace("30 6 30", "30 6 14.499");
    let one = || String::from("cpus 1\ntask 0.001 0.001 0.001\n");
    vec![
        case("the count begins at 1", begins_at_one, one(), REPORT, "1 meets 1 1", "1 meets 1 2"),
        case("the count begins at 1", begins_at_one, one(), 1, "1 meets 1 1", "1 open - 1"),
        case("the last round is not counted", last_not_counted, one(), REPORT, "1 meets 1 1", "1 meets 1 0"),
        case("open where the last round allowed repeats", open_if_repeated, cases::steps(5), BENCH, "2 meets 5 5", "2 open - 5"),
        case("open where the last round allowed passes D", open_if_past, late(), BENCH, "3 misses - 5", "3 open - 5"),
        case("one allowance for all tasks", shared, a(), BENCH, "3 open - 5", "3 open - 2"),
        case("a length past D counts once more", past_d_too, late(), REPORT, "3 misses - 5", "3 misses - 6"),
        case("from C and DB on", from_db, a(), REPORT, "1 meets 3250 2", "1 meets 3250 1"),
        case("a round more than is allowed", one_more, a(), BENCH, "3 open - 5", "3 meets 14500 6"),
        case("a round fewer than is allowed", one_less, cases::steps(5), BENCH, "2 meets 5 5", "2 open - 4"),
        case("open with the rounds that it would take", all_its_rounds, a(), BENCH, "3 open - 5", "3 open - 6"),
        case("a miss where the allowance runs out", out_is_a_miss, a(), BENCH, "3 open - 5", "3 misses - 5"),
        case("a bound where the allowance runs out", out_is_a_bound, a(), BENCH, "3 open - 5", "3 meets 14500 5"),
    ]
}

fn told_apart(wrong: &Wrong) {
    let table = listing::read(wrong.listing.as_bytes()).expect("an accepted listing");
    let right = report::verdicts(&table, wrong.allowance);
    let printed = report::accepted(&(wrong.program)(&table, wrong.allowance));
    let unlike: Vec<(&str, &str)> = right.lines().zip(printed.lines()).filter(|(a, b)| a != b).collect();
    assert_eq!(unlike, [(wrong.right, wrong.printed)], "{} on\n{}", wrong.name, wrong.listing);
}

/// What is said of each task if its rounds are not limited, changed in some way.
fn changed(table: &Table, change: impl Fn(Found) -> Found) -> Vec<Found> {
    quick(table, UNLIMITED).into_iter().map(change).collect()
}

fn begins_at_one(table: &Table, allowance: u64) -> Vec<Found> {
    changed(table, |found| Found { rounds: found.rounds + 1, ..found }.under(allowance))
}

fn last_not_counted(table: &Table, allowance: u64) -> Vec<Found> {
    changed(table, |found| Found { rounds: found.rounds - 1, ..found }.under(allowance))
}

fn open_if_repeated(table: &Table, allowance: u64) -> Vec<Found> {
    changed(table, |found| match found.under(allowance) {
        Found { verdict: Verdict::Meets(_), rounds } if rounds == allowance => Found::open(rounds),
        other => other,
    })
}

fn open_if_past(table: &Table, allowance: u64) -> Vec<Found> {
    changed(table, |found| match found.under(allowance) {
        Found { verdict: Verdict::Misses, rounds } if rounds == allowance => Found::open(rounds),
        other => other,
    })
}

fn shared(table: &Table, allowance: u64) -> Vec<Found> {
    let mut left = allowance;
    let each = quick(table, UNLIMITED).into_iter().map(|found| {
        let found = found.under(left);
        left -= found.rounds;
        found
    });
    each.collect()
}

fn past_d_too(table: &Table, allowance: u64) -> Vec<Found> {
    changed(table, |found| Found { rounds: found.rounds + (found.verdict == Verdict::Misses) as u64, ..found }.under(allowance))
}

fn from_db(table: &Table, allowance: u64) -> Vec<Found> {
    let merged = table.merged();
    let found = |(i, task): (usize, &Task)| {
        let db = terms(&merged, i, task.c, workload).db;
        replaced(task.c + db, task.d, allowance, |t| demand(&merged, i, t, By::Capped))
    };
    table.used().iter().enumerate().map(found).collect()
}

fn one_more(table: &Table, allowance: u64) -> Vec<Found> {
    quick(table, allowance + 1)
}

fn one_less(table: &Table, allowance: u64) -> Vec<Found> {
    quick(table, allowance - 1)
}

fn all_its_rounds(table: &Table, allowance: u64) -> Vec<Found> {
    changed(table, |found| Found { verdict: found.under(allowance).verdict, ..found })
}

/// The tasks that are open get another verdict.
fn run_out(table: &Table, allowance: u64, verdict: impl Fn(usize) -> Verdict) -> Vec<Found> {
    let each = quick(table, allowance).into_iter().enumerate();
    each.map(|(i, found)| if found.verdict == Verdict::Open { Found { verdict: verdict(i), ..found } } else { found }).collect()
}

fn out_is_a_miss(table: &Table, allowance: u64) -> Vec<Found> {
    run_out(table, allowance, |_| Verdict::Misses)
}

/// The length that it has come to.
fn out_is_a_bound(table: &Table, allowance: u64) -> Vec<Found> {
    let merged = table.merged();
    run_out(table, allowance, |i| Verdict::Meets((0..allowance).fold(table.tasks[i].c, |t, _| demand(&merged, i, t, By::Capped))))
}
