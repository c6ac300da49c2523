//! Which tasks a bound reads, in README's words ('What is presumed'), by number: the periods and deadlines of the others may change, and so may every run
//! time below and every alpha, and neither the verdict on a task nor its rounds do.

use crate::analysis::{iterate, By, Found, UNLIMITED};
use crate::compare::Tally;
use crate::merge::Merged;
use crate::random::Random;
use crate::table::{Table, Task, TIME};
use crate::{generate, listing};

const TABLES: u64 = 1_500;

/// Whether the bound of the task at `i` (from 0) reads the task at `l`: of i ≤ m the higher tasks that share a lock with it; of i > m all higher tasks, and
/// those below that use a lock whose ceiling is above i. A group is one lock.
fn reads(merged: &Merged, i: usize, l: usize) -> bool {
    let past_processors = i as u64 >= merged.table.m;
    let shares = || merged.used_by(i).any(|column| column[l].n > 0);
    let lifted = || merged.used_by(l).any(|column| column[..i].iter().any(|higher| higher.n > 0));
    if l < i { past_processors || shares() } else { past_processors && l > i && lifted() }
}

/// Stops the comparison if a verdict or its rounds change with what is not read. That they can change is seen too, with what is read.
pub fn hold() {
    let (mut r, mut alphas, mut groups, mut tally) = (Random::new(21), Random::new(26), Random::new(39), Tally::new());
    for table in generate::tables(20, TABLES) {
        let table = generate::some_with_groups(&mut groups, generate::some_with_alpha(&mut alphas, table));
        let merged = table.merged();
        let with_other_alpha = generate::other_alpha(&mut alphas, &table);
        tally.compared += 1;
        for i in 0..table.n as usize {
            let (read, not_read): (Vec<usize>, Vec<usize>) = (0..table.n as usize).filter(|&l| l != i).partition(|&l| reads(&merged, i, l));
            let below: Vec<usize> = (i + 1..table.n as usize).collect();
            unchanged(&mut tally, "other times where not read", &table, i, &with(&mut r, &table, &not_read, other_times));
            unchanged(&mut tally, "other run times below", &table, i, &with(&mut r, &table, &below, other_run));
            unchanged(&mut tally, "another alpha", &table, i, &with_other_alpha);
            if found(&table, i) != found(&with(&mut r, &table, &read, other_times), i) {
                tally.count("other times where read, and another verdict or other rounds".into());
            }
        }
    }
    tally.print(&format!("what a bound reads: {} tables tried", tally.compared));
    assert!(tally.covers(&["other times where read, and another verdict or other rounds", "another alpha, and all the same"].map(String::from)));
}

fn unchanged(tally: &mut Tally, what: &str, table: &Table, i: usize, other: &Table) {
    if table == other {
        return;
    }
    assert_eq!(found(table, i), found(other, i), "{what}: task {} of\n{}\n{}", i + 1, listing::write(table), listing::write(other));
    tally.count(format!("{what}, and all the same"));
}

fn found(table: &Table, i: usize) -> Found {
    iterate(&table.merged(), i, By::Capped, UNLIMITED)
}

/// The table with some of its tasks changed. It is accepted again.
fn with(r: &mut Random, table: &Table, tasks: &[usize], change: fn(&mut Random, &mut Task)) -> Table {
    let mut other = table.clone();
    tasks.iter().for_each(|&l| change(r, &mut other.tasks[l]));
    assert_eq!(other.check(), Ok(()), "{}", listing::write(&other));
    other
}

fn other_times(r: &mut Random, task: &mut Task) {
    task.t = r.within(task.c, (2 * task.t).min(TIME));
    task.d = r.within(task.c, task.t);
}

/// Another C with the same lock times.
fn other_run(r: &mut Random, task: &mut Task) {
    let held = task.c - task.outside_locks();
    task.c = r.within(held.max(1), task.d);
}
