//! The developer's story of request 3/12, found and not made up: one task's code gets shorter, and by the paper's workload another task that met
//! its deadline misses it.

use crate::analysis::{iterate, By, Verdict, UNLIMITED};
use crate::listing;

/// Two processors and three tasks without locks, the fewest that there is such a story of: with one processor, or no more tasks than
/// processors, the cap changes no bound. Each has its period and its run time in milliseconds; its deadline is its period.
type Tasks = [(u64, u64); 3];

fn text(tasks: &Tasks) -> String {
    let lines: String = tasks.iter().map(|(t, c)| format!("task {t} {c} {t}\n")).collect();
    format!("cpus 2\n{lines}")
}

/// The verdict on a task (from 0) by the paper's workload, and by the new one.
fn verdicts(text: &str, i: usize) -> [Verdict; 2] {
    let table = listing::read(text.as_bytes()).expect("an accepted listing");
    [By::Uncapped, By::Capped].map(|by| iterate(&table.merged(), i, by, UNLIMITED).verdict)
}

/// By the paper's workload the task goes from meets to misses; by the new one it meets in both, and its bound does not grow.
fn told(before: &str, after: &str, i: usize) -> bool {
    use Verdict::{Meets, Misses};
    matches!((verdicts(before, i), verdicts(after, i)), ([Meets(_), Meets(long)], [Misses, Meets(short)]) if short <= long)
}

/// The tables whose longest period is this, in the order of their figures.
fn tables(longest: u64) -> impl Iterator<Item = Tasks> {
    let task = move || (1..=longest).flat_map(|t| (1..=t).map(move |c| (t, c)));
    let all = move || task().flat_map(move |a| task().flat_map(move |b| task().map(move |c| [a, b, c])));
    all().filter(move |tasks| tasks.iter().any(|&(t, _)| t == longest))
}

/// The same tasks with one run time made shorter, by as little as can be first; and which task's it was.
fn shortened(tasks: Tasks) -> impl Iterator<Item = (usize, Tasks)> {
    (0..3).flat_map(move |k| (1..tasks[k].1).rev().map(move |c| {
        let mut shorter = tasks;
        shorter[k].1 = c;
        (k, shorter)
    }))
}

/// The listing before and after, of the first story there is: the shortest periods, then the smallest figures.
pub fn find() -> [String; 2] {
    for tasks in (1..).flat_map(tables) {
        let before = text(&tasks);
        for (k, shorter) in shortened(tasks) {
            let after = text(&shorter);
            if (0..3).any(|i| i != k && told(&before, &after, i)) {
                return [before, after];
            }
        }
    }
    unreachable!("the tables do not end")
}
