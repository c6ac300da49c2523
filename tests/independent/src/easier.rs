//! Request 6/12: an easier table that takes more rounds than a harder one, found and not made up. So demand 3 cannot speak of verdicts under an
//! allowance: here the harder table gets a bound, and the easier one is open.

use crate::analysis::{iterate, By, Found, Verdict, UNLIMITED};
use crate::listing;

/// One processor and two tasks without locks, the fewest lines that there is such a pair of: without locks the demand of the first tasks, as many as
/// there are processors, is C at every length. Each has its period, run time and deadline in milliseconds. Only a shorter period of task 1
/// makes it harder for task 2.
type Tasks = [(u64, u64, u64); 2];

/// The easier listing, the harder one, and the task and the allowance under which the one is open and the other gives a bound.
#[derive(PartialEq, Eq, Debug)]
pub struct Pair {
    pub easier: String,
    pub harder: String,
    pub task: u64,
    pub allowance: u64,
}

impl Pair {
    pub fn text(&self) -> String {
        [&self.easier, &self.harder, &format!("task {}, allowance {}\n", self.task, self.allowance)].map(String::as_str).join("\n")
    }
}

fn text(tasks: &Tasks) -> String {
    let lines: String = tasks.iter().map(|(t, c, d)| format!("task {t} {c} {d}\n")).collect();
    format!("cpus 1\n{lines}")
}

/// What is said of task 2 if its rounds are not limited.
fn second(text: &str) -> Found {
    let table = listing::read(text.as_bytes()).expect("an accepted listing");
    iterate(&table.merged(), 1, By::Capped, UNLIMITED)
}

/// The tables whose longest period is this, in the order of their figures. Task 2's own period is not in its demand: it is its deadline.
fn tables(longest: u64) -> impl Iterator<Item = Tasks> {
    let above = move || (1..=longest).flat_map(|t| (1..=t).flat_map(move |c| (c..=t).map(move |d| (t, c, d))));
    let below = move || (1..=longest).flat_map(|t| (1..=t).map(move |c| (t, c, t)));
    above().flat_map(move |a| below().map(move |b| [a, b])).filter(move |tasks| tasks.iter().any(|&(t, _, _)| t == longest))
}

/// The same with task 1's period made shorter, by as little as can be first.
fn harder([(t, c, d), below]: Tasks) -> impl Iterator<Item = Tasks> {
    (d..t).rev().map(move |shorter| [(shorter, c, d), below])
}

/// The first pair that there is: the shortest periods, then the smallest figures.
pub fn find() -> Pair {
    for tasks in (1..).flat_map(tables) {
        let easier = text(&tasks);
        let rounds = second(&easier).rounds;
        for harder in harder(tasks).map(|tasks| text(&tasks)) {
            let hard = second(&harder);
            if matches!(hard.verdict, Verdict::Meets(_)) && hard.rounds < rounds {
                return Pair { easier, harder, task: 2, allowance: hard.rounds };
            }
        }
    }
    unreachable!("the tables do not end")
}
