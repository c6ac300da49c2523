//! Request 9/12: a bound that gets smaller where two locks are taken together, found and not made up. A task above that uses both locks brings in two
//! workloads, of the lock that is shared and of the other, and with the group one, which may be less than both.

use crate::analysis::{quick, Verdict, UNLIMITED};
use crate::{cases, listing};

/// One processor and two tasks, the fewest lines that there is such a listing of: the first uses both locks, the second one. The figures are T, C, D and
/// both totals of task 1, T and C of task 2, and its total, in milliseconds. Each lock is requested once; task 2's deadline is its period.
type Figures = [u64; 8];

/// The listing with its groups, and the bounds of task 2 without and with them.
#[derive(PartialEq, Eq, Debug)]
pub struct Pair {
    pub grouped: String,
    pub bounds: [u64; 2],
}

impl Pair {
    pub fn text(&self) -> String {
        let [without, with] = self.bounds;
        format!("{}\ntask 2, {without} and {with}\n", self.grouped)
    }
}

fn text([t, c, d, first, second, period, run, total]: Figures) -> String {
    let above = format!("task {t} {c} {d}\nuse 1 1 {first} {first}\nuse 2 1 {second} {second}\n");
    format!("cpus 1\ngroup 1 1\ngroup 1 2\n{above}task {period} {run} {period}\nuse 1 1 {total} {total}\n")
}

/// The bounds of both tasks, if both meet.
fn bounds(text: &str) -> Option<[u64; 2]> {
    let table = listing::read(text.as_bytes()).expect("an accepted listing");
    let verdicts: Vec<Verdict> = quick(&table, UNLIMITED).iter().map(|found| found.verdict).collect();
    if let [Verdict::Meets(first), Verdict::Meets(second)] = verdicts[..] { Some([first, second]) } else { None }
}

/// The figures whose longest period is this, in their order.
fn figures(longest: u64) -> impl Iterator<Item = Figures> {
    let above = move || (1..=longest).flat_map(|t| (1..=t).flat_map(move |c| (c..=t).map(move |d| (t, c, d))));
    let locks = |c: u64| (1..c).flat_map(move |first| (1..=c - first).map(move |second| (first, second)));
    let below = move || (1..=longest).flat_map(|t| (1..=t).flat_map(move |c| (1..=c).map(move |total| (t, c, total))));
    let each = move |(t, c, d): (u64, u64, u64)| {
        locks(c).flat_map(move |(first, second)| below().map(move |(period, run, total)| [t, c, d, first, second, period, run, total]))
    };
    above().flat_map(each).filter(move |figures| figures[0] == longest || figures[5] == longest)
}

/// The first listing that there is in which all tasks meet with the groups and without: the shortest periods, then the smallest figures.
pub fn find() -> Pair {
    for grouped in (1..).flat_map(figures).map(text) {
        if let (Some([_, before]), Some([_, after])) = (bounds(&cases::without_groups(&grouped)), bounds(&grouped)) {
            if after < before {
                return Pair { grouped, bounds: [before, after] };
            }
        }
    }
    unreachable!("the figures do not end")
}
