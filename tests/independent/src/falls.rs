//! Request 7/12: a bound that falls where no figure of the listing does, found and not made up. A task holds its lock for longer and runs no longer, so
//! that its C less all CT shrinks, and the task below it gets a smaller bound. So the condition on C less all CT cannot be left out.

use crate::analysis::{iterate, By, Verdict, UNLIMITED};
use crate::listing;

/// One processor and two tasks, of which the first alone uses a lock, the fewest lines that there is such a pair of: a task's own CT is not in its
/// demand, and the first tasks, as many as there are processors, have no C less all CT of another in theirs. The figures stand as in the listing, T, C
/// and D of task 1, N, c and CT of its lock, T and C of task 2, times in milliseconds. Task 2's period is not in its demand: it is its deadline.
#[derive(Clone, Copy)]
struct Figures {
    above: (u64, u64, u64),
    lock: (u64, u64, u64),
    below: (u64, u64),
}

/// Both listings, and the bounds of task 2 in them.
#[derive(PartialEq, Eq, Debug)]
pub struct Pair {
    pub first: String,
    pub second: String,
    pub bounds: [u64; 2],
}

impl Pair {
    pub fn text(&self) -> String {
        let [first, second] = self.bounds;
        [&self.first, &self.second, &format!("task 2, {first} and {second}\n")].map(String::as_str).join("\n")
    }
}

fn text(figures: &Figures) -> String {
    let Figures { above: (t, c, d), lock: (n, longest, total), below: (period, run) } = figures;
    format!("cpus 1\ntask {t} {c} {d}\nuse 1 {n} {longest} {total}\ntask {period} {run} {period}\n")
}

/// The verdict on task 2.
fn second(text: &str) -> Verdict {
    let table = listing::read(text.as_bytes()).expect("an accepted listing");
    iterate(&table.merged(), 1, By::Capped, UNLIMITED).verdict
}

/// The most that the total can be.
fn most(c: u64, n: u64, longest: u64) -> u64 {
    c.min(n * longest)
}

/// The tables whose longest period is this, in the order of their figures. More requests than C has milliseconds leave every total as it is.
fn tables(longest: u64) -> impl Iterator<Item = Figures> {
    let above = move || (1..=longest).flat_map(|t| (1..=t).flat_map(move |c| (c..=t).map(move |d| (t, c, d))));
    let locks = |c: u64| (1..=c).flat_map(move |n| (1..=c).flat_map(move |long| (long..=most(c, n, long)).map(move |total| (n, long, total))));
    let below = move || (1..=longest).flat_map(|t| (1..=t).map(move |c| (t, c)));
    let all = above().flat_map(move |above| locks(above.1).flat_map(move |lock| below().map(move |below| Figures { above, lock, below })));
    all.filter(move |Figures { above, below, .. }| above.0 == longest || below.0 == longest)
}

/// The same with a longer total, by as little as can be first.
fn longer(figures: Figures) -> impl Iterator<Item = Figures> {
    let (n, longest, total) = figures.lock;
    (total + 1..=most(figures.above.1, n, longest)).map(move |total| Figures { lock: (n, longest, total), ..figures })
}

/// The first pair that there is: the shortest periods, then the smallest figures.
pub fn find() -> Pair {
    for figures in (1..).flat_map(tables) {
        let before = text(&figures);
        let Verdict::Meets(bound) = second(&before) else { continue };
        for after in longer(figures).map(|figures| text(&figures)) {
            match second(&after) {
                Verdict::Meets(smaller) if smaller < bound => return Pair { first: before, second: after, bounds: [bound, smaller] },
                _ => (),
            }
        }
    }
    unreachable!("the tables do not end")
}
