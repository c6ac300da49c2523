//! The page for people on how close observed response times come to the bounds.

use super::closeness::{Class, CLIMBS, STEPS};
use super::search::Tried;

const QUANTILES: [usize; 5] = [10, 25, 50, 75, 90];

/// The page, with the name of its picture.
pub fn text(tried: &Tried, seed: u64, classes: &[Class], picture: &str) -> String {
    let [drawn, searched, schedules, jobs] = [tried.drawn, tried.searched, tried.count.schedules, tried.count.jobs].map(grouped);
    let skipped = grouped(tried.drawn - tried.searched);
    let rows: String = classes.iter().map(row).collect();
    let heads: String = QUANTILES.iter().map(|hundredths| format!(" {hundredths} % |")).collect();
    let rule = "---:|".repeat(QUANTILES.len());
    let systems = tried.searched;
    format!(
        "# The bounds beside simulated schedules

No job was observed to take longer than the bound that `report` prints of its task: {searched} systems in which every task meets, {schedules} schedules, {jobs} jobs.

`measure/schedules {systems} {seed}` writes this page and its picture again, with the same figures.

## What was simulated

Systems of 1 to 4 processors and 2 to 8 tasks, with up to four locks, drawn at random: some of any kind, some in which a certain term of the demand is likely to count. Times are
small and periods about as short as lets every task meet, so that much happens at once. {drawn} were drawn; {skipped} of them were skipped, since `report` did not say `meets` of every
task.

The model is that of the report HURRAY-TR-090908, sections II and III-A, but that a job which waits does not count among the m of the highest priority (condition 1 of \"Job blocking\"); who
runs is Algorithm 1 of its section IV, with line 11 always true:

- the jobs of a task are released at least T apart and run one at a time; none exceeds C, N, c or CT, and many stay below them; requests are anywhere in a job;
- the m ready jobs of the highest effective priority run; a job that waits for a lock gives its processor up and takes no place among them;
- the holder of a lock inherits the highest priority that waits for it, and keeps the lock when it is preempted;
- a free lock is taken by the highest job that is scheduled and asks for it, or is handed to the highest that waits: both were simulated;
- what happens at one instant happens in several orders: arrivals before or after ends, the lowest task first or the highest, or as drawn;
- there are no overheads, no jitter and no self-suspension, and locks are not nested.

Each task was the target of {CLIMBS} climbs. A climb starts from jobs that are drawn around a release of its target, and tries {STEPS} changes: of releases, of lengths, of where
requests stand, of the order of events, of the way in which a lock is granted. A change is kept if the target's largest response time does not fall. Every job of every task, in
every schedule on the way, was held to the bound of its task.

## How close

Observed is the largest response time that this search found, and not the largest that there is. Where it is below the bound, the bound may be larger than it need be, or the
search may have missed a later schedule; these figures do not tell which.

The table has observed / bound, task by task: its mean, and the values that 10, 25, 50, 75 and 90 of a hundred tasks do not pass. 'With locks' are the tasks in whose bound a lock
counts: DB or S is not 0, or, of a task past the m-th, O or L. Without locks the bound of a task up to the m-th is its C.

| class | tasks | observed = bound | mean |{heads}
|---|---:|---:|---:|{rule}
{rows}
![For each class, how many tasks come how close to their bounds]({picture})

Each curve says how many tasks of a class come at least so close; where it ends, on the right, both are equal.
"
    )
}

fn row(class: &Class) -> String {
    if class.quotients.is_empty() {
        return format!("| {} | 0 | – | – |{}\n", class.name, " – |".repeat(QUANTILES.len()));
    }
    let quantiles: String = QUANTILES.iter().map(|&hundredths| format!(" {:.2} |", class.quantile(hundredths))).collect();
    format!("| {} | {} | {:.1} % | {:.2} |{quantiles}\n", class.name, grouped(class.quotients.len() as u64), 100.0 * class.reaching(1.0), class.mean())
}

/// A number with a comma before each three digits.
pub fn grouped(number: u64) -> String {
    if number < 1_000 { number.to_string() } else { format!("{},{:03}", grouped(number / 1_000), number % 1_000) }
}
