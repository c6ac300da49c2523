//! For each fact of the model of Theorem 1 a run, or jobs, made by hand, in which that fact alone is broken: it is found, by its name.

use super::facts::{self, Does};
use super::generated::{self, Broken, ModelJob, Unit};
use crate::table::{Lock, Table, Task};

/// A run drawn as text, one job for each task, the highest first.
struct Picture {
    /// What is found.
    broken: &'static [&'static str],
    m: u64,
    tasks: &'static [Drawn],
}

/// When the job is released, its units, and what the task does at each instant from 0 on: `r` runs; `R` runs and holds a lock; `h` holds one and does
/// not run; `a` has asked for one in vain; `.` none of these. So are runs drawn in crates/schedules/specs/Picture.antt.
type Drawn = (u64, &'static str, &'static str);

/// The run that Shown.antt beside it draws, without its idle end: nothing is broken.
const SHOWN: Picture =
    Picture { broken: &[], m: 2, tasks: &[(0, "|-|1", "raaaR.."), (1, "|---", ".rrr..."), (1, "|---", "....rrr"), (0, "|-|111|-", "rRRR.r.")] };

const RUNS: [Picture; 10] = [
    Picture { broken: &["runs_pending at 0 us, task 1"], m: 1, tasks: &[(1, "|-", "r.")] },
    Picture { broken: &["runs_locked at 0 us, task 1"], m: 1, tasks: &[(0, "|1", "r.")] },
    Picture { broken: &["conserves at 0 us, task 1"], m: 1, tasks: &[(0, "|-", ".r")] },
    Picture { broken: &["one_holder at 0 us, task 1", "one_holder at 0 us, task 2"], m: 2, tasks: &[(0, "|1", "R."), (0, "|1", "R.")] },
    Picture { broken: &["holds_pending at 0 us, task 1"], m: 1, tasks: &[(1, "|1", "hR")] },
    Picture { broken: &["holds_lock at 0 us, task 1"], m: 1, tasks: &[(0, "|-", "R.")] },
    // a holder that is preempted loses its lock; and so does one that is preempted as it goes on to the next unit of its request
    Picture { broken: &["keeps at 2 us, task 2"], m: 1, tasks: &[(1, "|--", ".rr."), (0, "|11", "RhaR")] },
    Picture { broken: &["goes_on at 1 us, task 2"], m: 1, tasks: &[(1, "|-", ".r."), (0, "|11", "RaR")] },
    // the second has asked for the third's lock, and takes that back while the first runs
    Picture { broken: &["asked_on at 2 us, task 2"], m: 1, tasks: &[(2, "|-", "..r.."), (1, "|1", ".a.aR"), (0, "|111", "RRhR.")] },
    // the first and the second have asked for the third's lock, and the second gets it
    Picture { broken: &["not_past at 2 us, task 2"], m: 1, tasks: &[(1, "|1", ".aaR"), (1, "|1", ".aR."), (0, "|11", "RR..")] },
];

/// Jobs of a task with T and C 10, and of lock 1 N 2, c 3 and CT 5: when each is released, and its units. Of these nothing is broken.
const WITHIN: &[(u64, &str)] = &[(0, "|111|-----|11"), (10, "|1")];

/// And what is found of these. The last resource is the 16th.
const JOBS: [(&str, &[(u64, &str)]); 9] = [
    ("apart at 9 us, task 1", &[(0, "|-"), (9, "|-")]),
    ("some at 0 us, task 1", &[(0, "")]),
    ("run at 0 us, task 1", &[(0, "|-----------")]),
    ("known at 0 us, task 1", &[(0, "|h")]),
    ("count at 0 us, task 1", &[(0, "|1|1|1")]),
    ("longest at 0 us, task 1", &[(0, "|1111")]),
    ("total at 0 us, task 1", &[(0, "|111|111")]),
    ("first at 0 us, task 1", &[(0, "--")]),
    ("same at 0 us, task 1", &[(0, "|-1")]),
];

/// How many facts about the kernel and about jobs there are, if each is found where it alone is broken.
pub fn hold() -> (usize, usize) {
    SHOWN.hold();
    RUNS.iter().for_each(Picture::hold);
    assert_eq!(found_in(WITHIN), [""; 0], "{WITHIN:?}");
    JOBS.iter().for_each(|(broken, jobs)| assert_eq!(found_in(jobs), [*broken], "{jobs:?}"));
    (RUNS.len(), JOBS.len())
}

fn found_in(jobs: &[(u64, &str)]) -> Vec<String> {
    let mut table = Table { m: 1, n: 1, ..Table::zero() };
    table.tasks[0] = Task { t: 10, c: 10, d: 10, ..Task::default() };
    table.tasks[0].locks[0] = Lock { n: 2, c: 3, ct: 5 };
    told(&generated::broken(&table, &vec![jobs_of(jobs)]))
}

fn told(broken: &[Broken]) -> Vec<String> {
    broken.iter().map(Broken::to_string).collect()
}

impl Picture {
    fn hold(&self) {
        let jobs = self.tasks.iter().map(|&(release, units, _)| jobs_of(&[(release, units)])).collect();
        let at = |instant: usize| self.tasks.iter().map(|(_, _, doing)| does(doing.as_bytes()[instant])).collect();
        let instants: Vec<Vec<Does>> = (0..self.tasks[0].2.len()).map(at).collect();
        assert_eq!(told(&facts::in_instants(self.m, &jobs, &instants).broken), self.broken, "{:?}", self.tasks);
    }
}

fn does(letter: u8) -> Does {
    let holds = b"Rh".contains(&letter);
    Does { runs: b"rR".contains(&letter), holds, asked: holds || letter == b'a' }
}

fn jobs_of(drawn: &[(u64, &str)]) -> Vec<ModelJob> {
    drawn.iter().map(|&(release, text)| ModelJob { release, units: units(text) }).collect()
}

/// A unit is `-`, or the number of its resource, with letters after 9; a stretch starts with the one after `|`.
fn units(text: &str) -> Vec<Unit> {
    let mut units = Vec::new();
    let mut starts = false;
    for letter in text.chars() {
        if letter != '|' {
            units.push(Unit { lock: letter.to_digit(36).unwrap_or(0) as u8, starts });
        }
        starts = letter == '|';
    }
    units
}
