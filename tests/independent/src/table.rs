//! A task table, and the check of a table that is handed over directly. Written from the paper's section 'Refusals by number' and requests
//! 8/12 and 9/12.

pub const CPUS: u64 = 64;
pub const TASKS: usize = 32;
pub const LOCKS: usize = 16;
pub const TIME: u64 = 10_000_000;
pub const COUNT: u64 = 1_000;
pub const ALPHA: u64 = 64;
pub const GROUPS: u32 = 16;
pub const BYTES: usize = 65_536;

#[derive(Clone, Copy, Default, PartialEq, Eq, Debug)]
pub struct Lock {
    pub n: u64,
    pub c: u64,
    pub ct: u64,
}

#[derive(Clone, Copy, Default, PartialEq, Eq, Debug)]
pub struct Task {
    pub t: u64,
    pub c: u64,
    pub d: u64,
    /// 0 for none.
    pub alpha: u64,
    pub locks: [Lock; LOCKS],
}

/// `n` and the slots may hold anything: a table that is handed over is checked.
#[derive(Clone, PartialEq, Eq, Debug)]
pub struct Table {
    pub m: u64,
    pub n: u64,
    /// The group of each resource, 0 for none.
    pub groups: [u32; LOCKS],
    pub tasks: [Task; TASKS],
}

/// A refusal: its number and its place.
pub type Refusal = (u32, u32);

impl Table {
    pub fn zero() -> Table {
        Table { m: 0, n: 0, groups: [0; LOCKS], tasks: [Task::default(); TASKS] }
    }

    /// The tasks in use, of a table that was checked.
    pub fn used(&self) -> &[Task] {
        &self.tasks[..self.n as usize]
    }

    /// The same table with alpha for none of its tasks.
    pub fn without_alpha(&self) -> Table {
        let mut table = self.clone();
        table.tasks.iter_mut().for_each(|task| task.alpha = 0);
        table
    }

    /// Whether some resource has a group, be it used or not.
    pub fn has_groups(&self) -> bool {
        self.groups != [0; LOCKS]
    }

    /// The same table with no resource in a group.
    pub fn without_groups(&self) -> Table {
        Table { groups: [0; LOCKS], ..self.clone() }
    }

    pub fn check(&self) -> Result<(), Refusal> {
        if self.n == 0 {
            return Err((9, 0));
        }
        if self.n > TASKS as u64 {
            return Err((8, 0));
        }
        if !(1..=CPUS).contains(&self.m) {
            return Err((4, 0));
        }
        if self.groups.iter().any(|&group| group > GROUPS) {
            return Err((4, 0));
        }
        let (with, without): (Vec<&Task>, Vec<&Task>) = self.used().iter().partition(|task| task.alpha > 0);
        if !with.is_empty() && !without.is_empty() {
            return Err((17, 0));
        }
        for (index, task) in self.used().iter().enumerate() {
            task.check(last_alpha(&self.tasks[..index])).map_err(|number| (number, index as u32 + 1))?;
        }
        Ok(())
    }
}

/// The alpha of the last of these tasks that has one.
pub fn last_alpha(tasks: &[Task]) -> Option<u64> {
    tasks.iter().rev().map(|task| task.alpha).find(|alpha| *alpha > 0)
}

impl Task {
    /// What a checked task runs outside of its locks: C less all CT.
    pub fn outside_locks(&self) -> u64 {
        self.c - self.locks.iter().map(|lock| lock.ct).sum::<u64>()
    }

    /// The tasks before may have an alpha, which this one's is not to be above.
    fn check(&self, before: Option<u64>) -> Result<(), u32> {
        for time in [self.t, self.c, self.d] {
            if !(1..=TIME).contains(&time) {
                return Err(4);
            }
        }
        if self.alpha > ALPHA {
            return Err(4);
        }
        if before.is_some_and(|before| self.alpha > before) {
            return Err(18);
        }
        if self.c > self.d || self.d > self.t {
            return Err(5);
        }
        let mut sum = 0;
        for lock in &self.locks {
            if lock.n == 0 {
                if lock.c != 0 || lock.ct != 0 {
                    return Err(4);
                }
                continue;
            }
            if lock.n > COUNT || !(1..=TIME).contains(&lock.c) || !(1..=TIME).contains(&lock.ct) {
                return Err(4);
            }
            sum += lock.ct;
            if lock.ct < lock.c || lock.ct > lock.n * lock.c || sum > self.c {
                return Err(7);
            }
        }
        Ok(())
    }
}
