//! Request 9/12: for the analysis a group is one resource. What the bounds and the waits read of a table: its pairs, merged by a map from who is locked
//! together.

use std::collections::BTreeMap;

use crate::table::{Lock, Table, Task, LOCKS, TASKS};

/// A group, or a resource (from 0) by itself. So a resource without a group is never taken for the group of its number.
#[derive(Clone, Copy, PartialEq, Eq, PartialOrd, Ord, Debug)]
pub enum Together {
    Group(u32),
    Alone(usize),
}

/// Of a group, or of a resource by itself: the pair of each task. The number of requests may be above what a line can say.
pub type Column = [Lock; TASKS];

/// A checked table, and the columns of it that some task uses. In which order they stand makes no difference.
pub struct Merged<'a> {
    pub table: &'a Table,
    pub columns: Vec<Column>,
}

impl Table {
    /// With whom the resource at `k` (from 0) is locked.
    pub fn together(&self, k: usize) -> Together {
        match self.groups[k] {
            0 => Together::Alone(k),
            group => Together::Group(group),
        }
    }

    /// The columns of a checked table: N and CT are sums over the members, c is the largest.
    pub fn columns(&self) -> BTreeMap<Together, Column> {
        let mut all: BTreeMap<Together, Column> = BTreeMap::new();
        for k in 0..LOCKS {
            let column = all.entry(self.together(k)).or_default();
            for (merged, task) in column.iter_mut().zip(self.used()) {
                let Lock { n, c, ct } = task.locks[k];
                *merged = Lock { n: merged.n + n, c: merged.c.max(c), ct: merged.ct + ct };
            }
        }
        all
    }

    pub fn merged(&self) -> Merged<'_> {
        let columns = self.columns().into_values().filter(|column| column.iter().any(|lock| lock.n > 0)).collect();
        Merged { table: self, columns }
    }

    /// The merged pairs in the slots of resources, for those who can show them in no other way: that of a group stands at the smallest of its members,
    /// and nothing at the others. What is made so has no groups, and need not be accepted.
    pub fn one_lock_a_group(&self) -> Table {
        let columns = self.columns();
        let mut table = self.without_groups();
        for k in 0..LOCKS {
            let together = self.together(k);
            let first = (0..k).all(|other| self.together(other) != together);
            for (i, task) in table.tasks[..self.n as usize].iter_mut().enumerate() {
                task.locks[k] = if first { columns[&together][i] } else { Lock::default() };
            }
        }
        table
    }
}

impl Merged<'_> {
    pub fn tasks(&self) -> &[Task] {
        self.table.used()
    }

    /// The columns that the task at `i` (from 0) uses.
    pub fn used_by(&self, i: usize) -> impl Iterator<Item = &Column> {
        self.columns.iter().filter(move |column| column[i].n > 0)
    }
}
