//! The bounds that the program `report` prints, read from its text. No copy of the analysis takes its place.

use super::Stop;
use crate::{cases, compare};
use std::process::{Command, Stdio};

/// A program that was seen to report on case A.
pub struct Report<'a> {
    path: &'a str,
}

impl Report<'_> {
    pub fn new(path: &str) -> Result<Report<'_>, Stop> {
        let mut command = Command::new(path);
        command.stdin(Stdio::null()).stdout(Stdio::null()).stderr(Stdio::null());
        command.status().map_err(|e| Stop::BadInput(format!("{path}: {e}")))?;
        let report = Report { path };
        match report.printed(cases::CASE_A) {
            Some(bounds) if bounds == [Some(3_250), Some(4_000), Some(14_500)] => Ok(report),
            _ => Err(Stop::BadInput(format!("{path}: no report on case A"))),
        }
    }

    /// The bound of each task, none for one that misses.
    pub fn bounds(&self, listing: &str) -> Result<Vec<Option<u64>>, Stop> {
        self.printed(listing).ok_or_else(|| Stop::BadInput(format!("{}: no report on {listing:?}", self.path)))
    }

    /// The same if all meet.
    pub fn all_meet(&self, listing: &str) -> Result<Option<Vec<u64>>, Stop> {
        self.bounds(listing).map(|bounds| bounds.into_iter().collect())
    }

    fn printed(&self, listing: &str) -> Option<Vec<Option<u64>>> {
        let answer = compare::run(self.path, listing.as_bytes());
        let text = std::str::from_utf8(answer.output()).ok()?;
        let rows = text.strip_prefix("task verdict bound_us rounds wait_us\n")?;
        let bounds: Vec<Option<u64>> = (1..).zip(rows.lines()).map(|(number, row)| bound(number, row)).collect::<Option<_>>()?;
        let tasks = listing.lines().filter(|line| line.starts_with("task ")).count();
        (bounds.len() == tasks).then_some(bounds)
    }
}

/// The bound in the row of a task, none if it misses; nothing at all if it is not such a row.
fn bound(number: u64, row: &str) -> Option<Option<u64>> {
    let words: Vec<&str> = row.split(' ').collect();
    match words[..] {
        [task, "meets", bound, _, _] if task.parse() == Ok(number) => bound.parse().ok().map(Some),
        [task, "misses", "-", _, _] if task.parse() == Ok(number) => Some(None),
        _ => None,
    }
}
