//! How close the largest response time that was observed of a task comes to its bound, for many tasks, by class.

use super::printed::Report;
use super::search::{self, System, Tried};
use super::{page, picture, Stop};
use crate::analysis::{terms, workload};
use std::path::Path;

/// Each task of each system is the target of so many climbs of so many steps.
pub const CLIMBS: u64 = 2;
pub const STEPS: u64 = 250;

/// Tasks of one kind.
pub struct Class {
    pub name: &'static str,
    /// Observed divided by bound, of each task, from the smallest to the largest.
    pub quotients: Vec<f64>,
}

/// In the order of `place`.
const CLASSES: [&str; 4] = ["i ≤ m, without locks", "i ≤ m, with locks", "i > m, without locks", "i > m, with locks"];

/// Where a task's class stands: by its number, and by whether a lock counts in its demand at its bound.
fn place(System { table, bounds, .. }: &System, task: usize) -> usize {
    let terms = terms(&table.merged(), task, bounds[task], workload);
    let long = task as u64 >= table.m;
    let by_locks = terms.db + terms.s + if long { terms.o + terms.l } else { 0 };
    2 * long as usize + (by_locks > 0) as usize
}

/// Simulates, and writes a page and its picture. Nothing is written if a job is later than its bound.
pub fn write(report: &str, systems: &str, seed: &str, page: &str, picture: &str) -> Result<(), Stop> {
    let systems = number(systems)?;
    let seed = number(seed)?;
    [page, picture].into_iter().try_for_each(can_be_written)?;
    let (tried, classes) = observe(&Report::new(report)?, systems, seed)?;
    let name = Path::new(picture).file_name().map_or(picture.into(), |name| name.to_string_lossy());
    put(picture, &picture::text(&classes))?;
    put(page, &page::text(&tried, seed, &classes, &name))?;
    println!("{} systems, {} schedules, {} jobs, none later than its bound", tried.searched, tried.count.schedules, tried.count.jobs);
    Ok(())
}

fn number(word: &str) -> Result<u64, Stop> {
    let bad = || Stop::BadInput(format!("{word}: not a whole number from 1 on"));
    word.parse().ok().filter(|&number| number > 0).ok_or_else(bad)
}

/// Asked before the simulation, which takes minutes.
fn can_be_written(path: &str) -> Result<(), Stop> {
    let folder = Path::new(path).parent().filter(|folder| *folder != Path::new("")).unwrap_or(Path::new("."));
    let fault = match (folder.is_dir(), Path::new(path).is_dir()) {
        (false, _) => "no such folder",
        (_, true) => "a folder",
        _ => return Ok(()),
    };
    Err(Stop::BadInput(format!("{path}: {fault}")))
}

fn put(path: &str, text: &str) -> Result<(), Stop> {
    std::fs::write(path, text).map_err(|e| Stop::BadInput(format!("{path}: {e}")))
}

fn observe(report: &Report, systems: u64, seed: u64) -> Result<(Tried, [Class; 4]), Stop> {
    let mut classes = CLASSES.map(|name| Class { name, quotients: Vec::new() });
    let tried = search::random(report, seed, systems as usize, |r, system, search| {
        search::climb_to_each(r, search, CLIMBS, STEPS)?;
        for (task, (&observed, &bound)) in search.largest.iter().zip(&system.bounds).enumerate() {
            classes[place(system, task)].quotients.push(observed as f64 / bound as f64);
        }
        Ok(())
    })?;
    classes.iter_mut().for_each(|class| class.quotients.sort_by(f64::total_cmp));
    Ok((tried, classes))
}

impl Class {
    /// The share of the tasks whose quotient is at least this. None is above 1, so that at 1 both are equal.
    pub fn reaching(&self, quotient: f64) -> f64 {
        let below = self.quotients.partition_point(|&other| other < quotient);
        (self.quotients.len() - below) as f64 / self.quotients.len() as f64
    }

    pub fn mean(&self) -> f64 {
        self.quotients.iter().sum::<f64>() / self.quotients.len() as f64
    }

    /// The quotient that so many hundredths of the tasks do not pass.
    pub fn quantile(&self, hundredths: usize) -> f64 {
        let last = self.quotients.len() - 1;
        self.quotients[last * hundredths / 100]
    }
}
