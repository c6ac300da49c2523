//! Whether the printed bounds are bounds, tried against schedules: a simulator of global fixed-priority scheduling with priority inheritance, written
//! from the report's sections II, III-A and IV, which knows nothing of workloads.

mod audit;
mod broken;
mod change;
mod climb;
mod closeness;
mod draw;
mod facts;
mod generated;
mod jobs;
mod kernel;
mod page;
mod picture;
mod pins;
mod printed;
mod replays;
mod scenario;
mod search;
mod spoiled;
mod systems;
mod wrong;

use crate::random::Random;
use climb::{Count, Search};
use printed::Report;
use scenario::Late;
use search::{System, Tried};
use std::process::ExitCode;

const SEED: u64 = 1;
const SYSTEMS: usize = 6_000;
const GROUPED: usize = 1_000;
/// Climbs in each system, and the steps of each.
const CLIMBS: u64 = 3;
const STEPS: u64 = 150;

/// Why a run ends before its end.
pub enum Stop {
    /// One line that says what is wrong with the words of the command.
    BadInput(String),
    /// The report of a job that is later than its bound.
    Late(String),
}

/// Exits 1 on a job that is later than its bound, 2 on bad input.
pub fn simulate(words: &[&str]) -> ExitCode {
    let tried = match words {
        [report] => try_all(report),
        _ => Err(Stop::BadInput("usage: independent simulate REPORT".into())),
    };
    ended(tried)
}

/// The same exit statuses; if there is no such job, a page and its picture are written.
pub fn closeness(words: &[&str]) -> ExitCode {
    let written = match words {
        [report, systems, seed, page, picture] => closeness::write(report, systems, seed, page, picture),
        _ => Err(Stop::BadInput("usage: independent closeness REPORT SYSTEMS SEED PAGE PICTURE".into())),
    };
    ended(written)
}

fn ended(result: Result<(), Stop>) -> ExitCode {
    match result {
        Ok(()) => ExitCode::SUCCESS,
        Err(Stop::Late(text)) => {
            print!("{text}");
            ExitCode::FAILURE
        }
        Err(Stop::BadInput(line)) => {
            eprintln!("{line}");
            ExitCode::from(2)
        }
    }
}

fn try_all(path: &str) -> Result<(), Stop> {
    let report = Report::new(path)?;
    println!("schedules by hand: {} as worked out on paper, {} replayed as told", pins::hold(), replays::hold(&report)?);
    let (spoiled, in_fact) = spoiled::hold();
    println!("schedules spoiled on purpose: {spoiled} found out by the audit, {in_fact} of them by a fact of the proved model too");
    let (kernel, jobs) = broken::hold();
    println!("facts of the proved model broken on purpose, each alone: {kernel} about the kernel and {jobs} about jobs found by name");
    println!("wrong analyses refuted, each by a job that is later than its bound");
    for wrong in &wrong::ALL {
        let (systems, count) = wrong.refuted(&report)?;
        println!("  {}: by schedule {}, in system {systems}", wrong.name, count.schedules);
    }
    let chosen = search::meeting(&report, systems::chosen());
    say("chosen", &search::through(chosen, SEED, |r, _, search| search::climb_to_each(r, search, CLIMBS, STEPS))?);
    say("random", &search::random(&report, SEED, SYSTEMS, some_climbs)?);
    say("random grouped", &search::grouped(&report, SEED, GROUPED, some_climbs)?);
    Ok(())
}

fn say(kind: &str, Tried { drawn, searched, count }: &Tried) {
    let Count { schedules, jobs, held, instants, looked_at } = count;
    println!("{kind} systems in which all tasks meet: {searched} searched, of {drawn}");
    println!("  {schedules} schedules, {jobs} jobs, none later than its bound");
    println!("  {held} of the schedules held to the facts of the proved model: {instants} instants, {looked_at} looked at, the others like them");
}

/// Towards a later finish of tasks that are picked at random, of those that others can delay if there are any.
fn some_climbs(r: &mut Random, system: &System, search: &mut Search) -> Result<(), Box<Late>> {
    let delayed = system.delayed();
    for _ in 0..CLIMBS {
        let target = if delayed.is_empty() { 0 } else { *r.pick(&delayed) };
        search.climb(r, target, STEPS)?;
    }
    Ok(())
}
