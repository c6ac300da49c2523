//! The text that the programs `report` and `bench` are to print.

use crate::analysis::{self, Found, Verdict};
use crate::table::{Refusal, Table};
use crate::{listing, wait};

/// The rounds that each program allows. No task takes more than `report` allows, which so never says `open`.
pub const REPORT: u64 = 10_000_000;
pub const BENCH: u64 = 5;

/// A program that prints a report. `report` alone has the column of the waits.
#[derive(Clone, Copy)]
pub enum Program {
    Report,
    Bench,
}

impl Program {
    fn allowance(self) -> u64 {
        match self {
            Program::Report => REPORT,
            Program::Bench => BENCH,
        }
    }

    /// What it prints of a checked table of which this was found under its allowance.
    fn accepted(self, table: &Table, all: &[Found]) -> String {
        match self {
            Program::Report => with_waits(all, &wait::all(table)),
            Program::Bench => accepted(all),
        }
    }
}

/// What is to be printed of a listing by each of these programs; the analysis is done once for all of them.
pub fn texts<const N: usize>(bytes: &[u8], programs: [Program; N]) -> [String; N] {
    let read = listing::read(bytes).map(|table| (analysis::all(&table), table));
    programs.map(|program| match &read {
        Err(refusal) => refused(*refusal),
        Ok((found, table)) => program.accepted(table, &under(table, found, program.allowance())),
    })
}

pub fn text(bytes: &[u8], program: Program) -> String {
    texts(bytes, [program]).concat()
}

/// The same by the iteration alone: what the benchmark runs.
pub fn quick(bytes: &[u8], program: Program) -> String {
    let accepted = |table: Table| program.accepted(&table, &analysis::quick(&table, program.allowance()));
    listing::read(bytes).map_or_else(refused, accepted)
}

/// The four columns of the verdicts on a checked table under an allowance.
pub fn verdicts(table: &Table, allowance: u64) -> String {
    accepted(&under(table, &analysis::all(table), allowance))
}

/// What is found under an allowance, of what was found without one.
fn under(table: &Table, found: &[Found], allowance: u64) -> Vec<Found> {
    let merged = table.merged();
    found.iter().enumerate().map(|(i, found)| analysis::allowed(&merged, i, *found, allowance)).collect()
}

pub fn refused((number, place): Refusal) -> String {
    format!("refused {number} line {place}\n")
}

/// The same columns, of what was found.
pub fn accepted(all: &[Found]) -> String {
    let mut text = String::from("task verdict bound_us rounds\n");
    for (number, Found { verdict, rounds }) in (1..).zip(all) {
        let said = match verdict {
            Verdict::Meets(t) => format!("meets {t}"),
            Verdict::Misses => "misses -".into(),
            Verdict::Open => "open -".into(),
        };
        text.push_str(&format!("{number} {said} {rounds}\n"));
    }
    text
}

/// The same and, as a fifth one, the waits.
fn with_waits(all: &[Found], waits: &[Option<u64>]) -> String {
    let of_tasks = waits.iter().map(|wait| wait.map_or("-".into(), |us| us.to_string()));
    let column = std::iter::once("wait_us".into()).chain(of_tasks);
    accepted(all).lines().zip(column).map(|(row, wait): (&str, String)| format!("{row} {wait}\n")).collect()
}
