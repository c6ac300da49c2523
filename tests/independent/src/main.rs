//! A second analyser, written from the paper and the change requests and not from the proved one, to hold that to. It shares no line with it.
//!
//!     independent report < LISTING          what `report` is to print
//!     independent bench < LISTING           what `bench` is to print
//!     independent archive < LISTING         what `archive` is to write: the card, or a refusal on standard error
//!     independent unarchive < CARD          what `unarchive` is to write: the listing, or a refusal on standard error
//!     independent salvage < CARD            what `salvage` is to write: the archive, and on standard error the list and the refusal, if it is one
//!     independent times PROGRAM COMMAND INPUT
//!                                           the least time of PROGRAM and of COMMAND of this program on INPUT, in microseconds
//!     independent listings FOLDER           write the benchmark's listings there
//!     independent story                     the smallest story of request 3/12: a listing, an empty line, and the listing with one task made shorter
//!     independent easier                    the smallest pair of request 6/12: a listing, an empty line, a harder listing, an empty line, and the
//!                                           task and the allowance with which the first is open and the second gives a bound
//!     independent falls                     the smallest pair of request 7/12: a listing, an empty line, the listing with a lock held longer inside
//!                                           the same run time, an empty line, and the task whose bound falls, with both bounds
//!     independent smaller                   the smallest listing of request 9/12 whose groups make a bound smaller, and the task, with its bounds without
//!                                           groups and with them
//!     independent compare REPORT BENCH PROBE ARCHIVE UNARCHIVE SALVAGE
//!                                           run them on many listings, tables, times, counts and cards and compare; exit 1 on a difference
//!     independent simulate REPORT           simulate many schedules of systems in which all tasks meet by what REPORT prints; exit 1 on a job that is
//!                                           later than its bound, 2 on bad input
//!     independent closeness REPORT SYSTEMS SEED PAGE PICTURE
//!                                           the same of so many systems from a seed, and write a page and a picture on how close to the bounds they come

mod analysis;
mod cap;
mod card;
mod cards;
mod cases;
mod compare;
mod easier;
mod edges;
mod falls;
mod generate;
mod groups;
mod listing;
mod measure;
mod merge;
mod no_easier;
mod points;
mod probe;
mod programs;
mod random;
mod reads;
mod report;
mod rounds;
mod salvage;
mod salvages;
mod simulation;
mod smaller;
mod story;
mod strides;
mod table;
mod wait;
mod waits;

use programs::{Both, Said};
use report::Program;
use std::io::{Read, Write};
use std::process::ExitCode;

fn main() -> ExitCode {
    let words: Vec<String> = std::env::args_os().skip(1).map(|word| word.to_string_lossy().into_owned()).collect();
    let words: Vec<&str> = words.iter().map(String::as_str).collect();
    match words[..] {
        ["report"] => say(Ok(report::quick(&input(), Program::Report).into_bytes())),
        ["bench"] => say(Ok(report::quick(&input(), Program::Bench).into_bytes())),
        ["archive"] => say(programs::archive(&input())),
        ["unarchive"] => say(programs::unarchive(&input())),
        ["salvage"] => say_both(programs::salvage(&input())),
        ["times", program, command, path] => {
            measure::times(program, command, path);
            ExitCode::SUCCESS
        }
        ["listings", folder] => {
            for (name, text) in cases::benchmark() {
                std::fs::write(format!("{folder}/{name}"), text).expect("a folder to write to");
            }
            ExitCode::SUCCESS
        }
        ["story"] => {
            print!("{}", story::find().join("\n"));
            ExitCode::SUCCESS
        }
        ["easier"] => {
            print!("{}", easier::find().text());
            ExitCode::SUCCESS
        }
        ["falls"] => {
            print!("{}", falls::find().text());
            ExitCode::SUCCESS
        }
        ["smaller"] => {
            print!("{}", smaller::find().text());
            ExitCode::SUCCESS
        }
        ["compare", report, bench, probe, archive, unarchive, salvage] => {
            points::hold();
            let same = compare::reports(report, bench)
                && probe::readings(probe)
                && probe::compare(probe)
                && probe::longest_text(report, probe)
                && probe::times(probe)
                && probe::counts(probe)
                && probe::archives(probe)
                && probe::salvages(probe)
                && programs::compare(archive, unarchive, salvage);
            if same {
                ExitCode::SUCCESS
            } else {
                ExitCode::FAILURE
            }
        }
        ["simulate", ref words @ ..] => simulation::simulate(words),
        ["closeness", ref words @ ..] => simulation::closeness(words),
        _ => {
            eprintln!("usage: independent report | bench | archive | unarchive | salvage | times PROGRAM COMMAND INPUT | listings FOLDER |");
            eprintln!("       story | easier | falls | smaller | compare REPORT BENCH PROBE ARCHIVE UNARCHIVE SALVAGE |");
            eprintln!("       simulate REPORT | closeness REPORT SYSTEMS SEED PAGE PICTURE");
            ExitCode::FAILURE
        }
    }
}

fn input() -> Vec<u8> {
    let mut bytes = Vec::new();
    std::io::stdin().read_to_end(&mut bytes).expect("standard input");
    bytes
}

/// The exit status says nothing of a refusal: the proved programs have none to give.
fn say(said: Said) -> ExitCode {
    match said {
        Ok(bytes) => say_both((bytes, String::new())),
        Err(line) => say_both((vec![], line)),
    }
}

fn say_both((out, err): Both) -> ExitCode {
    std::io::stdout().write_all(&out).expect("standard output");
    std::io::stderr().write_all(err.as_bytes()).expect("standard error");
    ExitCode::SUCCESS
}
