//! Holds the programs to this one: on the paper's points, on edge cases, and on many generated listings and tables.

use std::collections::BTreeMap;
use std::fmt;
use std::io::Write;
use std::process::{Child, Command, Output, Stdio};

use crate::analysis::{found_by, quick, By, Found, UNLIMITED};
use crate::programs::Said;
use crate::random::Random;
use crate::report::{self, Program, BENCH, REPORT};
use crate::table::Table;
use crate::{cases, generate, groups, listing, strides, waits};

const VALID: u64 = 1_500;
const DAMAGED: u64 = 2_500;
const LONG_AMONG_SHORT: u64 = 600;
const BROKEN_OFF: u64 = 400;
const MANY_PAIRS: u64 = 200;
const DAMAGED_ALPHA: u64 = 700;
const GROUPED: u64 = 600;
const DAMAGED_GROUPS: u64 = 500;

/// What came up: how many listings or tables were compared, and each answer, of which a table gets several.
pub struct Tally {
    pub compared: u64,
    outcomes: BTreeMap<String, u64>,
}

/// What a program wrote, and how it ended.
pub struct Answer(Output);

/// A program that was started, with all of its input.
struct Started(Child);

fn start(program: &str, input: &[u8]) -> Started {
    let mut command = Command::new(program);
    command.stdin(Stdio::piped()).stdout(Stdio::piped()).stderr(Stdio::piped());
    let mut child = command.spawn().unwrap_or_else(|e| panic!("{program}: {e}"));
    // a program may stop reading early; then the rest cannot be written, and that is no fault
    let _ = child.stdin.take().unwrap().write_all(input);
    Started(child)
}

impl Started {
    fn answer(self) -> Answer {
        Answer(self.0.wait_with_output().unwrap())
    }
}

/// Runs a program, with this on its standard input.
pub fn run(program: &str, input: &[u8]) -> Answer {
    start(program, input).answer()
}

impl Answer {
    /// The expected bytes, nothing on standard error, and exit status 0: a program that crashes once it has written them is wrong.
    pub fn is(&self, expected: impl AsRef<[u8]>) -> bool {
        self.wrote(expected.as_ref(), b"")
    }

    /// The same of a program that refuses on standard error.
    pub fn says(&self, said: &Said) -> bool {
        match said {
            Ok(bytes) => self.wrote(bytes, b""),
            Err(line) => self.wrote(b"", line.as_bytes()),
        }
    }

    /// These bytes on standard output, these on standard error, and exit status 0.
    pub fn wrote(&self, out: &[u8], err: &[u8]) -> bool {
        let Answer(Output { status, stdout, stderr }) = self;
        status.success() && stdout == out && stderr == err
    }

    pub fn output(&self) -> &[u8] {
        &self.0.stdout
    }

    /// What is not its output: standard error, and how it ended.
    pub fn end(&self) -> String {
        let Answer(Output { status, stderr, .. }) = self;
        format!("{}ended with {status}", String::from_utf8_lossy(stderr))
    }
}

impl fmt::Display for Answer {
    fn fmt(&self, f: &mut fmt::Formatter) -> fmt::Result {
        let Answer(Output { status, stdout, stderr }) = self;
        write!(f, "{}", String::from_utf8_lossy(stdout))?;
        if !stderr.is_empty() {
            write!(f, "\non standard error:\n{}", String::from_utf8_lossy(stderr))?;
        }
        write!(f, "\nended with {status}")
    }
}

impl Tally {
    pub fn new() -> Tally {
        Tally { compared: 0, outcomes: BTreeMap::new() }
    }

    pub fn count(&mut self, outcome: String) {
        *self.outcomes.entry(outcome).or_default() += 1;
    }

    pub fn answers(&self) -> u64 {
        self.outcomes.values().sum()
    }

    pub fn print(&self, heading: &str) {
        println!("{heading}");
        for (outcome, times) in &self.outcomes {
            println!("  {outcome}: {times}");
        }
    }

    /// Every outcome that must have come up, did.
    pub fn covers(&self, wanted: &[String]) -> bool {
        let missing: Vec<&String> = wanted.iter().filter(|w| !self.outcomes.contains_key(*w)).collect();
        if !missing.is_empty() {
            println!("never seen: {missing:?}");
        }
        missing.is_empty()
    }
}

fn outcome(text: &str) -> String {
    let mut words = text.split([' ', '\n']);
    match words.next() {
        Some("refused") => format!("refused {:>2}", words.next().unwrap_or("")),
        _ => match (text.contains(" misses "), text.contains(" open ")) {
            (false, false) => "accepted, all meet".into(),
            (true, false) => "accepted, with a miss".into(),
            (false, true) => "accepted, with an open verdict".into(),
            (true, true) => "accepted, with a miss and an open verdict".into(),
        },
    }
}

/// Tasks that take just the rounds that `bench` allows, and those that take one more, by what `report` says of them.
fn count_nearly_open(tally: &mut Tally, reported: &str) {
    for line in reported.lines().skip(1) {
        if let [_, verdict, _, rounds, _] = line.split(' ').collect::<Vec<_>>()[..] {
            match rounds.parse() {
                Ok(BENCH) => tally.count(format!("{verdict}, just in time")),
                Ok(rounds) if rounds == BENCH + 1 => tally.count(format!("open, and {verdict} a round later")),
                _ => (),
            }
        }
    }
}

/// A listing of an accepted table, of which alpha and groups are spelled by other numbers. Verdicts alone would not show that a field was misread here.
fn spelled(r: &mut Random, alphas: &mut Random, table: Table) -> Vec<u8> {
    let mut lines = generate::lines(r, &table);
    generate::put_alpha(alphas, &table, &mut lines);
    generate::put_groups(alphas, &table, &mut lines);
    let listing = generate::join(&lines);
    assert_eq!(listing::read(&listing), Ok(table), "not read as the table it spells");
    listing
}

/// A listing with alpha, and what is said of it damaged, alone or beside something else.
fn damaged_alpha(r: &mut Random) -> Vec<u8> {
    let table = generate::table(r);
    let table = generate::with_alpha(r, table);
    let mut lines = generate::lines(r, &table);
    generate::put_alpha(r, &table, &mut lines);
    for _ in 0..*r.pick(&[0, 1, 1, 1, 2]) {
        generate::damage_alpha(r, &mut lines);
    }
    if r.one_in(4) { generate::damage(r, &mut lines) } else { generate::join(&lines) }
}

/// A listing with groups, and what is said of them damaged, alone or beside something else, with alpha and without.
fn damaged_groups(r: &mut Random) -> Vec<u8> {
    let table = generate::table(r);
    let table = generate::some_with_alpha(r, table);
    let table = generate::with_groups(r, table);
    let mut lines = generate::lines(r, &table);
    generate::put_alpha(r, &table, &mut lines);
    generate::put_groups(r, &table, &mut lines);
    for _ in 0..*r.pick(&[0, 1, 1, 1, 2]) {
        generate::damage_groups(r, &mut lines);
    }
    if r.one_in(5) { generate::damage(r, &mut lines) } else { generate::join(&lines) }
}

/// The listings that are compared, in a fixed order.
pub fn listings() -> Vec<Vec<u8>> {
    let mut all: Vec<Vec<u8>> = cases::listings();
    // alpha has numbers of its own, so that the listings without it stay the same ones
    let (mut r, mut alphas) = (Random::new(1), Random::new(22));
    for _ in 0..VALID {
        let table = generate::some_with_alpha(&mut alphas, generate::table(&mut r));
        all.push(spelled(&mut r, &mut alphas, table));
    }
    for _ in 0..DAMAGED {
        let table = generate::table(&mut r);
        let mut lines = generate::lines(&mut r, &table);
        all.push(generate::damage(&mut r, &mut lines));
    }
    for _ in 0..200 {
        let length = r.within(0, 80);
        all.push((0..length).map(|_| r.next() as u8).collect());
    }
    // numbers of their own, so that the listings before stay the same ones
    let mut r = Random::new(4);
    for _ in 0..LONG_AMONG_SHORT {
        let table = generate::some_with_alpha(&mut alphas, generate::long_among_short(&mut r));
        all.push(spelled(&mut r, &mut alphas, table));
    }
    let mut r = Random::new(12);
    for _ in 0..BROKEN_OFF {
        let table = generate::some_with_alpha(&mut alphas, generate::broken_off(&mut r));
        all.push(spelled(&mut r, &mut alphas, table));
    }
    let mut r = Random::new(23);
    for _ in 0..MANY_PAIRS {
        let table = generate::many_pairs(&mut r);
        all.push(spelled(&mut r, &mut alphas, table));
    }
    all.extend((0..DAMAGED_ALPHA).map(|_| damaged_alpha(&mut r)));
    let (mut r, mut groups) = (Random::new(34), Random::new(35));
    all.extend(groups::tables(36, GROUPED).map(|table| spelled(&mut r, &mut groups, table)));
    all.extend((0..DAMAGED_GROUPS).map(|_| damaged_groups(&mut r)));
    all
}

/// Whether a time of the listing has four to six decimals.
fn traced(listing: &[u8]) -> bool {
    let long = |word: &&[u8]| listing::nanoseconds(word).is_ok() && word.iter().rev().position(|&b| b == b'.').is_some_and(|decimals| decimals > 3);
    listing.split(|&b| b == b'\n').any(|line| {
        let words: Vec<&[u8]> = line.split(|&b| b == b' ').collect();
        match words[0] {
            b"task" => words.iter().skip(1).any(long),
            b"use" => words.iter().skip(3).any(long),
            _ => false,
        }
    })
}

/// Request 3/12: whoever had a bound by the uncapped workload keeps one, no larger. Counts what the cap changes.
fn capped(tally: &mut Tally, table: &Table) -> bool {
    let merged = table.merged();
    let before: Vec<Found> = (0..table.n as usize).map(|i| found_by(&merged, i, By::Uncapped)).collect();
    // the report that was compared has held these to the paper's terms
    let after = quick(table, UNLIMITED);
    let pairs = || before.iter().zip(&after).map(|(old, new)| (old.bound(), new.bound()));
    if let Some(i) = pairs().position(|(old, new)| new > old) {
        let [new, old] = [&after, &before].map(|all| all[i].verdict);
        println!("task {} has a worse verdict by the cap, {new:?} and not {old:?}, in\n{}", i + 1, listing::write(table));
        return false;
    }
    tally.compared += 1;
    let (from_misses, from_bounds): (Vec<_>, Vec<_>) = pairs().filter(|(old, new)| new < old).partition(|(old, _)| *old == u64::MAX);
    if !from_bounds.is_empty() {
        tally.count("a bound is smaller".into());
    }
    if !from_misses.is_empty() {
        tally.count("a miss became a bound".into());
    }
    true
}

/// What came up in the reports: of `report`, of these where a time has more decimals, the cap counts or rounds climb alike, in its waits
/// and groups, and of `bench`.
struct Reports {
    all: Tally,
    with_decimals: Tally,
    by_cap: Tally,
    breaks: Tally,
    waits: Tally,
    groups: Tally,
    by_bench: Tally,
    nearly_open: Tally,
}

impl Reports {
    fn new() -> Reports {
        let [all, with_decimals, by_cap, breaks, waits, groups, by_bench, nearly_open] = std::array::from_fn(|_| Tally::new());
        Reports { all, with_decimals, by_cap, breaks, waits, groups, by_bench, nearly_open }
    }

    fn count(&mut self, listing: &[u8], reported: &str, benched: &str) {
        self.all.compared += 1;
        self.all.count(outcome(reported));
        if traced(listing) {
            self.with_decimals.compared += 1;
            self.with_decimals.count(outcome(reported));
        }
        self.by_bench.compared += 1;
        self.by_bench.count(outcome(benched));
        count_nearly_open(&mut self.nearly_open, reported);
    }

    /// What comes up in an accepted table: what its groups are, what breaks rounds off that climb alike, and what the waits are made of.
    fn count_tasks(&mut self, table: &Table) {
        groups::kinds(table).iter().for_each(|kind| self.groups.count(kind.to_string()));
        let merged = table.merged();
        for i in 0..table.n as usize {
            strides::breaks(&merged, i, REPORT).iter().for_each(|by| self.breaks.count(by.to_string()));
            waits::kinds(&merged, i).iter().for_each(|kind| self.waits.count(kind.to_string()));
        }
    }

    fn print(&self) {
        self.all.print(&format!("reports: {} compared", self.all.compared));
        self.with_decimals.print(&format!("of these, {} have a time of four to six decimals", self.with_decimals.compared));
        self.by_cap.print(&format!("the {} accepted, beside the verdicts by the uncapped workload", self.by_cap.compared));
        self.breaks.print("their tasks whose rounds climb alike, by what breaks these off");
        self.waits.print("their tasks, by what their waits are made of");
        self.groups.print("their tables, by their groups");
        self.by_bench.print(&format!("reports of bench: {} compared", self.by_bench.compared));
        self.nearly_open.print("their tasks that take as many rounds as it allows, or one more");
    }

    fn covered(&self) -> bool {
        let wanted = |refusals: &[u32], accepted: &[&str]| {
            let refused = refusals.iter().map(|k| format!("refused {k:>2}"));
            refused.chain(accepted.iter().map(|how| format!("accepted, {how}"))).collect::<Vec<_>>()
        };
        let every = [1, 2, 3, 4, 5, 6, 7, 8, 9, 17, 18, 19];
        let with_times = [2, 3, 4, 5, 6, 7, 8, 17, 18];
        let decided = ["all meet", "with a miss"];
        let open = ["with an open verdict", "with a miss and an open verdict"];
        let nearly = ["meets, just in time", "misses, just in time", "open, and meets a round later", "open, and misses a round later"];
        // nothing is read of a listing that gets 1, and no time of one that gets 9
        self.all.covers(&wanted(&every, &decided))
            && self.with_decimals.covers(&wanted(&with_times, &decided))
            && self.by_cap.covers(&["a bound is smaller", "a miss became a bound"].map(String::from))
            && self.breaks.covers(&[strides::CLIMB, strides::CAP, strides::BOUND, strides::DEADLINE].map(String::from))
            && self.waits.covers(&waits::KINDS.map(String::from))
            && self.groups.covers(&groups::KINDS.map(String::from))
            && self.by_bench.covers(&wanted(&every, &[decided, open].concat()))
            && self.nearly_open.covers(&nearly.map(String::from))
    }
}

/// Both programs on every listing. They run beside each other and beside the analysis here, which takes less time.
pub fn reports(report: &str, bench: &str) -> bool {
    let mut tallies = Reports::new();
    for listing in listings() {
        let started = [report, bench].map(|program| start(program, &listing));
        let [reported, benched] = report::texts(&listing, [Program::Report, Program::Bench]);
        assert!(!reported.contains(" open "), "more rounds than report allows:\n{}", String::from_utf8_lossy(&listing));
        let [by_report, by_bench] = started.map(Started::answer);
        if !by_report.is(&reported) {
            differs(report, Program::Report, &listing);
            return false;
        }
        if !by_bench.is(&benched) {
            differs(bench, Program::Bench, &listing);
            return false;
        }
        tallies.count(&listing, &reported, &benched);
        if let Ok(table) = listing::read(&listing) {
            tallies.count_tasks(&table);
            if !capped(&mut tallies.by_cap, &table) {
                return false;
            }
        }
    }
    tallies.print();
    tallies.covered()
}

/// Prints a small listing on which the two programs differ: lines are taken out as long as they still do.
fn differs(program: &str, which: Program, listing: &[u8]) {
    let unlike = |bytes: &[u8]| !run(program, bytes).is(report::text(bytes, which));
    let mut small = listing.to_vec();
    let mut shrunk = true;
    while shrunk {
        shrunk = false;
        let lines: Vec<&[u8]> = small.split_inclusive(|&b| b == b'\n').collect();
        for leave in 0..lines.len() {
            let fewer: Vec<u8> = lines.iter().enumerate().filter(|(i, _)| *i != leave).flat_map(|(_, l)| l.iter().copied()).collect();
            if unlike(&fewer) {
                small = fewer;
                shrunk = true;
                break;
            }
        }
    }
    println!("The programs differ on this listing:\n{}", String::from_utf8_lossy(&small));
    println!("here:\n{}", report::text(&small, which));
    println!("{program}:\n{}", run(program, &small));
}
