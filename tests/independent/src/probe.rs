//! Tables handed over directly, by way of the program `probe`: the check, one task's bound, rows and outputs of every length, and allowances of
//! about as many rounds as are taken; one task's wait and those of all; the merged pairs. And listings and cards: which table each is read as. And times and counts: what is
//! written of each, into outputs of every length. And damaged cards: what is saved of each, with lists and outputs of many lengths.
//! docs/PROBE.md describes its input.

use std::collections::BTreeSet;

use crate::analysis::{self, Found, Verdict};
use crate::compare::{self, run, Tally};
use crate::programs::refused;
use crate::random::Random;
use crate::report::Program;
use crate::salvage::{salvage, Salvaged};
use crate::table::{Lock, Refusal, Table, TASKS};
use crate::{card, cards, cases, edges, generate, groups, listing, report, salvages, strides, wait};

const TABLES: u64 = 600;
const LONG_AMONG_SHORT: u64 = 100;
const BROKEN_OFF: u64 = 80;
const RAW_ALPHA: u64 = 150;
const MANY_PAIRS: u64 = 40;
const GROUPED: u64 = 90;
const RAW_GROUPS: u64 = 60;
const ROWS: usize = 40;
const OUTPUT: usize = 20_000;
/// What a request has after its first two words: a table, a time, a count, or a listing or a card of as many bytes at most.
const ROOM: usize = 34_000;
/// The most bytes of a damaged card: two words more come before it.
const DAMAGED: usize = ROOM - 8;
/// The list and the output that are lent for a damaged card, or of which the front is lent.
const LIST: usize = 70;
const SAVED: usize = 34_000;
/// Allowances that are enough for every task, or that one of fewer bytes would read as a small one.
const LARGE: [u32; 4] = [1 << 16, 10_000_000, 1 << 31, u32::MAX];

/// What a table, a time, a count, a listing or a card does not fill is not to be looked at.
fn request(entry: u32, argument: u32, bytes: &[u8]) -> Vec<u8> {
    let mut request = [entry, argument].map(u32::to_be_bytes).concat();
    request.extend(bytes);
    request.resize(8 + ROOM, b'%');
    request
}

fn words(table: &Table) -> Vec<u8> {
    let mut words = vec![table.m as u32, (table.n >> 32) as u32, table.n as u32];
    words.extend(table.groups);
    for task in &table.tasks {
        words.extend([task.t, task.c, task.d, task.alpha].map(|figure| figure as u32));
        for lock in &task.locks {
            words.extend([lock.n as u32, lock.c as u32, lock.ct as u32]);
        }
    }
    words.iter().flat_map(|w| w.to_be_bytes()).collect()
}

/// A table, and after it the allowance, if there is one.
fn with_allowance(table: &Table, allowance: Option<u32>) -> Vec<u8> {
    let mut bytes = words(table);
    bytes.extend(allowance.iter().flat_map(|rounds| rounds.to_be_bytes()));
    bytes
}

fn word(verdict: Verdict) -> &'static str {
    match verdict {
        Verdict::Meets(_) => "meets",
        Verdict::Misses => "misses",
        Verdict::Open => "open",
    }
}

fn said(Found { verdict, rounds }: Found) -> String {
    match verdict {
        Verdict::Meets(t) => format!("meets {t} rounds {rounds}\n"),
        other => format!("{} rounds {rounds}\n", word(other)),
    }
}

fn checked(table: &Table) -> String {
    table.check().map_or_else(refused, |()| "fine\n".into())
}

/// A table that is handed over to the analysis; and its refusal, or what is said of each task if the rounds are not limited.
struct Handed {
    table: Table,
    found: Result<Vec<Found>, Refusal>,
}

impl Handed {
    fn new(table: Table) -> Handed {
        let found = table.check().map(|()| analysis::all(&table));
        Handed { table, found }
    }

    /// What is said of the task with this number, if there is one.
    fn task(&self, number: u32) -> Option<Found> {
        let index = (number as usize).checked_sub(1)?;
        self.found.as_ref().ok()?.get(index).copied()
    }

    fn bound(&self, task: u32, allowance: u32) -> String {
        match (&self.found, self.task(task)) {
            (Err(refusal), _) => refused(*refusal),
            (_, None) => refused((10, 0)),
            _ if allowance == 0 => refused((16, 0)),
            (_, Some(found)) => said(analysis::allowed(&self.table.merged(), task as usize - 1, found, allowance as u64)),
        }
    }

    fn row(&self, room: u32, allowance: u32) -> String {
        let mut lines: Vec<String> = (0..ROWS).map(|i| format!("{} meets {i} rounds {}\n", 1000 + i, 2000 + i)).collect();
        let answer = match &self.found {
            Err(refusal) => refused(*refusal),
            Ok(_) if allowance == 0 => refused((16, 0)),
            Ok(found) if (room as usize) < found.len() => refused((11, 0)),
            Ok(found) => {
                let merged = self.table.merged();
                for (i, (line, found)) in lines.iter_mut().zip(found).enumerate() {
                    *line = format!("{} {}", i + 1, said(analysis::allowed(&merged, i, *found, allowance as u64)));
                }
                "fine\n".into()
            }
        };
        answer + &lines.concat()
    }

    /// The answer, and of a table that is not refused each task with its merged pairs, that of a group at the smallest of its members.
    fn merged(&self) -> String {
        let mut lines = checked(&self.table);
        if self.found.is_ok() {
            for task in self.table.one_lock_a_group().used() {
                let pairs = task.locks.iter().flat_map(|lock| [lock.n, lock.c, lock.ct]);
                let numbers: Vec<String> = [task.t, task.c, task.d, task.alpha].into_iter().chain(pairs).map(|x| x.to_string()).collect();
                lines += &(numbers.join(" ") + "\n");
            }
        }
        lines
    }

    fn wait(&self, task: u32) -> String {
        match (&self.found, self.task(task)) {
            (Err(refusal), _) => refused(*refusal),
            (_, None) => refused((10, 0)),
            _ => wait::wait(&self.table.merged(), task as usize - 1).map_or("no alpha\n".into(), |us| format!("wait {us}\n")),
        }
    }

    /// The answer, whether there is alpha, and what stands in each of the slots.
    fn waits(&self) -> String {
        let (answer, waits) = match &self.found {
            Err(refusal) => (refused(*refusal), vec![]),
            Ok(_) => ("fine\n".into(), wait::all(&self.table)),
        };
        let alpha = if waits.iter().any(Option::is_some) { "alpha\n" } else { "no alpha\n" };
        let slots = waits.into_iter().map(|wait| wait.unwrap_or(0)).chain([0; TASKS]).take(TASKS);
        answer + alpha + &slots.map(|wait| format!("{wait}\n")).collect::<String>()
    }

    /// How near the allowance is to what a task takes; or that it is 0 too where another refusal comes first.
    fn near(&self, task: u32, allowance: u32) -> String {
        match (self.task(task), allowance as u64) {
            (None, 0) => ", and the allowance is 0".into(),
            (Some(found), allowance) if allowance == found.rounds => ", just in time".into(),
            (Some(found), allowance) if allowance > 0 && allowance + 1 == found.rounds => format!(", and {} a round later", word(found.verdict)),
            _ => String::new(),
        }
    }

    /// The same of a row: which other refusal there is, or how much of the row is open.
    fn mixed(&self, room: u32, allowance: u32) -> &'static str {
        let Ok(found) = &self.found else {
            return if allowance == 0 { ", and the allowance is 0" } else { "" };
        };
        let short = (room as usize) < found.len();
        let open = found.iter().filter(|found| found.rounds > allowance as u64).count();
        match allowance {
            0 if short => ", and the row is short",
            0 => "",
            _ if short || open == 0 => "",
            _ if open == found.len() => ", all open",
            _ => ", some open",
        }
    }
}

/// Request 6/12, by number: where the allowance stands, what is printed of case A under one, and which refusal comes first.
pub fn hold() {
    let handed = |text: &str| Handed::new(listing::read(text.as_bytes()).expect("an accepted listing"));
    let (a, late) = (handed(cases::CASE_A), handed(&cases::CASE_A.replace("30 6 30", "30 6 14.499")));
    assert_eq!(request(2, 3, &with_allowance(&a.table, Some(5)))[4 * 1685..4 * 1686], [0, 0, 0, 5]);
    assert_eq!([1, 2, 3].map(|task| a.bound(task, 6)), ["meets 3250 rounds 2\n", "meets 4000 rounds 1\n", "meets 14500 rounds 6\n"]);
    assert_eq!([&a, &late].map(|handed| handed.bound(3, 5)), ["open rounds 5\n", "misses rounds 5\n"]);
    assert_eq!([(3, 0), (0, 0), (4, 0), (4, 5)].map(|(task, allowance)| a.bound(task, allowance)), [16, 10, 10, 10].map(|k| refused((k, 0))));
    assert!(a.row(3, 5).starts_with("fine\n1 meets 3250 rounds 2\n2 meets 4000 rounds 1\n3 open rounds 5\n1003 meets 3 rounds 2003\n"));
    for (room, allowance, k) in [(3, 0, 16), (2, 0, 16), (2, 5, 11)] {
        assert!(a.row(room, allowance).starts_with(&(refused((k, 0)) + "1000 meets 0 rounds 2000\n")));
    }
    let none = Handed::new(Table::zero());
    assert_eq!(none.bound(0, 0), refused((9, 0)));
    assert!(none.row(0, 0).starts_with(&refused((9, 0))));
    hold_waits();
    hold_groups();
}

/// Request 8/12: where alpha stands, and what is printed of waits.
fn hold_waits() {
    let handed = |text: &str| Handed::new(listing::read(text.as_bytes()).expect("an accepted listing"));
    let (waiting, without) = (handed(cases::WAITING), handed(&cases::without_alpha(cases::WAITING)));
    let mixed = |alphas: [u64; 3]| {
        let mut table = waiting.table.clone();
        table.tasks.iter_mut().zip(alphas).for_each(|(task, alpha)| task.alpha = alpha);
        Handed::new(table)
    };
    let three = mixed([5, 4, 3]);
    // T, C, D, alpha, and then the first lock: of the tasks one after another
    let word = |at: usize| request(1, 0, &words(&three.table))[4 * at + 3];
    assert_eq!([24, 25, 21 + 52 + 3, 21 + 52 + 3 + 4, 21 + 2 * 52 + 3].map(word), [5, 2, 4, 1, 3]);
    assert_eq!([1, 2, 3].map(|task| waiting.wait(task)), ["wait 2200\n", "wait 400\n", "wait 0\n"]);
    assert_eq!([0, 4, u32::MAX].map(|task| waiting.wait(task)), [refused((10, 0)), refused((10, 0)), refused((10, 0))]);
    assert_eq!([1, 4].map(|task| without.wait(task)), ["no alpha\n".into(), refused((10, 0))]);
    assert_eq!([mixed([2, 0, 2]).wait(0), mixed([2, 3, 3]).wait(9)], [refused((17, 0)), refused((18, 2))]);
    let zeros = "0\n".repeat(32);
    assert_eq!(waiting.waits(), format!("fine\nalpha\n2200\n400\n{}", "0\n".repeat(30)));
    assert_eq!(without.waits(), format!("fine\nno alpha\n{zeros}"));
    assert_eq!(mixed([2, 0, 2]).waits(), format!("refused 17 place 0\nno alpha\n{zeros}"));
}

/// Request 9/12: where the groups stand, what is printed of merged pairs, and where 20 comes.
fn hold_groups() {
    let handed = |text: &str| Handed::new(listing::read(text.as_bytes()).expect("an accepted listing"));
    let grouped = handed(cases::TOGETHER);
    let bytes = request(13, 0, &words(&grouped.table));
    assert_eq!([4, 5, 6, 7, 8, 20, 21].map(|at| u32::from_be_bytes(std::array::from_fn(|i| bytes[4 * at + i]))), [2, 2, 0, 2, 0, 9, 40_000]);
    let line = |times: &str, pairs: &[(usize, &str)]| {
        let pair = |k: usize| pairs.iter().find(|(at, _)| *at == k).map_or("0 0 0", |(_, pair)| pair);
        format!("{times} {}\n", (1..=16).map(pair).collect::<Vec<_>>().join(" "))
    };
    let first = line("40000 9000 40000 0", &[(1, "3 2000 4000"), (2, "1 1000 1000")]);
    let second = line("40000 9000 40000 0", &[(1, "2 1500 3000"), (2, "3 500 1500"), (4, "1 700 700")]);
    assert_eq!(grouped.merged(), format!("fine\n{first}{second}"));
    let mut beyond = grouped.table.clone();
    beyond.groups[8] = 17;
    assert_eq!(Handed::new(beyond.clone()).merged(), "refused 4 place 0\n");
    // 20 comes after the table's own and before 11
    let card = |table: &Table, room: usize| output(table, room, card::archived)[..19].to_vec();
    assert_eq!([0, OUTPUT].map(|room| card(&grouped.table, room)), [b"refused 20 place 0\n"; 2]);
    assert!(card(&beyond, 0).starts_with(b"refused 4 place 0\n"));
    assert!(card(&grouped.table.without_groups(), 0).starts_with(b"refused 11 place 0\n"));
    assert!(card(&grouped.table.without_groups(), OUTPUT).starts_with(b"wrote 1024\n"));
}

/// What is printed of a writer: its answer, or why it has none to give, and then the whole output, of which the first `room` bytes were lent.
fn filled(written: Result<Vec<u8>, String>, room: usize, short: String) -> Vec<u8> {
    let mut bytes = vec![b'#'; OUTPUT];
    let answer = match written {
        Err(refusal) => refusal,
        Ok(written) if room < written.len() => short,
        Ok(written) => {
            bytes[..written.len()].copy_from_slice(&written);
            format!("wrote {}\n", written.len())
        }
    };
    [answer.into_bytes(), bytes].concat()
}

/// A writer of tables, which checks its table first. That its output is short comes after all that it refuses.
type Writer = fn(&Table) -> Result<Vec<u8>, Refusal>;

fn output(table: &Table, room: usize, write: Writer) -> Vec<u8> {
    filled(write(table).map_err(refused), room, refused((11, 0)))
}

fn text(table: &Table) -> Result<Vec<u8>, Refusal> {
    table.check().map(|()| listing::write(table).into_bytes())
}

/// What was read, shown as its text; of what was refused, that its table has no task.
fn read(table: Result<Table, Refusal>) -> Vec<u8> {
    let (answer, table) = match table {
        Ok(table) => ("fine\n".into(), table),
        Err(r) => (refused(r), Table::zero()),
    };
    [answer.into_bytes(), output(&table, OUTPUT, text)].concat()
}

/// What the answer was, without the numbers that differ from table to table.
fn outcome(entry: &str, answer: &[u8]) -> String {
    let first = answer.split(|&b| b == b'\n').next().unwrap_or(b"");
    let first = String::from_utf8_lossy(first);
    let mut words = first.split(' ');
    match words.next() {
        Some("refused") => format!("{entry}: refused {:>2}", words.next().unwrap_or("")),
        Some(word) => format!("{entry}: {word}"),
        None => entry.into(),
    }
}

/// How many bytes a writer is given for a table: too few, just enough, more; of one with groups what it would need without. One that is refused anyway gets
/// any number.
fn space(r: &mut Random, table: &Table, write: Writer) -> u32 {
    let length = write(table).or_else(|_| write(&table.without_groups())).map_or(100, |written| written.len() as u32);
    *r.pick(&[0, length - 1, length, length, length + 1, 20_000])
}

/// A call of an entry point with a table, and with an allowance if it takes one: what is to be printed, and what that is counted as.
struct Call {
    name: &'static str,
    entry: u32,
    argument: u32,
    allowance: Option<u32>,
    expected: Vec<u8>,
    outcome: String,
}

impl Call {
    fn new(name: &'static str, entry: u32, argument: u32, expected: Vec<u8>) -> Call {
        let outcome = outcome(name, &expected);
        Call { name, entry, argument, allowance: None, expected, outcome }
    }

    fn bound(handed: &Handed, task: u32, allowance: u32) -> Call {
        let call = Call::new("bound", 2, task, handed.bound(task, allowance).into_bytes());
        Call { allowance: Some(allowance), outcome: call.outcome + &handed.near(task, allowance), ..call }
    }

    /// The same, counted by whether the allowance breaks off rounds that climb alike.
    fn bound_among(handed: &Handed, task: u32, allowance: u32) -> Call {
        let call = Call::bound(handed, task, allowance);
        let among = strides::breaks(&handed.table.merged(), task as usize - 1, allowance as u64).contains(strides::ALLOWANCE);
        Call { outcome: if among { format!("bound: {}", strides::ALLOWANCE) } else { call.outcome }, ..call }
    }

    /// Counted by whether 11 would come after 20.
    fn card_write(table: &Table, room: u32) -> Call {
        let call = Call::new("card write", 6, room, output(table, room as usize, card::archived));
        let short = card::archived(&table.without_groups()).is_ok_and(|archive| (room as usize) < archive.len());
        let and = if call.outcome.ends_with(" 20") && short { ", and the output is short" } else { "" };
        Call { outcome: call.outcome + and, ..call }
    }

    /// Counted by whether there is something to merge.
    fn merge(handed: &Handed) -> Call {
        let call = Call::new("merge", 13, 0, handed.merged().into_bytes());
        let and = match &handed.found {
            Err(_) => "",
            Ok(_) if handed.table.one_lock_a_group() != handed.table.without_groups() => ", some merged",
            Ok(_) => ", as typed",
        };
        Call { outcome: call.outcome + and, ..call }
    }

    fn analyse(handed: &Handed, room: u32, allowance: u32) -> Call {
        let call = Call::new("analyse", 3, room, handed.row(room, allowance).into_bytes());
        Call { allowance: Some(allowance), outcome: call.outcome + handed.mixed(room, allowance), ..call }
    }

    /// Whether the probe prints that.
    fn alike(&self, program: &str, table: &Table) -> bool {
        let Call { name, entry, argument, allowance, expected, .. } = self;
        let found = run(program, &request(*entry, *argument, &with_allowance(table, *allowance)));
        let same = found.is(expected);
        if !same {
            let allowed = allowance.map_or(String::new(), |rounds| format!(" and the allowance {rounds}"));
            println!("{name} with {argument}{allowed} differs on {table:?}\nhere:\n{}\n{program}:\n{found}", String::from_utf8_lossy(expected));
        }
        same
    }
}

/// The waits as they are asked for: one task's, another's, and all.
fn waits(handed: &Handed, tasks: [u32; 2]) -> Vec<Call> {
    let of_task = |task: u32| {
        let expected = handed.wait(task);
        let outcome = match expected.as_str() {
            "wait 0\n" => "wait: 0".into(),
            "no alpha\n" => "wait: no alpha".into(),
            _ => outcome("wait", expected.as_bytes()),
        };
        Call { outcome, ..Call::new("wait", 10, task, expected.into_bytes()) }
    };
    let mut calls: Vec<Call> = tasks.map(of_task).into();
    let all = Call::new("wait_all", 11, 0, handed.waits().into_bytes());
    let alpha = if handed.found.is_err() { "" } else if handed.table.tasks[0].alpha > 0 { ", alpha" } else { ", no alpha" };
    calls.push(Call { outcome: all.outcome + alpha, ..all });
    calls
}

/// Allowances to ask with: 0, one about as many rounds as some task takes, and one that is far off. Where there is no such task, any one.
fn allowances(r: &mut Random, task: Option<Found>) -> Vec<u32> {
    let large = *r.pick(&LARGE);
    match task.map(|found| found.rounds as u32) {
        None => vec![*r.pick(&[0, 0, 1, large])],
        Some(rounds) => vec![0, *r.pick(&[rounds - 1, rounds, rounds + 1]), *r.pick(&[1, large, large])],
    }
}

/// Every task, and rows that are one short and just long enough, with each allowance that is next to what some task takes, or at an end.
fn every_allowance(listing: String) -> (Table, Vec<Call>) {
    let handed = Handed::new(listing::read(listing.as_bytes()).expect("an accepted listing"));
    let n = handed.table.n as u32;
    let rounds = (1..=n).filter_map(|task| handed.task(task)).map(|found| found.rounds as u32);
    let mut allowances: BTreeSet<u32> = rounds.flat_map(|rounds| [rounds - 1, rounds, rounds + 1]).collect();
    allowances.extend([0, 1, u32::MAX]);
    let mut calls = Vec::new();
    for allowance in allowances {
        calls.extend((0..=n + 1).map(|task| Call::bound(&handed, task, allowance)));
        calls.extend([n - 1, n].map(|room| Call::analyse(&handed, room, allowance)));
    }
    (handed.table, calls)
}

/// Tables about every limit and made by chance, each handed to each entry point with a few arguments.
fn some_of_each() -> impl Iterator<Item = (Table, Vec<Call>)> {
    let mut r = Random::new(2);
    let mut for_cards = Random::new(3);
    let mut tables = edges::tables();
    tables.extend((0..TABLES).map(|_| generate::raw_table(&mut r)));
    let mut for_the_cap = Random::new(6);
    tables.extend((0..LONG_AMONG_SHORT).map(|_| generate::long_among_short(&mut for_the_cap)));
    let mut for_alpha = Random::new(24);
    let mut tables: Vec<Table> = tables.into_iter().map(|table| generate::some_with_alpha(&mut for_alpha, table)).collect();
    tables.extend(edges::alphas().into_iter().map(|(_, table, _)| table));
    tables.extend((0..RAW_ALPHA).map(|_| generate::raw_alpha(&mut for_alpha)));
    tables.extend((0..MANY_PAIRS).map(|_| generate::many_pairs(&mut for_alpha)));
    tables.extend(cases::waits().iter().filter_map(|(text, _)| listing::read(text.as_bytes()).ok()));
    let mut for_groups = Random::new(30);
    tables.extend(edges::groups().into_iter().map(|(_, table, _)| table));
    tables.extend(cases::groups().iter().filter_map(|(text, _)| listing::read(text.as_bytes()).ok()));
    tables.extend(groups::tables(31, GROUPED));
    tables.extend((0..RAW_GROUPS).map(|_| generate::raw_groups(&mut for_groups)));
    let mut for_rounds = Random::new(10);
    let asked = move |table: Table| {
        let n = table.n.min(32) as u32;
        let task = *r.pick(&[0, 1, n / 2 + 1, n, n + 1, u32::MAX]);
        let room = *r.pick(&[0, 1, n.max(1) - 1, n, n, n + 1, 32, 40]);
        let for_text = space(&mut r, &table, text);
        let for_card = space(&mut for_cards, &table, card::archived);
        let mut calls = vec![
            Call::new("check", 1, 0, checked(&table).into_bytes()),
            Call::new("write", 4, for_text, output(&table, for_text as usize, text)),
            Call::card_write(&table, for_card),
        ];
        let handed = Handed::new(table);
        if handed.table.has_groups() || for_groups.one_in(3) {
            calls.push(Call::merge(&handed));
        }
        calls.extend(allowances(&mut for_rounds, handed.task(task)).into_iter().map(|allowance| Call::bound(&handed, task, allowance)));
        let other = handed.task(for_rounds.within(1, n.max(1) as u64) as u32);
        calls.extend(allowances(&mut for_rounds, other).into_iter().map(|allowance| Call::analyse(&handed, room, allowance)));
        if handed.table.tasks.iter().any(|task| task.alpha > 0) || for_alpha.one_in(3) {
            let another = for_alpha.within(1, n.max(1) as u64) as u32;
            calls.extend(waits(&handed, [task, another]));
        }
        (handed.table, calls)
    };
    tables.into_iter().map(asked)
}

/// Tasks of many rounds, with allowances about the first that may be passed over, and among those after it.
fn among_rounds() -> impl Iterator<Item = (Table, Vec<Call>)> {
    let mut r = Random::new(13);
    let tables: Vec<Table> = (0..BROKEN_OFF).map(|_| generate::broken_off(&mut r)).collect();
    let asked = move |table: Table| {
        let handed = Handed::new(table);
        let mut calls = Vec::new();
        for task in 1..=handed.table.n as u32 {
            let rounds = handed.task(task).map_or(0, |found| found.rounds);
            let first = strides::ONE_BY_ONE + 1;
            if rounds > first {
                let among = [(); 3].map(|()| r.within(first, rounds));
                let allowances = [&[first, first + 1], &among[..], &[rounds - 1, rounds]].concat();
                calls.extend(allowances.into_iter().map(|allowance| Call::bound_among(&handed, task, allowance as u32)));
            }
        }
        (handed.table, calls)
    };
    tables.into_iter().map(asked)
}

pub fn compare(program: &str) -> bool {
    let mut tally = Tally::new();
    // a few rounds, and more than two bytes can count
    let by_rounds = cases::rounds().into_iter().chain([cases::no_end(70_000)]).map(every_allowance);
    for (table, calls) in some_of_each().chain(by_rounds).chain(among_rounds()) {
        for call in calls {
            if !call.alike(program, &table) {
                return false;
            }
            tally.count(call.outcome);
        }
        tally.compared += 1;
    }
    tally.print(&format!("tables: {} compared, {} calls", tally.compared, tally.answers()));
    tally.covers(&wanted())
}

/// Each entry point checks its table by itself. Of an allowance of 0 every refusal that comes before it, and the one that comes after.
fn wanted() -> Vec<String> {
    let refusals = |name: &'static str| [4, 5, 7, 8, 9, 17, 18].map(|k| format!("{name}: refused {k:>2}"));
    let mut all: Vec<String> = ["check", "write", "card write", "wait", "wait_all", "merge"].into_iter().flat_map(refusals).collect();
    for refused in ["bound", "analyse"].into_iter().flat_map(refusals).chain(["bound: refused 10".into()]) {
        all.push(format!("{refused}, and the allowance is 0"));
        all.push(refused);
    }
    all.extend(["check: fine", "write: wrote", "write: refused 11", "card write: wrote", "card write: refused 11"].map(String::from));
    all.extend(["meets", "misses", "open", "refused 16", "meets, just in time", "misses, just in time"].map(|answer| format!("bound: {answer}")));
    all.extend(["meets", "misses"].map(|verdict| format!("bound: open, and {verdict} a round later")));
    all.push(format!("bound: {}", strides::ALLOWANCE));
    all.extend(["refused 16, and the row is short", "refused 16", "refused 11"].map(|answer| format!("analyse: {answer}")));
    all.extend(["", ", some open", ", all open"].map(|how| format!("analyse: fine{how}")));
    all.extend(["wait", "0", "no alpha", "refused 10"].map(|answer| format!("wait: {answer}")));
    all.extend(["alpha", "no alpha"].map(|alpha| format!("wait_all: fine, {alpha}")));
    all.extend(["some merged", "as typed"].map(|how| format!("merge: fine, {how}")));
    all.extend(["", ", and the output is short"].map(|and| format!("card write: refused 20{and}")));
    all
}

/// Listings that are read, and the table that each gives written again. A report shows a few bounds; this shows every figure that was read, and of a
/// refused listing that its table has no task.
pub fn readings(program: &str) -> bool {
    let mut tally = Tally::new();
    for listing in compare::listings().iter().filter(|listing| listing.len() <= ROOM) {
        let expected = read(listing::read(listing));
        let found = run(program, &request(5, listing.len() as u32, listing));
        if !found.is(&expected) {
            println!("read differs on\n{}\nhere:\n{}\n{program}:\n{found}", String::from_utf8_lossy(listing), String::from_utf8_lossy(&expected));
            return false;
        }
        tally.compared += 1;
        tally.count(outcome("read", &expected));
    }
    tally.print(&format!("readings: {} compared", tally.compared));
    // 1 needs a longer listing than fits in a request
    let mut wanted: Vec<String> = (2..=9).chain([17, 18, 19]).map(|k| format!("read: refused {k:>2}")).collect();
    wanted.push("read: fine".into());
    tally.covers(&wanted)
}

/// A time into an output of every length up to one byte more than its text needs, and into a long one. The whole part has one to seven digits, the
/// fraction none to three, of which the first ones may be zeros.
pub fn times(program: &str) -> bool {
    let wholes = [0, 2, 9, 10, 62, 99, 100, 999, 1_000, 9_999, 10_000, 99_999, 100_000, 999_999, 1_000_000, 4_294_966];
    let fractions = [0, 1, 5, 9, 10, 50, 99, 100, 205, 500, 900, 990, 999];
    let all = wholes.iter().flat_map(|whole| fractions.map(|fraction| whole * 1_000 + fraction)).chain([u32::MAX]);
    let mut tally = Tally::new();
    for us in all {
        if !put(&mut tally, program, ("put_time", 8), &us.to_be_bytes(), listing::time_text(us as u64)) {
            return false;
        }
    }
    tally.print(&format!("times: {} compared, {} calls", tally.compared, tally.answers()));
    tally.covers(&["put_time: wrote".into(), "put_time: short".into()])
}

/// A count, in the same way: the powers of ten and of two, where its text or its words get longer, and what is next to them.
pub fn counts(program: &str) -> bool {
    let powers = (0..=19).map(|e| 10u64.pow(e)).chain([8, 16, 31, 32, 33, 63].map(|e| 1 << e));
    let mut all: BTreeSet<u64> = powers.flat_map(|x| [x - 1, x, x + 1]).collect();
    all.extend([64, 2_200, 1_234_567_890, 4_650_000_000_000, 9_876_543_210_987_654_321, u64::MAX - 1, u64::MAX]);
    let mut tally = Tally::new();
    for x in all {
        if !put(&mut tally, program, ("put_count", 12), &x.to_be_bytes(), x.to_string()) {
            return false;
        }
    }
    tally.print(&format!("counts: {} compared, {} calls", tally.compared, tally.answers()));
    tally.covers(&["put_count: wrote".into(), "put_count: short".into()])
}

/// Whether an entry point puts this text of a number into every output of a length up to one byte more than that, and into a long one.
fn put(tally: &mut Tally, program: &str, (name, entry): (&str, u32), number: &[u8], text: String) -> bool {
    for room in (0..=text.len() + 1).chain([OUTPUT]) {
        let expected = filled(Ok(text.clone().into_bytes()), room, "short\n".into());
        let found = run(program, &request(entry, room as u32, number));
        if !found.is(&expected) {
            println!("{name} of {text} with an output of {room} bytes differs\nhere:\n{}\n{program}:\n{found}", String::from_utf8_lossy(&expected));
            return false;
        }
        tally.count(outcome(name, &expected));
    }
    tally.compared += 1;
    true
}

/// A refusal of a card with what its place was. A reader that looks at the first block alone gets none right at the second.
fn card_outcome(read: &Result<Table, Refusal>) -> String {
    match read {
        Ok(_) => "card read: fine".into(),
        Err((number, place @ 0..=1)) => format!("card read: refused {number:>2} place {place}"),
        Err((number, _)) => format!("card read: refused {number:>2} place 2 or later"),
    }
}

/// Cards that are read, and the table that each gives written as a listing.
pub fn archives(program: &str) -> bool {
    let mut tally = Tally::new();
    for (name, bytes) in cards::all().into_iter().filter(|(_, bytes)| bytes.len() <= ROOM) {
        let table = card::read(&bytes);
        tally.compared += 1;
        tally.count(card_outcome(&table));
        let expected = read(table);
        let found = run(program, &request(7, bytes.len() as u32, &bytes));
        if !found.is(&expected) {
            println!("card read differs: {name}\n{}here:\n{}\n{program}:\n{found}", cards::dump(&bytes), String::from_utf8_lossy(&expected));
            return false;
        }
    }
    tally.print(&format!("cards: {} compared", tally.compared));
    let later = [4, 5, 7, 13, 14].into_iter().flat_map(|k| ["1", "2 or later"].map(|place| format!("card read: refused {k:>2} place {place}")));
    let first = ["fine", "refused 12 place 0", "refused  4 place 0"].map(|answer| format!("card read: {answer}"));
    tally.covers(&first.into_iter().chain(later).collect::<Vec<_>>()) && longest_card(program)
}

/// The longest archive: written into an output of exactly its length, and refused by one of a byte less.
fn longest_card(program: &str) -> bool {
    let table = cards::full();
    let length = card::write(&table).len();
    let same = |room: &usize| run(program, &request(6, *room as u32, &words(&table))).is(output(&table, *room, card::archived));
    let unlike: Vec<usize> = [length, length - 1].into_iter().filter(|room| !same(room)).collect();
    if unlike.is_empty() {
        println!("the longest archive, {length} bytes, is written");
    } else {
        println!("card write differs on 32 tasks with 16 locks each, with an output of {unlike:?} bytes");
    }
    unlike.is_empty()
}

/// What is lent for a damaged card: the entries of a list, and the bytes of an output.
type Lent = (usize, usize);

/// Lists and outputs that are too short, just long enough, and longer; and an output that has room for the archive, but not for the card.
fn lendings(card: &[u8]) -> Vec<Lent> {
    let (count, length) = (card.len() / card::BLOCK, card.len());
    let archive = salvage(card, LIST, SAVED).archive.map_or(0, |archive| archive.len());
    let lists = BTreeSet::from([0, count.saturating_sub(1), count, count + 1, LIST]);
    let rooms = BTreeSet::from([0, length.saturating_sub(1), length, length + 1, SAVED, archive]);
    lists.iter().flat_map(|entries| rooms.iter().map(|room| (*entries, *room))).collect()
}

/// For a card without a name: one of those that are enough, and for half of the cards any of them as well.
fn some_lendings(r: &mut Random, card: &[u8]) -> Vec<Lent> {
    let all = lendings(card);
    let enough: Vec<Lent> = all.iter().copied().filter(|&(entries, room)| entries * card::BLOCK >= card.len() && room >= card.len()).collect();
    let mut some = vec![*r.pick(&enough)];
    if r.one_in(2) {
        some.push(*r.pick(&all));
    }
    some
}

/// What is printed of a damaged card: the answer, the list, and the output.
fn saved(salvaged: &Salvaged) -> Vec<u8> {
    let mut list = [b'#'; LIST];
    let mut output = vec![b'#'; SAVED];
    for (entry, fate) in list.iter_mut().zip(&salvaged.list) {
        *entry = *fate as u8;
    }
    let answer = match &salvaged.archive {
        Err(refusal) => refused(*refusal),
        Ok(archive) => {
            output[..archive.len()].copy_from_slice(archive);
            format!("wrote {}\n", archive.len())
        }
    };
    [answer.as_bytes(), &list, &output].concat()
}

/// The same for a reader: the list by its numbers, and the output as far as anything was written.
fn saved_text(printed: &[u8]) -> String {
    let line = printed.iter().position(|&b| b == b'\n').map_or(printed.len(), |at| at + 1);
    let (answer, lent) = printed.split_at(line);
    let (list, output) = lent.split_at(LIST.min(lent.len()));
    let written = output.iter().rposition(|&b| b != b'#').map_or(0, |last| last + 1);
    format!("{}the list {list:?}\nthe output {}", String::from_utf8_lossy(answer), cards::dump(&output[..written]))
}

/// Why 11 is given. An output with room for the archive alone is not enough.
fn shortage(card: &[u8], (entries, room): Lent) -> &'static str {
    let archive = salvage(card, LIST, SAVED).archive;
    match (entries * card::BLOCK < card.len(), room < card.len()) {
        (true, false) => "the list is short",
        (true, true) => "both are short",
        _ if archive.is_ok_and(|archive| archive.len() <= room) => "the output is short, but not for the archive",
        _ => "the output is short",
    }
}

/// Whether the probe says this of a damaged card.
fn alike(program: &str, name: &str, card: &[u8], (entries, room): Lent, salvaged: &Salvaged) -> bool {
    let words = [entries, room].map(|word| (word as u32).to_be_bytes()).concat();
    let expected = saved(salvaged);
    let found = run(program, &request(9, card.len() as u32, &[&words, card].concat()));
    let same = found.is(&expected);
    if !same {
        println!("salvage with a list of {entries} entries and an output of {room} bytes differs: {name}\n{}", cards::dump(card));
        println!("here:\n{}\n{program}:\n{}\n{}", saved_text(&expected), saved_text(found.output()), found.end());
    }
    same
}

/// Damaged cards: what is answered, and the whole list and the whole output afterwards.
pub fn salvages(program: &str) -> bool {
    let (mut tally, mut fates) = (Tally::new(), Tally::new());
    let mut r = Random::new(9);
    let named = salvages::named().into_iter().map(|named| (lendings(&named.card), named.name, named.card));
    let fitting = salvages::generated().into_iter().filter(|(_, card)| card.len() <= DAMAGED);
    let others = fitting.map(|(name, card)| (some_lendings(&mut r, &card), name, card));
    for (all, name, card) in named.chain(others) {
        for lent in all {
            let salvaged = salvage(&card, lent.0, lent.1);
            if !alike(program, name, &card, lent, &salvaged) {
                return false;
            }
            let outcome = salvages::outcome(&card, &salvaged.archive);
            tally.count(if outcome == "refused 11" { format!("{outcome}, {}", shortage(&card, lent)) } else { outcome });
            salvages::count_fates(&mut fates, &salvaged.list);
        }
        tally.compared += 1;
    }
    tally.print(&format!("damaged cards: {} compared, {} calls", tally.compared, tally.answers()));
    fates.print("in their lists");
    let short = ["the list is short", "the output is short", "both are short", "the output is short, but not for the archive"];
    let wanted: Vec<String> = salvages::wanted().into_iter().chain(short.map(|why| format!("refused 11, {why}"))).collect();
    tally.covers(&wanted) && fates.covers(&salvages::all_fates())
}

/// No accepted table has a longer text: every pair in use, every resource in a group, each number as long as it can be written. Of 16 totals that a run time of
/// 9999.999 ms holds, nine at most have four digits before the point.
pub fn longest() -> Table {
    let mut table = Table::zero();
    (table.m, table.n, table.groups) = (64, 32, [16; 16]);
    for task in &mut table.tasks {
        (task.t, task.c, task.d, task.alpha) = (9_999_999, 9_999_999, 9_999_999, 64);
        for (k, lock) in task.locks.iter_mut().enumerate() {
            let time = if k < 9 { 1_000_001 } else { 100_001 };
            *lock = Lock { n: 1_000, c: time, ct: time };
        }
    }
    table
}

/// The longest text: written into an output of exactly its length, refused by one of a byte less, and read back.
pub fn longest_text(report: &str, program: &str) -> bool {
    let table = longest();
    let longest = listing::write(&table).into_bytes();
    assert_eq!(listing::read(&longest).as_ref(), Ok(&table), "the longest text is not read back here");
    let written = |room: usize| (run(program, &request(4, room as u32, &words(&table))), output(&table, room, text));
    let read = (run(report, &longest), report::text(&longest, Program::Report).into_bytes());
    for (found, expected) in [written(longest.len()), written(longest.len() - 1), read] {
        if !found.is(&expected) {
            println!("the longest text differs\nhere:\n{}\nthere:\n{found}", String::from_utf8_lossy(&expected));
            return false;
        }
    }
    println!("the longest text, {} bytes, is written and read back", longest.len());
    true
}
