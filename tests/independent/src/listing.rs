//! A listing to a table and back. Written from the paper's section 'The listing' and requests 1/12, 8/12 and 9/12.

use crate::table::{last_alpha, Lock, Refusal, Table, Task, ALPHA, BYTES, COUNT, CPUS, GROUPS, LOCKS, TASKS, TIME};
use Round::{Down, Up};

/// Which way a time goes to the whole microsecond.
#[derive(Clone, Copy)]
pub enum Round {
    Down,
    Up,
}

pub fn read(bytes: &[u8]) -> Result<Table, Refusal> {
    if bytes.len() > BYTES {
        return Err((1, 0));
    }
    if bytes.is_empty() {
        return Err((2, 1));
    }
    let mut reader = Reader { table: Table::zero(), last_grouped: 0, after_task: false, last: 0, sum: 0 };
    let mut rest = bytes;
    let mut line = 1;
    while !rest.is_empty() {
        let Some(end) = rest.iter().position(|&b| b == b'\n') else {
            return Err((2, line));
        };
        reader.line(line, &rest[..end]).map_err(|number| (number, line))?;
        rest = &rest[end + 1..];
        line += 1;
    }
    if reader.table.n == 0 {
        return Err((9, 2));
    }
    let given = reader.table.used().iter().filter(|task| task.alpha > 0).count();
    if given > 0 && given < reader.table.used().len() {
        return Err((17, 0));
    }
    Ok(reader.table)
}

struct Reader {
    table: Table,
    /// The K of the group line before, 0 if there is none.
    last_grouped: u64,
    /// Whether the line before is a task's.
    after_task: bool,
    last: u64,
    sum: u64,
}

impl Reader {
    fn line(&mut self, line: u32, text: &[u8]) -> Result<(), u32> {
        let words: Vec<&[u8]> = text.split(|&b| b == b' ').collect();
        if words.iter().any(|w| w.is_empty()) {
            return Err(2);
        }
        match (words[0], words.len()) {
            (b"cpus", 2) if line == 1 => self.cpus(words[1]),
            // the first line is `cpus`, or the reading has ended there
            (b"group", 3) if line > 1 && self.table.n == 0 => self.group(words[1], words[2]),
            (b"task", 4) if line > 1 => self.task(words[1], words[2], words[3]),
            (b"alpha", 2) if self.after_task => self.alpha(words[1]),
            (b"use", 5) if self.table.n > 0 => self.lock(&words[1..]),
            _ => Err(2),
        }?;
        self.after_task = words[0] == b"task";
        Ok(())
    }

    fn cpus(&mut self, m: &[u8]) -> Result<(), u32> {
        self.table.m = ranged(count(m)?, CPUS)?;
        Ok(())
    }

    fn group(&mut self, g: &[u8], k: &[u8]) -> Result<(), u32> {
        let (g, k) = (count(g)?, count(k)?);
        ranged(g, GROUPS as u64)?;
        ranged(k, LOCKS as u64)?;
        if k <= self.last_grouped {
            return Err(19);
        }
        self.last_grouped = k;
        self.table.groups[k as usize - 1] = g as u32;
        Ok(())
    }

    fn task(&mut self, t: &[u8], c: &[u8], d: &[u8]) -> Result<(), u32> {
        let (t, c, d) = (time(t, Down)?, time(c, Up)?, time(d, Down)?);
        if self.table.n == TASKS as u64 {
            return Err(8);
        }
        for x in [t, c, d] {
            ranged(x, TIME)?;
        }
        if c > d || d > t {
            return Err(5);
        }
        self.table.tasks[self.table.n as usize] = Task { t, c, d, ..Task::default() };
        self.table.n += 1;
        (self.last, self.sum) = (0, 0);
        Ok(())
    }

    fn alpha(&mut self, a: &[u8]) -> Result<(), u32> {
        let a = ranged(count(a)?, ALPHA)?;
        let index = self.table.n as usize - 1;
        if last_alpha(&self.table.tasks[..index]).is_some_and(|before| a > before) {
            return Err(18);
        }
        self.table.tasks[index].alpha = a;
        Ok(())
    }

    fn lock(&mut self, words: &[&[u8]]) -> Result<(), u32> {
        let (k, n, c, ct) = (count(words[0])?, count(words[1])?, time(words[2], Up)?, time(words[3], Up)?);
        ranged(k, LOCKS as u64)?;
        ranged(n, COUNT)?;
        ranged(c, TIME)?;
        ranged(ct, TIME)?;
        if k <= self.last {
            return Err(6);
        }
        let task = &mut self.table.tasks[self.table.n as usize - 1];
        self.sum += ct;
        if ct < c || ct > n * c || self.sum > task.c {
            return Err(7);
        }
        self.last = k;
        task.locks[k as usize - 1] = Lock { n, c, ct };
        Ok(())
    }
}

fn ranged(x: u64, most: u64) -> Result<u64, u32> {
    if (1..=most).contains(&x) { Ok(x) } else { Err(4) }
}

fn digits(text: &[u8], most: usize) -> Result<u64, u32> {
    if text.is_empty() || text.len() > most || !text.iter().all(u8::is_ascii_digit) {
        return Err(3);
    }
    Ok(std::str::from_utf8(text).unwrap().parse().unwrap())
}

pub fn count(text: &[u8]) -> Result<u64, u32> {
    digits(text, 4)
}

/// Milliseconds with up to six decimals, in nanoseconds.
pub fn nanoseconds(text: &[u8]) -> Result<u64, u32> {
    match text.iter().position(|&b| b == b'.') {
        None => Ok(digits(text, 5)? * 1_000_000),
        Some(at) => {
            let (whole, fraction) = (&text[..at], &text[at + 1..]);
            let scale = [0, 100_000, 10_000, 1_000, 100, 10, 1];
            let (w, f) = (digits(whole, 5)?, digits(fraction, 6)?);
            Ok(w * 1_000_000 + f * scale[fraction.len()])
        }
    }
}

/// The same in microseconds. Three decimals or fewer leave nothing to round.
pub fn time(text: &[u8], round: Round) -> Result<u64, u32> {
    let ns = nanoseconds(text)?;
    Ok(match round {
        Down => ns / 1_000,
        Up => ns.div_ceil(1_000),
    })
}

/// The text of a checked table. It is what `unarchive` is measured against, hence digit by digit into one string.
pub fn write(table: &Table) -> String {
    let mut text = String::from("cpus");
    push_count(&mut text, table.m);
    for (k, group) in (1..).zip(table.groups).filter(|(_, group)| *group > 0) {
        text.push_str("\ngroup");
        [group as u64, k].into_iter().for_each(|x| push_count(&mut text, x));
    }
    for task in table.used() {
        text.push_str("\ntask");
        [task.t, task.c, task.d].into_iter().for_each(|us| push_time(&mut text, us));
        if task.alpha > 0 {
            text.push_str("\nalpha");
            push_count(&mut text, task.alpha);
        }
        for (k, lock) in task.locks.iter().enumerate().filter(|(_, lock)| lock.n > 0) {
            text.push_str("\nuse");
            [k as u64 + 1, lock.n].into_iter().for_each(|x| push_count(&mut text, x));
            [lock.c, lock.ct].into_iter().for_each(|us| push_time(&mut text, us));
        }
    }
    text.push('\n');
    text
}

fn push_count(text: &mut String, x: u64) {
    text.push(' ');
    push_digits(text, x, 1);
}

/// The text of a time, without the space that it has in a line.
pub fn time_text(us: u64) -> String {
    let mut text = String::new();
    push_time(&mut text, us);
    text.split_off(1)
}

/// Microseconds as milliseconds, without the zeros that a fraction ends in.
fn push_time(text: &mut String, us: u64) {
    push_count(text, us / 1_000);
    if us % 1_000 > 0 {
        text.push('.');
        push_digits(text, us % 1_000, 3);
        text.truncate(text.trim_end_matches('0').len());
    }
}

fn push_digits(text: &mut String, x: u64, least: u32) {
    if x >= 10 || least > 1 {
        push_digits(text, x / 10, least.saturating_sub(1));
    }
    text.push(char::from(b'0' + (x % 10) as u8));
}
