//! A table to an archive of the release card and back. Written from request 2/12 and RFC 1071, and for tables with groups from request 9/12.

use crate::table::{Lock, Refusal, Table, Task, LOCKS, TASKS};

/// The bytes of a block, and where its parts begin. In every number the high byte comes first.
pub const BLOCK: usize = 512;
pub const CPUS_AT: usize = 3;
pub const N_AT: usize = 4;
pub const NUMBER_AT: usize = 5;
const ZEROS_BEFORE: usize = 6;
pub const TIMES_AT: usize = 8;
pub const LOCKS_AT: usize = 20;
pub const LOCK: usize = 10;
pub const ZEROS_AFTER: usize = LOCKS_AT + LOCKS * LOCK;
pub const CHECK_AT: usize = 510;

/// The mark, and version 1.
const MARK: [u8; CPUS_AT] = [0x54, 0x42, 1];

/// The checksum of RFC 1071 of an even number of bytes. The carries gather above the sixteen bits and are added in the end, which is the same
/// as adding each at once.
pub fn checksum(bytes: &[u8]) -> u16 {
    let mut sum: u32 = bytes.chunks_exact(2).map(|word| u16::from_be_bytes([word[0], word[1]]) as u32).sum();
    while sum > 0xffff {
        sum = (sum & 0xffff) + (sum >> 16);
    }
    !(sum as u16)
}

/// Makes the check of a block right.
pub fn seal(block: &mut [u8]) {
    let check = checksum(&block[..CHECK_AT]);
    block[CHECK_AT..].copy_from_slice(&check.to_be_bytes());
}

/// The block of a task. The numbers need only fit their fields, so that blocks can be made that no table has.
pub fn block(m: u64, n: u64, number: u64, task: &Task) -> [u8; BLOCK] {
    let mut block = [0; BLOCK];
    block[..CPUS_AT].copy_from_slice(&MARK);
    block[CPUS_AT..ZEROS_BEFORE].copy_from_slice(&[m, n, number].map(|x| u8::try_from(x).expect("a number of one byte")));
    for (at, time) in [task.t, task.c, task.d].into_iter().enumerate() {
        put_four(&mut block[TIMES_AT + 4 * at..], time);
    }
    for (entry, lock) in block[LOCKS_AT..ZEROS_AFTER].chunks_exact_mut(LOCK).zip(&task.locks) {
        entry[..2].copy_from_slice(&u16::try_from(lock.n).expect("a number of two bytes").to_be_bytes());
        put_four(&mut entry[2..], lock.c);
        put_four(&mut entry[6..], lock.ct);
    }
    seal(&mut block);
    block
}

fn put_four(place: &mut [u8], number: u64) {
    place[..4].copy_from_slice(&u32::try_from(number).expect("a number of four bytes").to_be_bytes());
}

/// The archive of a table: of a checked one, or of any whose numbers fit.
pub fn write(table: &Table) -> Vec<u8> {
    let mut archive = Vec::with_capacity(BLOCK * table.used().len());
    for (index, task) in table.used().iter().enumerate() {
        archive.extend_from_slice(&block(table.m, table.n, index as u64 + 1, task));
    }
    archive
}

/// The same of a table that is handed over, or why there is none. A card of version 1 has no room for groups.
pub fn archived(table: &Table) -> Result<Vec<u8>, Refusal> {
    table.check()?;
    if table.has_groups() { Err((20, 0)) } else { Ok(write(table)) }
}

pub fn read(bytes: &[u8]) -> Result<Table, Refusal> {
    let count = bytes.len() / BLOCK;
    if bytes.len() % BLOCK != 0 || !(1..=TASKS).contains(&count) {
        return Err((12, 0));
    }
    let mut table = Table::zero();
    (table.m, table.n) = (bytes[CPUS_AT] as u64, count as u64);
    for (index, block) in bytes.chunks_exact(BLOCK).enumerate() {
        let position = index + 1;
        if !sound(block) {
            return Err((13, position as u32));
        }
        // an n that is the number of blocks in every block is block 1's too
        if block[CPUS_AT..ZEROS_BEFORE] != [bytes[CPUS_AT], count as u8, position as u8] {
            return Err((14, position as u32));
        }
        table.tasks[index] = task(block);
    }
    table.check()?;
    Ok(table)
}

/// What 13 looks at. The check must be the very bytes: FFFF in place of 0000 would do for a sum, but then a table had two archives.
pub fn sound(block: &[u8]) -> bool {
    block[..CPUS_AT] == MARK
        && block[ZEROS_BEFORE..TIMES_AT] == [0; TIMES_AT - ZEROS_BEFORE]
        && block[ZEROS_AFTER..CHECK_AT] == [0; CHECK_AT - ZEROS_AFTER]
        && block[CHECK_AT..] == checksum(&block[..CHECK_AT]).to_be_bytes()
}

pub fn task(block: &[u8]) -> Task {
    let mut task = Task { t: four(&block[TIMES_AT..]), c: four(&block[TIMES_AT + 4..]), d: four(&block[TIMES_AT + 8..]), ..Task::default() };
    for (entry, lock) in block[LOCKS_AT..ZEROS_AFTER].chunks_exact(LOCK).zip(&mut task.locks) {
        *lock = Lock { n: u16::from_be_bytes([entry[0], entry[1]]) as u64, c: four(&entry[2..]), ct: four(&entry[6..]) };
    }
    task
}

fn four(place: &[u8]) -> u64 {
    u32::from_be_bytes([place[0], place[1], place[2], place[3]]) as u64
}
