//! Cards to compare on: named ones with the answer that each gets, archives of many tables, and archives damaged in every way.

use crate::card::{self, BLOCK, CHECK_AT, CPUS_AT, LOCK, LOCKS_AT, NUMBER_AT, N_AT, TIMES_AT, ZEROS_AFTER};
use crate::random::Random;
use crate::table::{Lock, Refusal, Table, Task, LOCKS, TASKS, TIME};
use crate::{cases, edges, generate, listing};

const ACCEPTED: u64 = 140;
const BEYOND: u64 = 100;
const CHANGED: u64 = 100;
const CHANGED_AND_SEALED: u64 = 120;
const ARRANGED: u64 = 150;
const MIXED: u64 = 60;
const TWICE: u64 = 100;

/// A card, and what was done to it.
pub type Card = (&'static str, Vec<u8>);
/// The same with the refusal that it gets, if any.
pub type Named = (&'static str, Vec<u8>, Option<Refusal>);
/// Bytes to set in a block, counted from 1, from a place in it on.
type Change<'a> = (usize, usize, &'a [u8]);

/// The block of its one task has the check 0000: the other zero of RFC 1071's arithmetic, FFFF, stands for the same sum.
pub const ZERO_CHECK: &str = "cpus 4\ntask 100 40.053 100\n";

/// The archive of a listing.
pub fn archive(text: &str) -> Vec<u8> {
    card::write(&listing::read(text.as_bytes()).expect("an accepted listing"))
}

/// Every task and every pair in use, and no two numbers of a kind alike: what is left out or stands elsewhere shows.
pub fn full() -> Table {
    let mut table = Table { m: 64, n: TASKS as u64, ..Table::zero() };
    for (i, task) in (0u64..).zip(&mut table.tasks) {
        *task = Task { t: 9_000_001 + 257 * i, c: 7_000_001 + 257 * i, d: 8_000_001 + 257 * i, ..Task::default() };
        for (k, lock) in (0u64..).zip(&mut task.locks) {
            let x = 16 * i + k;
            *lock = Lock { n: 1_000 - x, c: 70_001 + 257 * x, ct: 140_001 + 257 * x };
        }
    }
    table
}

fn set(card: &mut [u8], &(number, at, bytes): &Change) {
    let from = (number - 1) * BLOCK + at;
    card[from..from + bytes.len()].copy_from_slice(bytes);
}

/// The card with these changes, and checks that no longer fit.
pub fn spoiled(card: &[u8], changes: &[Change]) -> Vec<u8> {
    let mut card = card.to_vec();
    changes.iter().for_each(|change| set(&mut card, change));
    card
}

/// The card with these changes, and the check right again in the blocks that they are in.
pub fn sealed(card: &[u8], changes: &[Change]) -> Vec<u8> {
    let mut card = spoiled(card, changes);
    for (number, _, _) in changes {
        card::seal(&mut card[(number - 1) * BLOCK..number * BLOCK]);
    }
    card
}

/// The card with this byte in every block, and every check right.
pub fn throughout(card: &[u8], at: usize, byte: u8) -> Vec<u8> {
    let bytes = [byte];
    let changes: Vec<Change> = (1..=card.len() / BLOCK).map(|number| (number, at, &bytes[..])).collect();
    sealed(card, &changes)
}

/// These blocks of the card, counted from 1, in this order.
pub fn blocks(card: &[u8], numbers: &[usize]) -> Vec<u8> {
    numbers.iter().flat_map(|number| card[(number - 1) * BLOCK..number * BLOCK].to_vec()).collect()
}

/// The block of a task by itself whose C is raised by what its sum lacks to FFFF, and by a little more, which is what its sum is then.
fn raised(mut task: Task, more: u64) -> Vec<u8> {
    task.c += card::checksum(&card::block(1, 1, 1, &task)[..CHECK_AT]) as u64 + more;
    card::block(1, 1, 1, &task).to_vec()
}

/// The place in a block of a lock's entry, the locks counted from 1.
pub fn entry(k: usize) -> usize {
    LOCKS_AT + (k - 1) * LOCK
}

/// The cards whose answer is known, by name.
pub fn named() -> Vec<Named> {
    [lengths(), faulty(), misplaced(), refused_tables(), orders()].concat()
}

fn lengths() -> Vec<Named> {
    let one = archive(ZERO_CHECK);
    let a = archive(cases::CASE_A);
    let all = card::write(&full());
    let more: Vec<u8> = (1..=33).flat_map(|number| card::block(64, 33, number, &full().tasks[0])).collect();
    vec![
        ("case A", a.clone(), None),
        ("512 bytes, with the check 0000", one.clone(), None),
        ("32 tasks with 16 locks each", all.clone(), None),
        ("0 bytes", vec![], Some((12, 0))),
        ("511 bytes", one[..511].to_vec(), Some((12, 0))),
        ("513 bytes", [&one[..], &[0]].concat(), Some((12, 0))),
        ("a byte less than 3 blocks", a[..1_535].to_vec(), Some((12, 0))),
        ("a byte more than 32 blocks", [&all[..], &[0]].concat(), Some((12, 0))),
        ("33 blocks", more, Some((12, 0))),
        ("33 blocks, the last one twice", [&all[..], &all[31 * BLOCK..]].concat(), Some((12, 0))),
    ]
}

/// What 13 is for, in block 2 of case A and in blocks whose sums are special.
fn faulty() -> Vec<Named> {
    let (zero, a) = (archive(ZERO_CHECK), archive(cases::CASE_A));
    // its words add up to more than 2 FFFF, so that a sum of 1 is one that carried into itself twice
    let carried = raised(full().tasks[31], 1);
    let second = Some((13, 2));
    vec![
        ("a sum that carries twice", carried.clone(), None),
        ("the second carry lost", spoiled(&carried, &[(1, CHECK_AT, &[0xff, 0xff])]), Some((13, 1))),
        ("the check FFFF in place of 0000", spoiled(&zero, &[(1, CHECK_AT, &[0xff, 0xff])]), Some((13, 1))),
        ("zeros alone, of which FFFF is the check", sealed(&[0; BLOCK], &[(1, 0, &[0])]), Some((13, 1))),
        ("the high byte of the check", spoiled(&a, &[(2, 510, &[0x0e])]), second),
        ("the low byte of the check", spoiled(&a, &[(2, 511, &[0x60])]), second),
        ("the bytes of the check exchanged", spoiled(&a, &[(2, 510, &[0x61, 0x0f])]), second),
        ("the sum in place of its complement", spoiled(&a, &[(2, 510, &[0xf0, 0x9e])]), second),
        ("the first byte of the mark", sealed(&a, &[(2, 0, &[0x55])]), second),
        ("the second byte of the mark", sealed(&a, &[(2, 1, &[0x43])]), second),
        ("the mark's bytes exchanged", sealed(&a, &[(2, 0, &[0x42, 0x54])]), second),
        ("version 0", sealed(&a, &[(2, 2, &[0])]), second),
        ("version 2", sealed(&a, &[(2, 2, &[2])]), second),
        ("byte 6", sealed(&a, &[(2, 6, &[1])]), second),
        ("byte 7", sealed(&a, &[(2, 7, &[1])]), second),
        ("byte 180", sealed(&a, &[(2, 180, &[1])]), second),
        ("byte 509", sealed(&a, &[(2, 509, &[1])]), second),
        ("FFFF among the zeros, which leaves the check right", spoiled(&a, &[(2, 300, &[0xff, 0xff])]), second),
    ]
}

/// What 14 is for.
fn misplaced() -> Vec<Named> {
    let a = archive(cases::CASE_A);
    vec![
        ("other processors in block 2", sealed(&a, &[(2, CPUS_AT, &[3])]), Some((14, 2))),
        ("other processors in block 1", sealed(&a, &[(1, CPUS_AT, &[3])]), Some((14, 2))),
        ("another n in block 3", sealed(&a, &[(3, N_AT, &[2])]), Some((14, 3))),
        ("another n in block 1", sealed(&a, &[(1, N_AT, &[2])]), Some((14, 1))),
        ("another n throughout", throughout(&a, N_AT, 4), Some((14, 1))),
        ("n 0 throughout", throughout(&a, N_AT, 0), Some((14, 1))),
        ("n 33 throughout", throughout(&a, N_AT, 33), Some((14, 1))),
        ("the first block of three", blocks(&a, &[1]), Some((14, 1))),
        ("block 2 left out", blocks(&a, &[1, 3]), Some((14, 1))),
        ("block 2 left out, n 2 throughout", throughout(&blocks(&a, &[1, 3]), N_AT, 2), Some((14, 2))),
        ("block 2 twice, n 4 throughout", throughout(&blocks(&a, &[1, 2, 2, 3]), N_AT, 4), Some((14, 3))),
        ("blocks 2 and 3 exchanged", blocks(&a, &[1, 3, 2]), Some((14, 2))),
        ("blocks 1 and 3 exchanged", blocks(&a, &[3, 2, 1]), Some((14, 1))),
        ("task number 3 in block 2", sealed(&a, &[(2, NUMBER_AT, &[3])]), Some((14, 2))),
        ("task number 0 in block 1", sealed(&a, &[(1, NUMBER_AT, &[0])]), Some((14, 1))),
    ]
}

/// Blocks without a fault, and a table that has one. The largest number that a field holds is beyond every limit.
fn refused_tables() -> Vec<Named> {
    let a = archive(cases::CASE_A);
    let most: [&[u8]; 2] = [&[0xff; 2], &[0xff; 4]];
    vec![
        ("0 processors", throughout(&a, CPUS_AT, 0), Some((4, 0))),
        ("64 processors", throughout(&a, CPUS_AT, 64), None),
        ("65 processors", throughout(&a, CPUS_AT, 65), Some((4, 0))),
        ("255 processors", throughout(&a, CPUS_AT, 255), Some((4, 0))),
        ("T 4,294,967,295", sealed(&a, &[(1, TIMES_AT, most[1])]), Some((4, 1))),
        ("C 4,294,967,295", sealed(&a, &[(2, TIMES_AT + 4, most[1])]), Some((4, 2))),
        ("D 4,294,967,295", sealed(&a, &[(3, TIMES_AT + 8, most[1])]), Some((4, 3))),
        ("T 0", sealed(&a, &[(2, TIMES_AT, &[0; 4])]), Some((4, 2))),
        ("N 65,535", sealed(&a, &[(1, entry(1), most[0])]), Some((4, 1))),
        ("N 1,000", sealed(&a, &[(3, entry(1), &1_000u16.to_be_bytes())]), None),
        ("N 1,001", sealed(&a, &[(3, entry(1), &1_001u16.to_be_bytes())]), Some((4, 3))),
        ("c 4,294,967,295", sealed(&a, &[(1, entry(1) + 2, most[1])]), Some((4, 1))),
        ("CT 4,294,967,295", sealed(&a, &[(3, entry(1) + 6, most[1])]), Some((4, 3))),
        ("c in an unused pair", sealed(&a, &[(2, entry(16) + 5, &[1])]), Some((4, 2))),
        ("CT in an unused pair", sealed(&a, &[(2, entry(16) + 9, &[1])]), Some((4, 2))),
        ("C above D", sealed(&a, &[(1, TIMES_AT + 4, &10_001u32.to_be_bytes())]), Some((5, 1))),
        ("D above T", sealed(&a, &[(2, TIMES_AT + 8, &20_001u32.to_be_bytes())]), Some((5, 2))),
        ("CT below c", sealed(&a, &[(3, entry(1) + 6, &749u32.to_be_bytes())]), Some((7, 3))),
        ("CT above N times c", sealed(&a, &[(3, entry(1) + 6, &1_501u32.to_be_bytes())]), Some((7, 3))),
        ("the CT above C", sealed(&a, &[(1, TIMES_AT + 4, &499u32.to_be_bytes())]), Some((7, 1))),
    ]
}

/// Two faults and more: which comes first.
fn orders() -> Vec<Named> {
    let a = archive(cases::CASE_A);
    let number = |block: usize| sealed(&a, &[(block, NUMBER_AT, &[9])]);
    let period: Change = (1, TIMES_AT, &[0; 4]);
    vec![
        ("12 before 13", spoiled(&a, &[(1, 0, &[0])])[..1_535].to_vec(), Some((12, 0))),
        ("13 at block 2 before 14 at block 3", spoiled(&number(3), &[(2, 6, &[1])]), Some((13, 2))),
        ("13 at block 3 after 14 at block 2", spoiled(&number(2), &[(3, 6, &[1])]), Some((14, 2))),
        ("13 at block 2 after 14 at block 1", spoiled(&number(1), &[(2, 6, &[1])]), Some((14, 1))),
        ("13 at block 2 after an n of block 1 that is not the number of blocks", spoiled(&a, &[(2, 6, &[1])])[..2 * BLOCK].to_vec(), Some((14, 1))),
        ("13 before 14 of one block", spoiled(&number(2), &[(2, 6, &[1])]), Some((13, 2))),
        ("13 by its check before 14 of one block", spoiled(&a, &[(2, NUMBER_AT, &[9])]), Some((13, 2))),
        ("13 by its version before 14 of one block", sealed(&a, &[(2, NUMBER_AT, &[9]), (2, 2, &[2])]), Some((13, 2))),
        ("13 at block 3 before 4 at task 1", spoiled(&sealed(&a, &[period]), &[(3, 6, &[1])]), Some((13, 3))),
        ("14 at block 3 before 4 at task 1", sealed(&a, &[period, (3, NUMBER_AT, &[9])]), Some((14, 3))),
        ("14 at block 2 before 4 of the processors", sealed(&a, &[(1, CPUS_AT, &[0])]), Some((14, 2))),
        ("4 of the processors before 4 at task 1", throughout(&sealed(&a, &[period]), CPUS_AT, 0), Some((4, 0))),
        ("5 at task 1 before 4 at task 2", sealed(&a, &[(1, TIMES_AT + 8, &[0, 0, 0, 1]), (2, TIMES_AT, &[0; 4])]), Some((5, 1))),
        ("4 of D before 5 of C", sealed(&a, &[(2, TIMES_AT + 8, &[0; 4])]), Some((4, 2))),
        ("7 at lock 1 before 4 at lock 2", sealed(&a, &[(3, entry(1) + 6, &[0, 0, 0, 1]), (3, entry(2) + 9, &[1])]), Some((7, 3))),
    ]
}

/// All cards, in a fixed order.
pub fn all() -> Vec<Card> {
    unanswered().into_iter().chain(long()).chain(generated()).collect()
}

/// Fewer of them.
pub fn some() -> Vec<Card> {
    unanswered().into_iter().chain(long()).chain(generated().into_iter().step_by(3)).collect()
}

fn unanswered() -> Vec<Card> {
    named().into_iter().map(|(name, bytes, _)| (name, bytes)).collect()
}

/// The cards without a name.
fn generated() -> Vec<Card> {
    let mut r = Random::new(4);
    let r = &mut r;
    [accepted(r), beyond(r), headers(), bits(), zeros(), checks(r), same_sums(r), changed(r), arranged(r), mixed(r), cut(r), twice(r), noise(r)].concat()
}

fn accepted(r: &mut Random) -> Vec<Card> {
    let mut alphas = Random::new(29);
    let mut all = Vec::new();
    for _ in 0..ACCEPTED {
        let table = generate::table(r);
        let card = card::write(&table);
        assert_eq!(card::write(&generate::with_alpha(&mut alphas, table.clone())), card, "alpha is not dropped");
        assert_eq!(card::read(&card), Ok(table), "not read as the table that it was written of");
        all.push(("an accepted table", card));
    }
    all
}

/// Tables that are not accepted, or only just, as far as they fit a card: what is beyond a field becomes the most that it holds.
pub fn beyond(r: &mut Random) -> Vec<Card> {
    let mut tables = edges::tables();
    tables.extend((0..BEYOND).map(|_| generate::raw_table(r)));
    tables.retain(|table| (1..=TASKS as u64).contains(&table.n));
    for table in &mut tables {
        table.m = table.m.min(u8::MAX as u64);
        for lock in table.tasks.iter_mut().flat_map(|task| &mut task.locks) {
            lock.n = lock.n.min(u16::MAX as u64);
        }
    }
    tables.iter().map(|table| ("any table", card::write(table))).collect()
}

/// Every byte before the times in every block of case A, with its check left and with it right again.
fn headers() -> Vec<Card> {
    let a = archive(cases::CASE_A);
    let mut all = Vec::new();
    for (number, at) in (1..=3).flat_map(|number| (0..TIMES_AT).map(move |at| (number, at))) {
        let own = a[(number - 1) * BLOCK + at];
        let mut values = vec![0, 1, own.wrapping_sub(1), own.wrapping_add(1), own ^ 0x80, 0xff];
        values.sort();
        values.dedup();
        for value in values.into_iter().filter(|value| *value != own) {
            all.push(("a header byte, the check left", spoiled(&a, &[(number, at, &[value])])));
            all.push(("a header byte, the check right", sealed(&a, &[(number, at, &[value])])));
        }
    }
    all
}

/// Every bit of the times and of a lock in use, by itself: each counts, beyond the limits too.
fn bits() -> Vec<Card> {
    let a = archive(cases::CASE_A);
    let places = (TIMES_AT..LOCKS_AT + LOCK).flat_map(|at| (0..8).map(move |bit| (at, bit)));
    places.map(|(at, bit)| ("a bit, the check right", sealed(&a, &[(3, at, &[a[2 * BLOCK + at] ^ 1 << bit])]))).collect()
}

/// Every byte that must be zero after the locks.
fn zeros() -> Vec<Card> {
    let a = archive(cases::CASE_A);
    let value = |at: usize| [1, 0x10, 0x80, 0xff][at % 4];
    (ZEROS_AFTER..CHECK_AT).map(|at| ("a byte that must be zero", sealed(&a, &[(at / 4 % 3 + 1, at, &[value(at)])]))).collect()
}

/// The card of a table, and the number of one of its blocks.
fn any_block(r: &mut Random) -> (Vec<u8>, usize) {
    let table = generate::table(r);
    let number = r.within(1, table.n) as usize;
    (card::write(&table), number)
}

/// Checks a little off, and the two zeros of the sum, in a block of any place.
fn checks(r: &mut Random) -> Vec<Card> {
    let mut all = Vec::new();
    for _ in 0..6 {
        let (card, number) = any_block(r);
        let own = card::checksum(&card[(number - 1) * BLOCK..][..CHECK_AT]);
        for check in [own.wrapping_add(1), own.wrapping_sub(1), own.swap_bytes(), !own, 0, 0xffff] {
            all.push(("another check", spoiled(&card, &[(number, CHECK_AT, &check.to_be_bytes())])));
        }
    }
    // by chance only one block in 65,535 has 0000
    for _ in 0..6 {
        let zero = raised(Task { t: TIME, c: 1, d: r.within(70_000, TIME), ..Task::default() }, 0);
        assert_eq!(zero[CHECK_AT..], [0, 0]);
        all.push(("FFFF for the check 0000", spoiled(&zero, &[(1, CHECK_AT, &[0xff, 0xff])])));
        all.push(("the check 0000", zero));
    }
    all
}

/// Blocks that differ and have the same sum: two words exchanged, or FFFF in place of zeros.
fn same_sums(r: &mut Random) -> Vec<Card> {
    let mut all = Vec::new();
    for _ in 0..20 {
        let (card, number) = any_block(r);
        let [one, other] = [(); 2].map(|()| 2 * r.within(2, ZEROS_AFTER as u64 / 2 - 1) as usize);
        let word = |at: usize| [0, 1].map(|i| card[(number - 1) * BLOCK + at + i]);
        all.push(("two words exchanged", spoiled(&card, &[(number, one, &word(other)), (number, other, &word(one))])));
        let at = 2 * r.within(ZEROS_AFTER as u64 / 2, CHECK_AT as u64 / 2 - 1) as usize;
        all.push(("FFFF among the zeros", spoiled(&card, &[(number, at, &[0xff, 0xff])])));
    }
    all
}

/// One byte anywhere, with its check left and with it right again. More than half of a block is zeros, hence the times and locks by themselves.
fn changed(r: &mut Random) -> Vec<Card> {
    let mut all = Vec::new();
    for time in 0..CHANGED + CHANGED_AND_SEALED {
        let table = generate::table(r);
        let card = card::write(&table);
        let number = r.within(1, table.n) as usize;
        let at = if r.one_in(3) { r.within(0, BLOCK as u64 - 1) } else { r.within(TIMES_AT as u64, ZEROS_AFTER as u64 - 1) } as usize;
        let own = card[(number - 1) * BLOCK + at];
        let value = if r.one_in(2) { own ^ 1 << r.within(0, 7) } else { r.next() as u8 };
        let change = [(number, at, &[value][..])];
        all.push(if time < CHANGED { ("a byte, the check left", spoiled(&card, &change)) } else { ("a byte, the check right", sealed(&card, &change)) });
    }
    all
}

/// Blocks left out, doubled and exchanged. Half of them get the n that their number asks for, so that the task numbers decide.
fn arranged(r: &mut Random) -> Vec<Card> {
    let mut all = Vec::new();
    for _ in 0..ARRANGED {
        let table = generate::table(r);
        let mut numbers: Vec<usize> = (1..=table.n as usize).collect();
        let [one, other] = [(); 2].map(|()| r.within(0, table.n - 1) as usize);
        let kind = match r.within(0, 3) {
            0 => {
                numbers.remove(one);
                "a block left out"
            }
            1 => {
                numbers.insert(one, one + 1);
                "a block doubled"
            }
            2 => {
                numbers.insert(other, one + 1);
                "a block doubled elsewhere"
            }
            _ => {
                numbers.swap(one, other);
                "blocks exchanged"
            }
        };
        let card = blocks(&card::write(&table), &numbers);
        all.push((kind, if r.one_in(2) { throughout(&card, N_AT, numbers.len() as u8) } else { card }));
    }
    all
}

/// Blocks of two tables, each at its place. With the same processors and n they are an archive of a third.
fn mixed(r: &mut Random) -> Vec<Card> {
    let mut all = Vec::new();
    for _ in 0..MIXED {
        let (one, mut other) = (generate::table(r), generate::table(r));
        // the slots past a table's tasks are filled up from the other, lest they be empty
        if r.one_in(2) {
            let n = other.n as usize;
            other.tasks[n..].copy_from_slice(&one.tasks[n..]);
            other.n = one.n;
        }
        if r.one_in(2) {
            other.m = one.m;
        }
        let (a, b) = (card::write(&one), card::write(&other));
        let (short, long) = if a.len() < b.len() { (a, b) } else { (b, a) };
        let mut card = long;
        for number in 0..short.len() / BLOCK {
            if r.one_in(2) {
                card[number * BLOCK..][..BLOCK].copy_from_slice(&short[number * BLOCK..][..BLOCK]);
            }
        }
        all.push(("blocks of two tables", card));
    }
    all
}

/// Lengths about whole blocks, and others.
fn cut(r: &mut Random) -> Vec<Card> {
    let all = card::write(&full());
    let endless = || all.iter().copied().cycle();
    let near = [1, 2, 3, 16, 31, 32, 33, 34, 39].into_iter().flat_map(|blocks| [BLOCK * blocks - 1, BLOCK * blocks, BLOCK * blocks + 1]);
    let mut cards: Vec<Card> = [1, 2, 255, 256, 510].into_iter().chain(near).map(|length| ("a length", endless().take(length).collect())).collect();
    cards.extend((0..10).map(|_| ("a length", endless().take(r.within(0, 20_000) as usize).collect())));
    cards
}

/// Several blocks changed, each in its own way, so that the order of refusals decides.
fn twice(r: &mut Random) -> Vec<Card> {
    let mut all = Vec::new();
    for _ in 0..TWICE {
        let table = Table { n: r.within(2, 6), ..full() };
        let mut card = card::write(&table);
        for _ in 0..r.within(2, 3) {
            let number = r.within(1, table.n) as usize;
            let value = [r.within(0, 9) as u8];
            card = match r.within(0, 4) {
                0 => spoiled(&card, &[(number, r.within(0, BLOCK as u64 - 1) as usize, &value)]),
                1 => sealed(&card, &[(number, r.within(0, 7) as usize, &value)]),
                2 => sealed(&card, &[(number, r.within(CPUS_AT as u64, NUMBER_AT as u64) as usize, &value)]),
                3 => sealed(&card, &[(number, r.within(TIMES_AT as u64, LOCKS_AT as u64 - 1) as usize, &value)]),
                _ => sealed(&card, &[(number, entry(r.within(1, LOCKS as u64) as usize), &value)]),
            };
        }
        all.push(("several changes", card));
    }
    all
}

/// Bytes that were never an archive.
fn noise(r: &mut Random) -> Vec<Card> {
    let mut cards: Vec<Card> = [0, 0x42, 0x54, 0xff].map(|byte| ("one byte throughout", vec![byte; 2 * BLOCK])).into();
    cards.extend((0..6).map(|_| ("any bytes", (0..BLOCK).map(|_| r.next() as u8).collect())));
    cards
}

/// Long cards, about the lengths at which a program's own room may end. For most of them a request of the probe has no room.
fn long() -> Vec<Card> {
    let all = card::write(&full());
    [40 * BLOCK, 64 * BLOCK, 65_535, 65_536, 65_537, 131_072].map(|length| ("a long card", all.iter().copied().cycle().take(length).collect())).into()
}

/// The rows of a card that are not zeros alone, with the place of each.
pub fn dump(card: &[u8]) -> String {
    let shown = card.chunks(16).enumerate().filter(|(_, row)| row.iter().any(|&byte| byte != 0));
    let rows = shown.map(|(row, bytes)| format!("{:6}: {:02x?}\n", 16 * row, bytes));
    format!("{} bytes\n{}", card.len(), rows.collect::<String>())
}
