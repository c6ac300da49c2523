//! Cards to save archives from: named ones with the list and the answer that each gets; archives scattered over a card, whose list and answer
//! follow from how it was done; and cards damaged at random.

use crate::card::{self, BLOCK, CHECK_AT, CPUS_AT, NUMBER_AT, N_AT, TIMES_AT, ZEROS_AFTER};
use crate::cards::{self, archive, blocks, entry, full, sealed, spoiled, throughout, Card};
use crate::compare::Tally;
use crate::random::Random;
use crate::salvage::{self, Fate, Salvaged, BLOCKS};
use crate::table::{Refusal, Table, Task, TASKS};
use crate::{cases, generate};

const ACCEPTED: u64 = 130;
const LOST: u64 = 60;
const DAMAGED: u64 = 320;
/// Of the cards that the reader of archives is tried on, one in so many; and of those with a table that is refused or only just accepted.
const OF_CARDS: usize = 13;
const BEYOND: usize = 3;

/// What comes back: the archive, or a refusal.
type Saved = Result<Vec<u8>, Refusal>;

const INCOMPLETE: Saved = Err((14, 0));

/// A card with its answer, the fates in the list each by its first letter.
pub struct Named {
    pub name: &'static str,
    pub card: Vec<u8>,
    pub fates: String,
    pub saved: Saved,
}

fn case(name: &'static str, card: Vec<u8>, fates: &str, saved: Saved) -> Named {
    Named { name, card, fates: fates.into(), saved }
}

/// The cards whose list and answer are known, by name.
pub fn named() -> Vec<Named> {
    [whole(), lengths(), arranged(), spoiled_ones(), faults(), missing(), of_two_cards(), misnumbered(), refused_tables(), orders(), too_many()]
        .into_iter()
        .flatten()
        .collect()
}

/// Fates, each so many times.
fn runs(all: &[(&str, usize)]) -> String {
    all.iter().map(|(fates, times)| fates.repeat(*times)).collect()
}

fn case_a() -> Vec<u8> {
    archive(cases::CASE_A)
}

/// The card of one block.
fn one() -> Vec<u8> {
    archive(cards::ZERO_CHECK)
}

/// The card of 32 blocks.
fn most() -> Vec<u8> {
    card::write(&full())
}

/// Good blocks of one card with these numbers. There are tasks for 32; then they begin again.
fn good(m: u64, n: u64, numbers: impl IntoIterator<Item = u64>) -> Vec<u8> {
    numbers.into_iter().flat_map(|number| card::block(m, n, number, &full().tasks[number as usize % TASKS])).collect()
}

/// Good archives with nothing done to them but that some are doubled; and cards of 64 blocks.
fn whole() -> Vec<Named> {
    let each_twice: Vec<usize> = (2..66).map(|i| i / 2).collect();
    vec![
        case("case A as it is", case_a(), "kkk", Ok(case_a())),
        case("one block", one(), "k", Ok(one())),
        case("32 blocks", most(), &runs(&[("k", 32)]), Ok(most())),
        case("32 blocks twice", most().repeat(2), &runs(&[("k", 32), ("d", 32)]), Ok(most())),
        case("32 blocks, each twice", blocks(&most(), &each_twice), &runs(&[("kd", 1), ("md", 31)]), Ok(most())),
        case("one block 64 times", one().repeat(64), &runs(&[("k", 1), ("d", 63)]), Ok(one())),
        case("63 bad blocks before the one", [vec![0; 63 * BLOCK], one()].concat(), &runs(&[("b", 63), ("m", 1)]), Ok(one())),
        case("63 bad blocks after the one", [one(), vec![0; 63 * BLOCK]].concat(), &runs(&[("k", 1), ("b", 63)]), Ok(one())),
        case("64 bad blocks", vec![0xff; 64 * BLOCK], &runs(&[("b", 64)]), INCOMPLETE),
    ]
}

/// What 15 is for: of these nothing is listed.
fn lengths() -> Vec<Named> {
    let endless = |length: usize| most().into_iter().cycle().take(length).collect();
    let all = [
        ("0 bytes", 0),
        ("1 byte", 1),
        ("511 bytes", 511),
        ("513 bytes", 513),
        ("a byte less than 3 blocks", 3 * BLOCK - 1),
        ("a byte more than 32 blocks", 32 * BLOCK + 1),
        ("a byte less than 64 blocks", 64 * BLOCK - 1),
        ("a byte more than 64 blocks", 64 * BLOCK + 1),
        ("65 blocks", 65 * BLOCK),
        ("66 blocks", 66 * BLOCK),
        ("half a block more than 64", 64 * BLOCK + BLOCK / 2),
        ("as many bytes as a request of the probe has room for", 33_992),
    ];
    all.map(|(name, length)| case(name, endless(length), "", Err((15, 0)))).into()
}

/// Case A's blocks out of order and doubled.
fn arranged() -> Vec<Named> {
    let all: [(&str, &[usize], &str); 12] = [
        ("blocks 1 and 3 exchanged", &[3, 2, 1], "mkm"),
        ("blocks 2 and 3 exchanged", &[1, 3, 2], "kmm"),
        ("every block moved", &[2, 3, 1], "mmm"),
        ("block 3 again at the end", &[1, 2, 3, 3], "kkkd"),
        ("block 1 again at the end", &[1, 2, 3, 1], "kkkd"),
        ("block 1 again at once", &[1, 1, 2, 3], "kdmm"),
        ("block 2 again at once", &[1, 2, 2, 3], "kkdm"),
        ("a copy at the position of its number", &[2, 2, 1, 3], "mdmm"),
        ("a copy at the position of its number, others between", &[3, 1, 3, 2], "mmdm"),
        ("kept after a copy", &[1, 1, 3, 2], "kdkm"),
        ("a block like a doubled one", &[1, 1, 1, 1, 2, 3], "kdddmm"),
        ("each block several times", &[2, 1, 2, 3, 1, 2, 3], "mmdmddd"),
    ];
    all.map(|(name, numbers, fates)| case(name, blocks(&case_a(), numbers), fates, Ok(case_a()))).into()
}

/// Spoiled blocks among case A's.
fn spoiled_ones() -> Vec<Named> {
    let a = case_a();
    let [a1, a2, a3] = [1, 2, 3].map(|number| blocks(&a, &[number]));
    let (zeros, ones) = (vec![0; BLOCK], vec![0xff; BLOCK]);
    let worn = spoiled(&a1, &[(1, TIMES_AT, &[1])]);
    let all: [(&str, &[&Vec<u8>], &str); 12] = [
        ("a bad block first", &[&zeros, &a1, &a2, &a3], "bmmm"),
        ("a bad block second", &[&a1, &ones, &a2, &a3], "kbmm"),
        ("a bad block where block 2 was", &[&a1, &zeros, &a3, &a2], "kbkm"),
        ("a bad block last", &[&a1, &a2, &a3, &ones], "kkkb"),
        ("a block like an earlier bad one", &[&zeros, &zeros, &a1, &a2, &a3], "bbmmm"),
        ("a block like a bad one long before", &[&worn, &a2, &a3, &worn, &a1], "bkkbm"),
        ("a good block after its spoiled copy", &[&worn, &a1, &a2, &a3], "bmmm"),
        ("a spoiled copy of an earlier good block", &[&a1, &worn, &a2, &a3], "kbmm"),
        ("a spoiled copy between two good ones", &[&a1, &worn, &a1, &a2, &a3], "kbdmm"),
        ("two bad blocks, and the others backwards", &[&a3, &zeros, &a2, &ones, &a1], "mbmbm"),
        ("bad, doubled, kept and moved", &[&a3, &a2, &zeros, &a2, &a1, &a3, &worn], "mkbdmdb"),
        ("every second block bad", &[&zeros, &a2, &zeros, &a1, &zeros, &a3, &zeros], "bkbmbmb"),
    ];
    all.map(|(name, parts, fates)| case(name, parts.iter().copied().flatten().copied().collect(), fates, Ok(a.clone()))).into()
}

/// Everything that 13 looks at, in a copy of block 1, of which a good one stands at the end; and what 13 does not look at, in a bad one.
fn faults() -> Vec<Named> {
    let a = case_a();
    let a1 = blocks(&a, &[1]);
    let check = card::checksum(&a1[..CHECK_AT]);
    let bad = [
        ("the first byte of the fate", sealed(&a1, &[(1, 0, &[0x55])])),
        ("the second byte of the fate", sealed(&a1, &[(1, 1, &[0x43])])),
        ("version 2", sealed(&a1, &[(1, 2, &[2])])),
        ("byte 6", sealed(&a1, &[(1, 6, &[1])])),
        ("byte 7", sealed(&a1, &[(1, 7, &[1])])),
        ("byte 180", sealed(&a1, &[(1, 180, &[1])])),
        ("byte 509", sealed(&a1, &[(1, 509, &[1])])),
        ("FFFF among the zeros", spoiled(&a1, &[(1, 300, &[0xff, 0xff])])),
        ("the high byte of the check", spoiled(&a1, &[(1, CHECK_AT, &check.wrapping_add(0x100).to_be_bytes())])),
        ("the low byte of the check", spoiled(&a1, &[(1, CHECK_AT, &(check ^ 1).to_be_bytes())])),
        ("a number of a task, the check left", spoiled(&a1, &[(1, TIMES_AT + 3, &[0x11])])),
        ("other processors in a bad block", sealed(&a1, &[(1, 2, &[2]), (1, CPUS_AT, &[3])])),
        ("another n in a bad block", sealed(&a1, &[(1, 2, &[2]), (1, N_AT, &[4])])),
        ("another number in a bad block", sealed(&a1, &[(1, 2, &[2]), (1, NUMBER_AT, &[4])])),
        ("T 0 in a bad block", sealed(&a1, &[(1, 2, &[2]), (1, TIMES_AT, &[0; 4])])),
    ];
    let among = |block: Vec<u8>| [block, blocks(&a, &[2, 3, 1])].concat();
    let mut all: Vec<Named> = bad.map(|(name, block)| case(name, among(block), "bkkm", Ok(a.clone()))).into();
    let ffff = spoiled(&one(), &[(1, CHECK_AT, &[0xff, 0xff])]);
    all.push(case("the check FFFF in place of 0000, and 0000", [ffff, one()].concat(), "bm", Ok(one())));
    all
}

/// No complete archive: too few good blocks.
fn missing() -> Vec<Named> {
    let a = case_a();
    vec![
        case("one bad block", vec![0; BLOCK], "b", INCOMPLETE),
        case("every block spoiled", spoiled(&a, &[(1, 6, &[1]), (2, 6, &[1]), (3, 6, &[1])]), "bbb", INCOMPLETE),
        case("block 1 left out", blocks(&a, &[2, 3]), "mm", INCOMPLETE),
        case("block 2 left out", blocks(&a, &[1, 3]), "km", INCOMPLETE),
        case("block 3 left out", blocks(&a, &[1, 2]), "kk", INCOMPLETE),
        case("one block of three", blocks(&a, &[3]), "m", INCOMPLETE),
        case("block 1 spoiled", spoiled(&a, &[(1, 6, &[1])]), "bkk", INCOMPLETE),
        case("block 3 spoiled", spoiled(&a, &[(3, CHECK_AT, &[0])]), "kkb", INCOMPLETE),
        case("as many good blocks as n, one of them a copy", blocks(&a, &[1, 3, 3]), "kmd", INCOMPLETE),
        case("block 32 of 32 spoiled", spoiled(&most(), &[(32, 6, &[1])]), &runs(&[("k", 31), ("b", 1)]), INCOMPLETE),
        case("block 33 of 33 left out", good(64, 33, 1..=32), &runs(&[("k", 32)]), INCOMPLETE),
        case("63 blocks of 64, and a copy", good(64, 64, (1..=63).chain([63])), &runs(&[("k", 63), ("d", 1)]), INCOMPLETE),
        case("64 blocks of 65", good(64, 65, 1..=64), &runs(&[("k", 64)]), INCOMPLETE),
        case("64 blocks of 255", good(64, 255, 192..=255), &runs(&[("m", 64)]), INCOMPLETE),
    ]
}

/// No complete archive: what is left is not of one card.
fn of_two_cards() -> Vec<Named> {
    let a = case_a();
    let [a1, a2, a3] = [1, 2, 3].map(|number| blocks(&a, &[number]));
    let other = sealed(&a2, &[(1, TIMES_AT + 3, &[0x21])]);
    let in_its_last_byte = sealed(&a2, &[(1, ZEROS_AFTER - 1, &[1])]);
    // the low words of T and D exchanged
    let of_one_check = spoiled(&a2, &[(1, TIMES_AT + 2, &a2[TIMES_AT + 10..][..2]), (1, TIMES_AT + 10, &a2[TIMES_AT + 2..][..2])]);
    let other_one = sealed(&one(), &[(1, TIMES_AT + 3, &[0x9f])]);
    let longer = sealed(&a, &[(1, TIMES_AT + 3, &[0x11]), (2, TIMES_AT + 3, &[0x21]), (3, TIMES_AT + 3, &[0x31])]);
    let header = |name: &'static str, number: usize, at: usize, byte: u8| case(name, sealed(&a, &[(number, at, &[byte])]), "kkk", INCOMPLETE);
    vec![
        case("another block 2 as well", [&a[..], &other].concat(), "kkkm", INCOMPLETE),
        case("another block 2, which differs in the last byte of its locks", [&a[..], &in_its_last_byte].concat(), "kkkm", INCOMPLETE),
        case("another block 2 with the same check", [&a[..], &of_one_check].concat(), "kkkm", INCOMPLETE),
        case("another block 2 before it", [&a1[..], &other, &a3, &a2].concat(), "kkkm", INCOMPLETE),
        case("another block 2 twice as well", [&a[..], &other, &other].concat(), "kkkmd", INCOMPLETE),
        case("two blocks 2 and no block 3", [&a1[..], &a2, &other].concat(), "kkm", INCOMPLETE),
        case("two blocks 1 of one", [one(), other_one].concat(), "km", INCOMPLETE),
        case("two blocks 1 of two", good(64, 2, [1, 1, 2]).into_iter().chain(card::block(64, 2, 1, &full().tasks[31])).collect(), "kdmm", INCOMPLETE),
        case("two cards alike but for a time in each block", [&a[..], &longer].concat(), "kkkmmm", INCOMPLETE),
        case("one card, and a whole one of one block", [&a[..], &one()].concat(), "kkkm", INCOMPLETE),
        case("one card, and its blocks with other processors", [&a[..], &throughout(&a, CPUS_AT, 3)].concat(), "kkkmmm", INCOMPLETE),
        header("other processors in block 1", 1, CPUS_AT, 3),
        header("other processors in block 2", 2, CPUS_AT, 1),
        header("other processors in block 3", 3, CPUS_AT, 3),
        header("n 4 in block 1", 1, N_AT, 4),
        header("n 4 in block 2", 2, N_AT, 4),
        header("n 4 in block 3", 3, N_AT, 4),
        header("n 2 in block 1", 1, N_AT, 2),
        header("n 2 in block 3", 3, N_AT, 2),
    ]
}

/// No complete archive: n, or a number that is not of 1 to n.
fn misnumbered() -> Vec<Named> {
    let a = case_a();
    let numbered = |byte: u8| sealed(&blocks(&a, &[1]), &[(1, NUMBER_AT, &[byte])]);
    vec![
        case("n 2 throughout", throughout(&a, N_AT, 2), "kkk", INCOMPLETE),
        case("n 4 throughout", throughout(&a, N_AT, 4), "kkk", INCOMPLETE),
        case("n 255 throughout", throughout(&a, N_AT, 255), "kkk", INCOMPLETE),
        case("n 0 throughout", throughout(&a, N_AT, 0), "kkk", INCOMPLETE),
        case("n 0 and number 0", good(2, 0, [0]), "m", INCOMPLETE),
        case("n 0 and number 1", good(2, 0, [1]), "k", INCOMPLETE),
        case("n 1 and number 0", good(2, 1, [0]), "m", INCOMPLETE),
        case("n 1 and number 2", good(2, 1, [2]), "m", INCOMPLETE),
        case("number 0 in place of 1", sealed(&a, &[(1, NUMBER_AT, &[0])]), "mkk", INCOMPLETE),
        case("number 0 as well", [numbered(0), a.clone()].concat(), "mmmm", INCOMPLETE),
        case("number 4 in place of 3", sealed(&a, &[(3, NUMBER_AT, &[4])]), "kkm", INCOMPLETE),
        case("number 4 as well", [a.clone(), numbered(4)].concat(), "kkkk", INCOMPLETE),
        case("number 255 as well", [a.clone(), numbered(255)].concat(), "kkkm", INCOMPLETE),
        case("number 33 beside 32 blocks", [most(), good(64, 32, [33])].concat(), &runs(&[("k", 33)]), INCOMPLETE),
        case("number 65 beside 63 blocks of 64", good(64, 64, (1..=63).chain([65])), &runs(&[("k", 63), ("m", 1)]), INCOMPLETE),
    ]
}

/// A complete archive of a table that is refused. The place is the task's number, not its block's position: block 3 stands first.
fn refused_tables() -> Vec<Named> {
    let a = case_a();
    let tasks: [(&str, usize, usize, u32, Refusal); 8] = [
        ("T 0 of task 2", 2, TIMES_AT, 0, (4, 2)),
        ("D 4,294,967,295 of task 3", 3, TIMES_AT + 8, u32::MAX, (4, 3)),
        ("c 0 of task 1", 1, entry(1) + 2, 0, (4, 1)),
        ("C above D of task 1", 1, TIMES_AT + 4, 10_001, (5, 1)),
        ("D above T of task 2", 2, TIMES_AT + 8, 20_001, (5, 2)),
        ("C above D of task 3", 3, TIMES_AT + 4, 30_001, (5, 3)),
        ("the CT above C of task 1", 1, TIMES_AT + 4, 499, (7, 1)),
        ("CT below c of task 3", 3, entry(1) + 6, 749, (7, 3)),
    ];
    let moved = |card: &[u8]| blocks(card, &[3, 1, 2]);
    let last = sealed(&most(), &[(32, TIMES_AT, &[0; 4])]);
    let mut all: Vec<Named> = Vec::new();
    for (name, number, at, value, refusal) in tasks {
        all.push(case(name, moved(&sealed(&a, &[(number, at, &value.to_be_bytes())])), "mmm", Err(refusal)));
    }
    for (name, m) in [("0 processors", 0), ("65 processors", 65), ("255 processors", 255)] {
        all.push(case(name, moved(&throughout(&a, CPUS_AT, m)), "mmm", Err((4, 0))));
    }
    all.push(case("64 processors", moved(&throughout(&a, CPUS_AT, 64)), "mmm", Ok(throughout(&a, CPUS_AT, 64))));
    all.push(case("T 0 of task 32", last.clone(), &runs(&[("k", 32)]), Err((4, 32))));
    all.push(case("T 0 of task 32, every block twice", last.repeat(2), &runs(&[("k", 32), ("d", 32)]), Err((4, 32))));
    all
}

/// Two faults: which comes first.
fn orders() -> Vec<Named> {
    let a = case_a();
    let period = |number: usize| sealed(&a, &[(number, TIMES_AT, &[0; 4])]);
    let two = sealed(&a, &[(1, TIMES_AT + 8, &[0, 0, 0, 1]), (2, TIMES_AT, &[0; 4])]);
    let worn = spoiled(&period(1), &[(1, 6, &[1])]);
    vec![
        case("15 before 14", vec![0; 1_535], "", Err((15, 0))),
        case("14 by its number before 4 at task 1", blocks(&period(1), &[1, 2]), "kk", INCOMPLETE),
        case("14 by its processors before 4 of the processors", sealed(&a, &[(2, CPUS_AT, &[0])]), "kkk", INCOMPLETE),
        case("14 by another block 1 before 4 at it", [&period(1)[..], &a[..BLOCK]].concat(), "kkkm", INCOMPLETE),
        case("14 before 8", good(64, 40, 1..=39), &runs(&[("k", 39)]), INCOMPLETE),
        case("4 of the processors before 4 at task 1", throughout(&period(1), CPUS_AT, 0), "kkk", Err((4, 0))),
        case("5 at task 1 before 4 at task 2, which stands first", blocks(&two, &[2, 1, 3]), "mmk", Err((5, 1))),
        case("4 at task 2 with its doubled and a bad block", [&period(2)[..], &period(2)[BLOCK..], &[0; BLOCK]].concat(), "kkkddb", Err((4, 2))),
        case("no 4 of a bad block", [worn, a.clone()].concat(), "bkkmdd", Ok(a.clone())),
    ]
}

/// More than 32 blocks that are a complete archive: not 14, but the table's own 8.
fn too_many() -> Vec<Named> {
    let eight = Err((8, 0));
    let kept = |count: usize| runs(&[("k", count)]);
    let among = [vec![0; 11 * BLOCK], good(64, 33, (1..=33).chain(1..=20))].concat();
    vec![
        case("33 blocks of 33", good(64, 33, 1..=33), &kept(33), eight.clone()),
        case("40 blocks of 40", good(64, 40, 1..=40), &kept(40), eight.clone()),
        case("64 blocks of 64", good(64, 64, 1..=64), &kept(64), eight.clone()),
        case("40 blocks of 40 backwards", good(64, 40, (1..=40).rev()), &runs(&[("m", 40)]), eight.clone()),
        case("33 blocks of 33, bad ones before and copies after", among, &runs(&[("b", 11), ("m", 33), ("d", 20)]), eight.clone()),
        case("8 before 4 of the processors", good(0, 33, 1..=33), &kept(33), eight.clone()),
        case("8 before 4 at task 1", sealed(&good(64, 33, 1..=33), &[(1, TIMES_AT, &[0; 4])]), &kept(33), eight),
    ]
}

/// All of them, in a fixed order, the named ones first.
pub fn all() -> Vec<Card> {
    named().into_iter().map(|named| (named.name, named.card)).chain(generated()).chain(long()).collect()
}

/// The cards without a name of their own.
pub fn generated() -> Vec<Card> {
    let mut r = Random::new(7);
    let r = &mut r;
    [accepted(r), lost(r), refused(r), many(r), damaged(r), as_they_are()].concat()
}

/// Cards of an accepted table: from each the very archive comes back.
fn accepted(r: &mut Random) -> Vec<Card> {
    let scatter = |_| {
        let whole = card::write(&generate::table(r));
        let numbers: Vec<usize> = (1..=whole.len() / BLOCK).collect();
        scattered(r, "an archive scattered", &whole, &numbers, Ok(whole.clone()))
    };
    (0..ACCEPTED).map(scatter).collect()
}

/// The same with a block lost.
fn lost(r: &mut Random) -> Vec<Card> {
    let mut all = Vec::new();
    while (all.len() as u64) < LOST {
        let whole = card::write(&generate::table(r));
        let mut numbers: Vec<usize> = (1..=whole.len() / BLOCK).collect();
        numbers.remove(r.next() as usize % numbers.len());
        if !numbers.is_empty() {
            all.push(scattered(r, "an archive scattered, a block lost", &whole, &numbers, INCOMPLETE));
        }
    }
    all
}

/// Tables that are refused, or only just accepted: the reader of archives says of the whole card what is to be said of the scattered one.
fn refused(r: &mut Random) -> Vec<Card> {
    let scatter = |(_, whole): Card| {
        let numbers: Vec<usize> = (1..=whole.len() / BLOCK).collect();
        let saved = card::read(&whole).map(|_| whole.clone());
        scattered(r, "any table's archive scattered", &whole, &numbers, saved)
    };
    cards::beyond(&mut Random::new(8)).into_iter().step_by(BEYOND).map(scatter).collect()
}

/// 33 to 64 tasks, which no table has.
fn many(r: &mut Random) -> Vec<Card> {
    let scatter = |n: u64| {
        let whole = good(r.within(0, 255), n, 1..=n);
        let numbers: Vec<usize> = (1..=n as usize).collect();
        scattered(r, "more than 32 tasks scattered", &whole, &numbers, Err((8, 0)))
    };
    (33..=64).map(scatter).collect()
}

/// These blocks of a whole card, in any order, with copies and bad blocks among them, up to 64. What comes back is known, and the list follows
/// from the numbers alone; both are held against this program.
fn scattered(r: &mut Random, name: &'static str, whole: &[u8], numbers: &[usize], saved: Saved) -> Card {
    let room = BLOCKS - numbers.len();
    let more = (*r.pick(&[0, 1, 2, room / 2, room])).min(room);
    // a bad block has no number
    let mut all: Vec<Option<usize>> = numbers.iter().copied().map(Some).collect();
    all.extend((0..more).map(|_| if r.one_in(2) { None } else { Some(*r.pick(numbers)) }));
    disorder(r, &mut all);
    let card: Vec<u8> = all.iter().flat_map(|number| number.map_or_else(|| bad(r, whole), |number| blocks(whole, &[number]))).collect();
    let fate = |at: usize| match all[at] {
        None => Fate::Bad,
        number if all[..at].contains(&number) => Fate::Doubled,
        Some(number) if number == at + 1 => Fate::Kept,
        Some(_) => Fate::Moved,
    };
    let list = (0..all.len()).map(fate).collect();
    assert_eq!(salvage::salvage(&card, all.len(), card.len()), Salvaged { list, archive: saved }, "{name}: {all:?}");
    (name, card)
}

/// As they were, two exchanged, or in any order.
fn disorder<T>(r: &mut Random, list: &mut [T]) {
    match r.within(0, 3) {
        0 => (),
        1 => list.swap(r.next() as usize % list.len(), r.next() as usize % list.len()),
        _ => (1..list.len()).rev().for_each(|at| list.swap(at, r.within(0, at as u64) as usize)),
    }
}

/// A block that 13 would refuse: no block at all, or one of this card with a fault.
fn bad(r: &mut Random, card: &[u8]) -> Vec<u8> {
    let own = blocks(card, &[r.within(1, (card.len() / BLOCK) as u64) as usize]);
    let at = r.within(0, BLOCK as u64 - 1) as usize;
    match r.within(0, 6) {
        0 => vec![0; BLOCK],
        1 => (0..BLOCK).map(|_| r.next() as u8).collect(),
        2 => sealed(&own, &[(1, *r.pick(&[0, 1, 2]), &[0x77])]),
        3 => sealed(&own, &[(1, *r.pick(&[6, 7, 180, 181, 300, 508, 509]), &[r.within(1, 255) as u8])]),
        4 => spoiled(&own, &[(1, ZEROS_AFTER + 2 * r.within(0, 164) as usize, &[0xff, 0xff])]),
        _ => spoiled(&own, &[(1, at, &[own[at] ^ 1 << r.within(0, 7)])]),
    }
}

/// Several things done to a card, one after another. Most are no archive any more.
fn damaged(r: &mut Random) -> Vec<Card> {
    let mut all = Vec::new();
    for _ in 0..DAMAGED {
        let table = generate::table(r);
        let other = other_table(r, &table);
        let [mut parts, others] = [&table, &other].map(|table| card::write(table).chunks_exact(BLOCK).map(<[u8]>::to_vec).collect::<Vec<_>>());
        for _ in 0..r.within(1, 4) {
            damage(r, &mut parts, &others);
        }
        // the probe has no room for more, and 65 are too many
        parts.truncate(BLOCKS + 1);
        let mut card = parts.concat();
        if r.one_in(20) {
            card.truncate(card.len().saturating_sub(*r.pick(&[1, 2, 256, 511])));
        }
        all.push(("a card damaged at random", card));
    }
    all
}

/// A table to mix in. Half of them have as many processors and tasks as the one that they are mixed into.
fn other_table(r: &mut Random, table: &Table) -> Table {
    let mut other = generate::table(r);
    if r.one_in(2) {
        let tasks: Vec<Task> = other.used().iter().copied().cycle().take(table.n as usize).collect();
        other.tasks[..tasks.len()].copy_from_slice(&tasks);
        (other.m, other.n) = (table.m, table.n);
    }
    other
}

fn damage(r: &mut Random, parts: &mut Vec<Vec<u8>>, others: &[Vec<u8>]) {
    if parts.is_empty() {
        return;
    }
    let (at, place) = (r.next() as usize % parts.len(), r.next() as usize % (parts.len() + 1));
    let own = parts[at].clone();
    match r.within(0, 9) {
        0 => disorder(r, parts),
        1 => parts.insert(place, own),
        2 => drop(parts.remove(at)),
        3 => parts[at] = bad(r, &own),
        4 => parts.insert(place, bad(r, &own)),
        5 => parts.insert(place, r.pick(others).clone()),
        // the same number of the other card, if it has one
        6 => parts[at] = others.iter().find(|other| other[NUMBER_AT] == own[NUMBER_AT]).unwrap_or(&own).clone(),
        7 => parts[at] = altered(r, &own),
        8 => parts.insert(place, altered(r, &own)),
        _ => (0..r.within(1, 60)).for_each(|_| parts.push(r.pick(parts).clone())),
    }
}

/// A good block that differs in a byte: in its processors, n or number, or in its task; or in two words exchanged, with the same check.
fn altered(r: &mut Random, block: &[u8]) -> Vec<u8> {
    if r.one_in(5) {
        let [one, other] = [(); 2].map(|()| 2 * r.within(TIMES_AT as u64 / 2, ZEROS_AFTER as u64 / 2 - 1) as usize);
        return spoiled(block, &[(1, one, &block[other..other + 2]), (1, other, &block[one..one + 2])]);
    }
    let at = if r.one_in(2) { r.within(CPUS_AT as u64, NUMBER_AT as u64) } else { r.within(TIMES_AT as u64, ZEROS_AFTER as u64 - 1) } as usize;
    let byte = *r.pick(&[0, block[at].wrapping_sub(1), block[at].wrapping_add(1), block[at] ^ 0x80]);
    sealed(block, &[(1, at, &[byte])])
}

/// Cards that the reader of archives is tried on.
fn as_they_are() -> Vec<Card> {
    cards::all().into_iter().step_by(OF_CARDS).collect()
}

/// Cards for which the probe has no room. Of 257 blocks a byte counts one.
fn long() -> Vec<Card> {
    let all = [67, 128, 256, 257, 300].map(|count| ("a long card", one().repeat(count)));
    all.into_iter().chain([("a long card", vec![0; 65_537])]).collect()
}

/// What the answer was; of 14 for which reason, if it is the only one, and of the table's own what the place was.
pub fn outcome(card: &[u8], saved: &Saved) -> String {
    match saved {
        Ok(_) => "wrote".into(),
        Err((14, _)) => format!("refused 14, {}", reason(card)),
        Err((number @ (4 | 5 | 7), place @ 0..=1)) => format!("refused {number:>2} place {place}"),
        Err((number @ (4 | 5 | 7), _)) => format!("refused {number:>2} place 2 or later"),
        Err((number, _)) => format!("refused {number:>2}"),
    }
}

const NOTHING: &str = "no block is left";
const PROCESSORS: &str = "processors differ";
const N: &str = "n differs";
const TWICE: &str = "a number twice";
const MISSING: &str = "a number missing";
const OUTSIDE: &str = "a number not of 1 to n";

/// Why what is left of a card is no complete archive.
fn reason(card: &[u8]) -> &'static str {
    let mut left: Vec<&[u8]> = card.chunks_exact(BLOCK).filter(|block| card::sound(block)).collect();
    left.sort();
    left.dedup();
    let Some(first) = left.first() else { return NOTHING };
    let differ = |at: usize| left.iter().any(|block| block[at] != first[at]);
    let numbers: Vec<u8> = left.iter().map(|block| block[NUMBER_AT]).collect();
    let all = [
        (PROCESSORS, differ(CPUS_AT)),
        (N, differ(N_AT)),
        (TWICE, (0..numbers.len()).any(|at| numbers[..at].contains(&numbers[at]))),
        (MISSING, (1..=first[N_AT]).any(|number| !numbers.contains(&number))),
        (OUTSIDE, numbers.iter().any(|number| !(1..=first[N_AT]).contains(number))),
    ];
    let given: Vec<&str> = all.into_iter().filter(|(_, given)| *given).map(|(reason, _)| reason).collect();
    match given[..] {
        [] => panic!("14 for no reason\n{}", cards::dump(card)),
        [reason] => reason,
        _ => "several reasons",
    }
}

/// Every outcome that must come up. A wrong program may know one reason and not another, or look at the first block alone.
pub fn wanted() -> Vec<String> {
    let reasons = [NOTHING, PROCESSORS, N, TWICE, MISSING, OUTSIDE].map(|reason| format!("refused 14, {reason}"));
    let places = [4, 5, 7].into_iter().flat_map(|number| ["1", "2 or later"].map(|place| format!("refused {number:>2} place {place}")));
    let plain = ["wrote", "refused 15", "refused  8", "refused  4 place 0"].map(String::from);
    plain.into_iter().chain(reasons).chain(places).collect()
}

/// Counts the cards whose list has each fate.
pub fn count_fates(tally: &mut Tally, list: &[Fate]) {
    for fate in MARKS.into_iter().filter(|fate| list.contains(fate)) {
        tally.count(format!("a block is {fate}"));
    }
}

pub fn all_fates() -> Vec<String> {
    MARKS.map(|fate| format!("a block is {fate}")).into()
}

const MARKS: [Fate; 4] = [Fate::Bad, Fate::Doubled, Fate::Kept, Fate::Moved];
