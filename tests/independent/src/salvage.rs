//! The archive that is saved from a card with blocks spoiled, doubled or out of order. Written from request 5/12.

use std::collections::BTreeSet;
use std::fmt;

use crate::card::{self, BLOCK, CPUS_AT, NUMBER_AT, N_AT};
use crate::table::{Refusal, Table};

/// How many blocks a card may have here. An archive has 32 at most; the others are spoiled ones and copies.
pub const BLOCKS: usize = 64;

/// What the list says of a block, as the byte that stands for it there.
#[derive(Clone, Copy, PartialEq, Eq, Debug)]
pub enum Fate {
    Bad = 0,
    Doubled = 1,
    Kept = 2,
    Moved = 3,
}

/// What becomes of a card. The list has a fate for every block, or is empty: with 15 or 11 nothing is written.
#[derive(PartialEq, Eq, Debug)]
pub struct Salvaged {
    pub list: Vec<Fate>,
    pub archive: Result<Vec<u8>, Refusal>,
}

/// A list of so many entries is lent, and an output of so many bytes.
pub fn salvage(input: &[u8], entries: usize, room: usize) -> Salvaged {
    let count = input.len() / BLOCK;
    if input.len() % BLOCK != 0 || !(1..=BLOCKS).contains(&count) {
        return Salvaged { list: vec![], archive: Err((15, 0)) };
    }
    if entries < count || room < input.len() {
        return Salvaged { list: vec![], archive: Err((11, 0)) };
    }
    let mut good = BTreeSet::new();
    let list = (1..).zip(input.chunks_exact(BLOCK)).map(|(position, block)| fate(position, block, &mut good)).collect();
    Salvaged { list, archive: archive(&good) }
}

/// The good blocks before this one are in the set, and it joins them. A set does not take a block twice, so that the blocks that are left are
/// what it holds in the end.
fn fate<'a>(position: u8, block: &'a [u8], good: &mut BTreeSet<&'a [u8]>) -> Fate {
    if !card::sound(block) {
        Fate::Bad
    } else if !good.insert(block) {
        Fate::Doubled
    } else if block[NUMBER_AT] == position {
        Fate::Kept
    } else {
        Fate::Moved
    }
}

/// The set has its blocks in the order of their bytes. If they agree in all that stands before the number, that is the order of the numbers; if
/// they do not, they are no archive anyway.
fn archive(left: &BTreeSet<&[u8]>) -> Result<Vec<u8>, Refusal> {
    let first = left.first().ok_or((14, 0))?;
    let (m, n) = (first[CPUS_AT], first[N_AT]);
    let found = left.iter().map(|block| &block[CPUS_AT..=NUMBER_AT]);
    if !found.eq((1..=n).map(|number| [m, n, number])) {
        return Err((14, 0));
    }
    let mut table = Table { m: m.into(), n: n.into(), ..Table::zero() };
    // a 33rd block finds no slot, and then n is refused before any task is looked at
    for (slot, block) in table.tasks.iter_mut().zip(left) {
        *slot = card::task(block);
    }
    table.check()?;
    Ok(left.iter().copied().collect::<Vec<_>>().concat())
}

impl fmt::Display for Fate {
    fn fmt(&self, f: &mut fmt::Formatter) -> fmt::Result {
        f.write_str(match self {
            Fate::Bad => "bad",
            Fate::Doubled => "doubled",
            Fate::Kept => "kept",
            Fate::Moved => "moved",
        })
    }
}
