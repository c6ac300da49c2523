//! What the programs `archive`, `unarchive` and `salvage` are to write, and each held to it.

use crate::compare::{self, run, Tally};
use crate::salvage::{self, Salvaged, BLOCKS};
use crate::table::Refusal;
use crate::{card, cards, cases, listing, report, salvages};

/// Of the listings that were generated, one in so many is archived: the reports and readings have them all.
const ONE_IN: usize = 20;

/// What goes to standard output; or, of what is refused, the line that goes to standard error.
pub type Said = Result<Vec<u8>, String>;

pub fn archive(listing: &[u8]) -> Said {
    listing::read(listing).and_then(|table| card::archived(&table)).map_err(report::refused)
}

pub fn unarchive(bytes: &[u8]) -> Said {
    card::read(bytes).map(|table| listing::write(&table).into_bytes()).map_err(refused)
}

/// What goes to standard output, and what to standard error, of a program that writes to both.
pub type Both = (Vec<u8>, String);

pub fn salvage(bytes: &[u8]) -> Both {
    both(lend_enough(bytes))
}

/// There is room for every card, so that 11 never comes up.
fn lend_enough(bytes: &[u8]) -> Salvaged {
    salvage::salvage(bytes, BLOCKS, BLOCKS * card::BLOCK)
}

/// The archive, and beside it the list and then the refusal, if it is one.
fn both(Salvaged { list, archive }: Salvaged) -> Both {
    let mut lines: String = (1..).zip(&list).map(|(position, fate)| format!("{position} {fate}\n")).collect();
    let archive = archive.unwrap_or_else(|refusal| {
        lines.push_str(&refused(refusal));
        vec![]
    });
    (archive, lines)
}

/// The refusal of a card or of a table that is handed over, which have places and no lines.
pub fn refused((number, place): Refusal) -> String {
    format!("refused {number} place {place}\n")
}

pub fn compare(archive: &str, unarchive: &str, salvage: &str) -> bool {
    archives(archive) && unarchives(unarchive) && there_and_back(archive, unarchive) && salvages(salvage)
}

fn outcome(said: &Said) -> String {
    let number = |line: &String| format!("refused {:>2}", line.split(' ').nth(1).unwrap_or(""));
    said.as_ref().map_or_else(number, |_| "accepted".into())
}

fn wanted(refusals: &[u32]) -> Vec<String> {
    refusals.iter().map(|k| format!("refused {k:>2}")).chain(["accepted".into()]).collect()
}

fn archives(program: &str) -> bool {
    let mut tally = Tally::new();
    let named = cases::listings().len();
    for (_, listing) in compare::listings().iter().enumerate().filter(|(at, _)| *at < named || at % ONE_IN == 0) {
        let said = archive(listing);
        let found = run(program, listing);
        if !found.says(&said) {
            println!("{program} differs on\n{}\nhere:\n{}\nthere:\n{found}", String::from_utf8_lossy(listing), shown(&said));
            return false;
        }
        tally.compared += 1;
        tally.count(outcome(&said));
        if let Some(without) = without_alpha(listing).filter(|_| said.is_ok()) {
            assert_eq!(archive(&without), said, "alpha is not dropped:\n{}", String::from_utf8_lossy(listing));
            tally.count(DROPPED.into());
        }
    }
    tally.print(&format!("listings archived: {} compared", tally.compared));
    tally.covers(&wanted(&[1, 2, 3, 4, 5, 6, 7, 8, 9, 17, 18, 19, 20])) && tally.covers(&[DROPPED.into()])
}

const DROPPED: &str = "accepted, and the same as without alpha";

/// An accepted listing with alpha, without its lines of alpha.
fn without_alpha(listing: &[u8]) -> Option<Vec<u8>> {
    let table = listing::read(listing).ok()?;
    let text = std::str::from_utf8(listing).ok()?;
    (table != table.without_alpha()).then(|| cases::without_alpha(text).into_bytes())
}

fn unarchives(program: &str) -> bool {
    let mut tally = Tally::new();
    for (name, bytes) in cards::some() {
        let said = unarchive(&bytes);
        let found = run(program, &bytes);
        if !found.says(&said) {
            println!("{program} differs on a card: {name}\n{}here:\n{}\nthere:\n{found}", cards::dump(&bytes), shown(&said));
            return false;
        }
        tally.compared += 1;
        tally.count(outcome(&said));
    }
    tally.print(&format!("cards unarchived: {} compared", tally.compared));
    tally.covers(&wanted(&[4, 5, 7, 12, 13, 14]))
}

fn salvages(program: &str) -> bool {
    let (mut tally, mut fates) = (Tally::new(), Tally::new());
    for (name, bytes) in salvages::all() {
        let salvaged = lend_enough(&bytes);
        tally.compared += 1;
        tally.count(salvages::outcome(&bytes, &salvaged.archive));
        salvages::count_fates(&mut fates, &salvaged.list);
        let (archive, lines) = both(salvaged);
        let found = run(program, &bytes);
        if !found.wrote(&archive, lines.as_bytes()) {
            println!("{program} differs on a card: {name}\n{}here:\n{}{lines}", cards::dump(&bytes), cards::dump(&archive));
            println!("there:\n{}{}", cards::dump(found.output()), found.end());
            return false;
        }
    }
    tally.print(&format!("cards salvaged: {} compared", tally.compared));
    fates.print("in their lists");
    tally.covers(&salvages::wanted()) && fates.covers(&salvages::all_fates())
}

fn shown(said: &Said) -> String {
    match said {
        Ok(bytes) => String::from_utf8_lossy(bytes).into_owned(),
        Err(line) => format!("on standard error: {line}"),
    }
}

/// Every task and every pair: what one program wrote goes to the other, and the listing comes back, without alpha if it had any.
fn there_and_back(archive: &str, unarchive: &str) -> bool {
    let text = listing::write(&cards::full());
    for listing in [text.clone(), cases::with_alpha(&text, 64)] {
        let there = run(archive, listing.as_bytes());
        let back = run(unarchive, there.output());
        if !there.is(card::write(&cards::full())) || !back.is(&text) {
            println!("32 tasks with 16 locks each do not come back\n{there}\n{back}");
            return false;
        }
    }
    println!("32 tasks with 16 locks each are archived and come back, and with alpha they come back without");
    true
}
