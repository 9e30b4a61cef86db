//! Whole updates at the C boundary, beside the book of `second`: instructions per order
//! in a batch, with its share of the one validation.
//!
//! A call with limit 0 only validates. What a batch takes more, for each of its orders, is
//! the order's own; where a kind needs another in between (a new window has to go before it
//! can come again), it is what the last of its kind adds.

use std::env;
use std::hint::black_box;

use rail::Memory;
use second::book::Book;
use second::update::{self, Report};

use crate::callgrind;
use crate::kinds::{self, Kind, Order};
use crate::state::{listings, with_rectangles, Job, Listing};
use crate::table::Cost;

/// Orders of a batch, and the bytes that the history has room for.
const BATCH: usize = 32;
const ROOM: usize = 32_768;
/// N: callgrind counts N and 2N calls. Both have as many digits.
const CALLS: usize = 20;
/// The listings, each with its column of the aims. The aims are older than the figures that
/// every validation counts: so a full table is measured with one rectangle in each window
/// too.
const LISTINGS: [(&str, usize); 3] = [("one", 0), ("apart-1", 1), ("full", 1)];
/// What an order of each kind is to stay under, with one window and with a full table.
const AIMS: [[f64; 2]; 8] = [
    [700.0, 950.0],
    [950.0, 1_200.0],
    [650.0, 850.0],
    [520.0, 720.0],
    [1_500.0, 1_700.0],
    [300.0, 500.0],
    [230.0, 420.0],
    [360.0, 360.0],
];
const SIDES: [&str; 2] = ["rail_update", "plain_update"];

/// The orders of a kind's batch, each granted on what those before it leave.
fn batch(kind: &Kind) -> Vec<&Order> {
    let mut bytes = 0;
    let turn = kind.turn.iter().cycle().take(BATCH);
    turn.take_while(|order| {
        bytes += order.len();
        bytes <= ROOM
    })
    .collect()
}

/// A listing by its name, those with rectangles that are apart among them.
fn named(name: &str) -> Result<Listing, String> {
    let mut all = listings().into_iter().chain(with_rectangles());
    let known = all.find(|known| known.name == name);
    known.ok_or_else(|| format!("no listing `{name}`"))
}

/// Prints a table for each listing, once both sides answer alike.
pub fn run() -> Result<(), String> {
    for (name, column) in LISTINGS {
        let listing = named(name)?;
        let each = listing.apart().map(|count| format!(": {count} in each"));
        println!("### {}{}", listing.label, each.unwrap_or_default());
        println!();
        println!("| Order | Bytes | Batch | Validation | Its own | With its share | Aim |");
        println!("|---|{}", "---:|".repeat(6));
        for (kind, aims) in kinds::all().iter().zip(AIMS) {
            print_row(&listing, kind, aims[column])?;
        }
        println!();
    }
    println!(
        "Instructions, proved / plain (ratio), of `rail_update` and of the second program's update on its book, with no order after the mark. Validation: \
         the call with limit 0. Its own: what an order adds, the mean over the batch; of a kind that comes in turn with another, what the last \
         one adds. With its share: its own and the validation divided by the orders of the batch. Counted by callgrind as under \"State calls\"."
    );
    Ok(())
}

/// Prints what an order of the kind takes with a listing, and whether it stays under the aim.
fn print_row(listing: &Listing, kind: &Kind, aim: f64) -> Result<(), String> {
    check(listing, kind)?;
    let orders = batch(kind).len();
    let [proved, plain] = [0, 1].map(|side| costs(listing, kind, side));
    let (proved, plain) = (proved?, plain?);
    let share = |(validation, own): (f64, f64)| own + validation / orders as f64;
    let pair = |proved, plain| Cost { proved, plain }.text();
    let missed = if share(proved) > aim { ", missed" } else { "" };
    println!(
        "| {} | {} | {orders} | {} | {} | {} | {aim:.0}{missed} |",
        kind.label,
        kind.order().len(),
        pair(proved.0, plain.0),
        pair(proved.1, plain.1),
        pair(share(proved), share(plain)),
    );
    Ok(())
}

/// What the call takes with limit 0, and what an order of the kind adds.
fn costs(listing: &Listing, kind: &Kind, side: usize) -> Result<(f64, f64), String> {
    let orders = batch(kind).len();
    let count = |limit| instructions(listing, kind, side, limit);
    let validation = count(0)?;
    if kind.turn.len() == 1 {
        return Ok((validation, (count(orders)? - validation) / orders as f64));
    }
    let last = orders - kind.turn.len() + kind.at;
    Ok((validation, count(last + 1)? - count(last)?))
}

fn instructions(listing: &Listing, kind: &Kind, side: usize, limit: usize) -> Result<f64, String> {
    let program = env::current_exe().map_err(|error| format!("own program: {error}"))?;
    let function = SIDES[side];
    let limit = limit.to_string();
    let total = |calls: usize| {
        let calls = calls.to_string();
        let words = [
            "update-one",
            listing.name,
            kind.label,
            &limit,
            function,
            &calls,
        ];
        callgrind::count_within(function, &program, &words).map(|counted| counted.total)
    };
    Ok((total(2 * CALLS)? - total(CALLS)?) as f64 / CALLS as f64)
}

/// The table at the mark, on both sides.
fn states(listing: &Listing, kind: &Kind) -> (Memory, Book) {
    let first = Kind {
        label: kind.label,
        before: kind.before.clone(),
        turn: kind.turn.clone(),
        at: 0,
    };
    let job = Job::delivery(listing, 0, &first);
    let (mut memory, mut book) = (Memory::new(), Book::new());
    memory.lend().reset().expect("an emptying is granted");
    for order in &job.at_mark {
        let mut lent = memory.lend();
        lent.deliver(order).expect("the orders before are granted");
        lent.checkpoint().expect("a mark is granted");
        book.deliver(order).expect("the orders before are granted");
        book.mark();
    }
    (memory, book)
}

/// Both sides grant the whole batch and report alike.
fn check(listing: &Listing, kind: &Kind) -> Result<(), String> {
    let (mut memory, mut book) = states(listing, kind);
    let bytes: Vec<u8> = batch(kind).into_iter().flatten().copied().collect();
    let limit = BATCH as u32;
    let proved = memory.lend().update(limit, &bytes);
    let proved = proved.map_err(|refusal| format!("{}: {refusal}", kind.label))?;
    let plain = plain_update(&mut book, limit, &bytes);
    let alike = proved.refusal.is_none()
        && plain.number == 0
        && (proved.orders, proved.bytes) == (plain.orders as usize, plain.bytes)
        && proved.bytes == bytes.len();
    if alike {
        return Ok(());
    }
    Err(format!("{} differs: {proved:?}, {plain:?}", kind.label))
}

#[no_mangle]
#[inline(never)]
pub fn plain_update(book: &mut Book, limit: u32, bytes: &[u8]) -> Report {
    update::deliver(book, limit, bytes)
}

/// `bench update-one`: the calls that callgrind counts.
pub fn one(listing: &str, kind: &str, limit: &str, side: &str, calls: &str) -> Result<(), String> {
    let number = |text: &str| -> Result<u32, String> {
        text.parse().map_err(|_| format!("`{text}` is no number"))
    };
    let listing = named(listing)?;
    let known = kinds::all().into_iter().find(|known| known.label == kind);
    let kind = known.ok_or_else(|| format!("no order `{kind}`"))?;
    let (limit, calls) = (number(limit)?, number(calls)?);
    let (mut memory, mut book) = states(&listing, &kind);
    let bytes: Vec<u8> = batch(&kind).into_iter().flatten().copied().collect();
    for _ in 0..calls {
        if side == SIDES[0] {
            let report = black_box(memory.lend().update(black_box(limit), &bytes));
            report.map_err(|refusal| refusal.to_string())?;
            // The bytes of the journal still stand behind its count.
            memory.journal[..2].fill(0);
        } else {
            let report = black_box(plain_update(&mut book, black_box(limit), &bytes));
            book.step_back(report.orders).map_err(|n| n.to_string())?;
        }
    }
    Ok(())
}

#[cfg(test)]
mod tests {
    use super::*;

    #[test]
    fn both_sides_report_alike() {
        for listing in listings() {
            for kind in kinds::all() {
                check(&listing, &kind).unwrap_or_else(|fault| panic!("{}: {fault}", listing.label));
            }
        }
    }

    #[test]
    fn seven_icons_fit() {
        let sizes: Vec<usize> = kinds::all().iter().map(|kind| batch(kind).len()).collect();
        assert_eq!(sizes, [32, 32, 32, 32, 7, 32, 32, 32]);
    }
}
