//! The state calls at the C boundary, beside the book of `second`.

mod jobs;
mod listing;
mod measure;
mod plain;
mod proved;

use jobs::Call;
pub use jobs::{named, searches, Job, JOURNALS};
pub use listing::{listings, with_rectangles, Listing};
pub use measure::instructions;
use measure::{nanoseconds, repeat, TIMED};
use plain::Plain;
use proved::Proved;

use crate::kinds::{self, Order};
use crate::table::Cost;

/// Bytes of output memory, enough for every record.
const OUT: usize = rail::Window::SIZE;

/// The orders that stand after the mark and their bytes, or the number of a refusal.
type Answer = Result<(usize, usize), u8>;

/// The offset that an explanation tells, where a lookup's record would stand.
fn put_offset(out: &mut [u8], offset: usize) {
    out[..2].copy_from_slice(&(offset as u16).to_le_bytes());
}

/// A table with its history.
trait State {
    /// Makes a call.
    fn call(&mut self, call: &Call, out: &mut [u8]) -> Answer;

    /// Takes back what the call changed.
    fn restore(&mut self, call: &Call);
}

/// The sides that are compared.
#[derive(Clone, Copy)]
enum Side {
    Proved,
    Plain,
}

impl Side {
    fn name(self) -> &'static str {
        match self {
            Side::Proved => "proved",
            Side::Plain => "plain",
        }
    }

    /// What its entry points' names begin with.
    fn prefix(self) -> &'static str {
        match self {
            Side::Proved => "rail",
            Side::Plain => "plain",
        }
    }

    fn state(self, job: &Job, journal: &[Order]) -> Box<dyn State> {
        match self {
            Side::Proved => Box::new(Proved::new(job, journal)),
            Side::Plain => Box::new(Plain::new(job, journal)),
        }
    }
}

/// Prints a table for each listing, or for one, once both sides answer alike, and then the aims.
pub fn run(only: Option<&str>) -> Result<(), String> {
    let mut listings = listings();
    if let Some(only) = only {
        listings.retain(|listing| listing.name == only);
    }
    if listings.is_empty() {
        return Err("no such listing".into());
    }
    let mut met = Vec::new();
    for listing in listings {
        let jobs = jobs::all(&listing);
        for job in &jobs {
            check_all(job)?;
        }
        println!("### {}", listing.label);
        println!();
        print_head();
        for job in &jobs {
            let costs = print_row(&listing, job)?;
            met.push(Measured::new(&listing, job, &costs));
        }
        println!();
    }
    print_aims(&met);
    print_notes();
    Ok(())
}

fn print_head() {
    let titles = |unit| {
        JOURNALS
            .map(|orders| format!("{orders}: {unit}"))
            .join(" | ")
    };
    println!(
        "| Call, with so many orders in the journal | Bytes | {} | {} |",
        titles("instructions"),
        titles("ns"),
    );
    println!("|---|{}", "---:|".repeat(1 + 2 * JOURNALS.len()));
}

/// Prints a call's row. Its instructions with each journal.
fn print_row(listing: &Listing, job: &Job) -> Result<Vec<Option<Cost>>, String> {
    let count = |orders| {
        let cost = job.journal(orders);
        cost.map(|_| instructions(listing, job, orders)).transpose()
    };
    let time = |orders| {
        let journal = job.journal(orders);
        journal.map(|journal| nanoseconds(job, &journal))
    };
    let counts = JOURNALS
        .into_iter()
        .map(count)
        .collect::<Result<Vec<_>, String>>()?;
    let times = JOURNALS.into_iter().map(time);
    let cells: Vec<String> = counts.iter().copied().chain(times).map(text).collect();
    let bytes = job.bytes().map_or(String::new(), |bytes| bytes.to_string());
    println!("| {} | {bytes} | {} |", job.label, cells.join(" | "));
    Ok(counts)
}

fn text(cost: Option<Cost>) -> String {
    cost.map_or("refused: 13".into(), Cost::text)
}

/// The proved side's instructions of a call.
struct Measured {
    listing: &'static str,
    call: &'static str,
    /// Whether it delivers the largest icon.
    is_icon: bool,
    /// With 8 orders in the journal.
    with_8: f64,
    /// More for each further order, up to the longest journal.
    further: f64,
}

impl Measured {
    fn new(listing: &Listing, job: &Job, costs: &[Option<Cost>]) -> Self {
        let proved = |index: usize| costs[index].expect("granted with a journal").proved;
        let orders = |index: usize| {
            job.journal(JOURNALS[index])
                .map_or(0, |orders| orders.len())
        };
        Self {
            listing: listing.name,
            call: job.call.entry(),
            is_icon: job.bytes() == Some(kinds::LARGEST_ICON),
            with_8: proved(1),
            further: (proved(3) - proved(1)) / (orders(3) - orders(1)) as f64,
        }
    }
}

/// Prints what the calls were to stay under, beside the most that was measured.
fn print_aims(met: &[Measured]) {
    let is_full = |one: &&Measured| matches!(one.listing, "full" | "equal" | "store");
    if !met.iter().any(|one| is_full(&one)) {
        return;
    }
    let of_call = |call: &'static str| met.iter().filter(move |one| one.call == call);
    let most = |figures: Vec<f64>| figures.into_iter().fold(0.0, f64::max);
    let with_8 = |call, is_icon| {
        let measured = of_call(call).filter(is_full);
        let measured = measured.filter(|one| one.is_icon == is_icon);
        most(measured.map(|one| one.with_8).collect())
    };
    let further = most(
        of_call("deliver")
            .filter(is_full)
            .map(|one| one.further)
            .collect(),
    );
    // in this listing a window shows pictures
    let in_store = of_call("window").filter(|one| one.listing == "store");
    let two_pictures = most(in_store.map(|one| one.with_8).collect());
    println!("| Aim, in instructions | At most | Measured |");
    println!("|---|---:|---:|");
    for (what, aim, figure) in [
        ("a delivery", 9_000.0, with_8("deliver", false)),
        (
            "a delivery of the largest icon",
            10_500.0,
            with_8("deliver", true),
        ),
        ("a window lookup, with two pictures", 13_000.0, two_pictures),
        ("a cell lookup", 11_500.0, with_8("cell", false)),
        ("each further order, at a delivery", 330.0, further),
    ] {
        let missed = if figure > aim { ", missed" } else { "" };
        println!(
            "| Full table, 8 orders in the journal: {what} | {aim:.0} | {figure:.0}{missed} |"
        );
    }
    println!();
}

/// With every journal.
pub fn check_all(job: &Job) -> Result<(), String> {
    JOURNALS
        .into_iter()
        .try_for_each(|orders| check(job, orders))
}

/// Both sides give the same answers and records, again and again.
fn check(job: &Job, orders: usize) -> Result<(), String> {
    let Some(journal) = job.journal(orders) else {
        return Ok(());
    };
    let mut given = Vec::new();
    for side in [Side::Proved, Side::Plain] {
        let mut state = side.state(job, &journal);
        for _ in 0..3 {
            let mut out = vec![0xEE; OUT];
            let answer = state.call(&job.call, &mut out);
            state.restore(&job.call);
            given.push((answer, out));
        }
    }
    if given[0].0.err() != job.refused {
        let answer = &given[0].0;
        return Err(format!("{} answers {answer:?}", job.label));
    }
    if given.iter().any(|one| *one != given[0]) {
        let answers: Vec<Answer> = given.iter().map(|(answer, _)| *answer).collect();
        return Err(format!("{} differs: {answers:?}", job.label));
    }
    Ok(())
}

/// `bench state-one`: the calls that callgrind counts.
pub fn one(listing: &str, call: &str, orders: &str, side: &str, calls: &str) -> Result<(), String> {
    let number = |text: &str| -> Result<usize, String> {
        text.parse().map_err(|_| format!("`{text}` is no number"))
    };
    let mut all = listings().into_iter().chain(with_rectangles());
    let known = all.find(|known| known.name == listing);
    let listing = known.ok_or_else(|| format!("no listing `{listing}`"))?;
    let job = jobs::named(&listing, call).ok_or_else(|| format!("no call `{call}`"))?;
    let journal = job.journal(number(orders)?);
    let journal = journal.ok_or_else(|| format!("`{call}` is refused then"))?;
    let side = [Side::Proved, Side::Plain]
        .into_iter()
        .find(|known| known.name() == side)
        .ok_or_else(|| format!("no side `{side}`"))?;
    repeat(&mut *side.state(&job, &journal), &job.call, number(calls)?);
    Ok(())
}

/// `bench state-calls`.
pub fn list() -> Result<(), String> {
    for listing in listings() {
        for job in jobs::all(&listing) {
            println!(
                "{} {}: {}, {}",
                listing.name, job.name, listing.label, job.label
            );
        }
    }
    Ok(())
}

/// Tells what is compared.
fn print_notes() {
    println!(
        "Proved / plain (ratio). Proved: the entry point of librail.a on lent memory, called from the crate `rail`. Plain: the same call on the \
         book of `second`, which writes the same record in the same layout. One window, 8 windows: so many with a title, beside that of the order or \
         of the icon, and in the calls besides deliveries a notification icon and a cell. Full table: 32 windows with all fields at their largest (31 \
         before a new one), 16 notification icons, 12 cells of the largest picture. 64 places: so many of the largest picture are in use, two by each \
         window. Equal low bytes: ids that differ in their highest byte alone. The \
         journal has so many updates of 111 bytes of one window, the last listed, which is also the one looked up (one fewer than 128 before a \
         delivery, which needs room). Every call begins from the same state: what it changed is taken back in between and not counted."
    );
    println!();
    println!(
        "The two do not keep the same. The book keeps the present table beside the orders: a delivery changes it, a \
         lookup reads it, an undo makes it anew from the table at the mark and the orders that are left, a checkpoint \
         copies it. It trusts its memory and takes from the heap. The library keeps the table at the mark and the \
         orders since; each call first establishes that all of its memory, which may hold anything, is well formed, \
         and a lookup makes what it hands out from the orders."
    );
    println!();
    println!(
        "Instructions: callgrind, inside the entry point and all that it calls, the difference of two runs; a copy by \
         one repeated instruction counts once for each repetition, as that of a picture does on both sides. \
         Nanoseconds: the median of {TIMED} single calls, the clock's own time taken off."
    );
}

#[cfg(test)]
mod tests {
    use super::*;

    /// The jobs of all tables.
    fn every_job() -> Vec<(Listing, Job)> {
        let mut every = Vec::new();
        for listing in listings() {
            let marks = (1..).zip(kinds::all());
            let marks = marks.map(|(number, kind)| Job::mark(&listing, number, &kind));
            let jobs = jobs::all(&listing).into_iter().chain(marks);
            let jobs: Vec<Job> = jobs.chain(searches(&listing)).collect();
            for job in jobs {
                let known = listings().into_iter().find(|one| one.name == listing.name);
                every.push((known.expect("a name"), job));
            }
        }
        every
    }

    #[test]
    fn both_sides_answer_alike() {
        for (listing, job) in every_job() {
            check_all(&job).unwrap_or_else(|fault| panic!("{}: {fault}", listing.label));
        }
    }

    /// What is lent holds the same bytes each time.
    #[test]
    fn the_state_is_the_same_each_time() {
        for (listing, job) in every_job() {
            for journal in JOURNALS.iter().filter_map(|&orders| job.journal(orders)) {
                let mut state = Proved::new(&job, &journal);
                repeat(&mut state, &job.call, 1);
                let before = state.clone();
                repeat(&mut state, &job.call, 1);
                assert!(state == before, "{}: {}", listing.label, job.label);
            }
        }
    }

    #[test]
    fn names_are_found_again() {
        let jobs = every_job();
        assert_eq!(jobs.len(), 5 * (16 + 10) + 3 * 4);
        for (listing, job) in jobs {
            let found = jobs::named(&listing, &job.name).expect("a name");
            assert_eq!(found.label, job.label);
        }
    }
}
