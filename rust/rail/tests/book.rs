//! Generated lists of calls, on lent memory and on a session of its own, answer as
//! the second program's book does.
//!
//! RAIL_LISTS in the environment says for how many seeds, by default 500.

mod common;

use common::{
    compare, layout, lend, lend_to_book, look_up, make, may_change, memory, number_of, steps,
    Record, Step,
};
use rail::{
    CacheCell, Memory, Refusal, Session, Standing, View, FEWEST_PLACES, MOST_PLACES, PLACE_SIZE,
    STORE_PARTS,
};
use second::generate::session::script;
use second::script::parts::{first_places, Parts, StoreLengths, FIRST_LENGTHS};
use second::script::session::{Call, Session as BookSession};
use second::table::Table;

/// Calls of a list.
const CALLS: usize = 300;

fn lists() -> u64 {
    match std::env::var("RAIL_LISTS") {
        Ok(text) => text.parse().expect("RAIL_LISTS is a number"),
        Err(_) => 500,
    }
}

/// What the lists came to.
#[derive(Default)]
struct Tally {
    numbers: [u64; 18],
    /// Granted lookups of windows, notification icons, pictures, the desktop, the lists and
    /// what is shared.
    found: [u64; 6],
}

impl Tally {
    fn count(&mut self, answer: &common::Answer) {
        self.numbers[usize::from(number_of(answer))] += 1;
        match answer {
            Ok((_, Record::Window(_))) => self.found[0] += 1,
            Ok((_, Record::NotificationIcon(_))) => self.found[1] += 1,
            Ok((_, Record::Picture(_))) => self.found[2] += 1,
            Ok((_, Record::Desktop(_))) => self.found[3] += 1,
            Ok((_, Record::Lists(..))) => self.found[4] += 1,
            Ok((_, Record::Shared(_))) => self.found[5] += 1,
            _ => {}
        }
    }
}

/// Runs the list of a seed on lent memory; a text where something is wrong.
fn run_lent(seed: u64, tally: &mut Tally) -> Result<(), String> {
    let script = script(seed, CALLS, &Parts::default());
    let mut book = BookSession::default();
    let mut memory = memory();
    memory.store.iter_mut().for_each(|part| part.fill(0xEE));
    let first = lend(&mut memory, None, &FIRST_LENGTHS).reset();
    first.expect("memory of the needed lengths");
    let mut before = memory.clone();
    for (at, step) in steps(&script).iter().enumerate() {
        let mut lent = lend(&mut memory, step.lack, &step.store);
        let answer = make(&mut lent, &step.call);
        tally.count(&answer);
        lend_to_book(&mut book, step);
        compare(&mut book, &step.call, &answer).map_err(|text| told(at, step, &text))?;
        let table = book.book().table();
        if answer.is_ok() && !written_alike(lent.view(), &step.call, table) {
            return Err(told(at, step, "writes other bytes"));
        }
        if answer.is_ok() && may_change(&step.call) {
            if !places_alone(&memory, &before, &step.store, table.places()) {
                return Err(told(at, step, "changes bytes outside its places"));
            }
            before.clone_from(&memory);
        } else if memory != before {
            return Err(told(at, step, "changes memory that it must leave alone"));
        }
    }
    Ok(())
}

/// Whether no byte of the store differs but in so many places of what was lent of it.
fn places_alone(memory: &Memory, before: &Memory, lent: &StoreLengths, places: usize) -> bool {
    let mut used = [0; STORE_PARTS];
    for (part, _) in first_places(lent, places) {
        used[part] += PLACE_SIZE;
    }
    let parts = memory.store.iter().zip(&before.store);
    let mut parts = parts.zip(used);
    parts.all(|((part, before), used)| part[used..] == before[used..])
}

/// The bytes that a lookup writes, and those after them, which it leaves alone.
fn written_alike(view: View<'_>, call: &Call<'_>, table: &Table) -> bool {
    const AFTER: usize = 3;
    let Some(mut expected) = layout::bytes(table, call) else {
        return true;
    };
    expected.extend([0xEE; AFTER]);
    let mut out = vec![0xEE; expected.len()];
    look_up(view, call, &mut out).is_some_and(|answer| answer.is_ok()) && out == expected
}

fn told(at: usize, step: &Step<'_>, text: &str) -> String {
    format!(
        "call {at}, {:02x?}, lacking {:?} with a store of {:?}: {text}",
        step.call, step.lack, step.store
    )
}

#[test]
fn lent_memory_answers_as_the_book() {
    let mut tally = Tally::default();
    let lists = lists();
    for seed in 0..lists {
        run_lent(seed, &mut tally).unwrap_or_else(|text| panic!("seed {seed}: {text}"));
    }
    let calls: u64 = tally.numbers.iter().sum();
    println!("{lists} lists, {calls} calls: numbers {:?}", tally.numbers);
    println!("granted lookups: {:?}", tally.found);
    // Every number of the state calls comes, and every lookup is granted, many times.
    assert!(tally.numbers[..15].iter().all(|&count| count > 20));
    assert!(tally.numbers[17] > 20);
    assert!(tally.found.iter().all(|&count| count > 500));
}

/// Makes a call on a session; its standing is told by `standing`.
fn make_owned(session: &mut Session, call: &Call<'_>) -> Result<Standing, Refusal> {
    match *call {
        Call::Empty => session.reset(),
        Call::Deliver(order) => return session.deliver(order),
        Call::Update(limit, orders) => {
            let report = session.update(limit, orders);
            return report.refusal.map_or(Ok(report.standing), Err);
        }
        Call::Mark => session.checkpoint(),
        Call::StepBack(steps) => return session.undo(steps.into()),
        _ => {}
    }
    Ok(session.standing())
}

/// The ids that the session lists are those of the table, also in stacking order.
fn listed_alike(session: &Session, table: &Table) -> bool {
    let windows: Vec<u32> = session.windows().map(|(id, _)| id.0).collect();
    let icons: Vec<_> = session.notification_icons().map(|(ids, _)| ids).collect();
    let stacked: Vec<u32> = session.windows_in_z_order().map(|(id, _)| id.0).collect();
    let mut stack: Vec<u32> = Vec::new();
    for id in &table.desktop().stack {
        if table.window(*id).is_some() && !stack.contains(&id.0) {
            stack.push(id.0);
        }
    }
    for id in table.window_ids() {
        if !stack.contains(&id.0) {
            stack.push(id.0);
        }
    }
    let cells = CacheCell::all().filter(|&cell| session.picture(cell).is_ok());
    windows.into_iter().eq(table.window_ids().map(|id| id.0))
        && icons
            .into_iter()
            .map(|(window, icon)| (window.0, icon.0))
            .eq(table.icon_ids().map(|(window, icon)| (window.0, icon.0)))
        && stacked == stack
        && cells
            .map(|cell| (cell.cache_id, cell.cache_entry))
            .eq(table.filled_cells().map(|place| (place.cache, place.entry)))
}

/// Runs the list of a seed on a session of its own, with one of the numbers of places.
fn run_owned(seed: u64) -> Result<(), String> {
    let script = script(seed, CALLS, &Parts::default());
    let places = FEWEST_PLACES + seed as usize % (MOST_PLACES + 1 - FEWEST_PLACES);
    let mut session = Session::with_places(places);
    let mut book = BookSession::default();
    let lengths = Memory::with_places(places)
        .store
        .map(|part| part.len() as u32);
    book.make(&Call::Lend(lengths));
    book.make(&Call::Empty);
    let all = steps(&script);
    let whole = all.iter().filter(|step| step.lack.is_none());
    for (at, step) in whole.enumerate() {
        if !may_change(&step.call) {
            continue;
        }
        let answer = make_owned(&mut session, &step.call);
        let answer = answer.map(|standing| (standing, Record::Nothing));
        compare(&mut book, &step.call, &answer).map_err(|text| told(at, step, &text))?;
        let expected = book.book().standing();
        let standing = session.standing();
        if (standing.orders, standing.bytes) != (expected.orders, expected.bytes) {
            return Err(told(at, step, "the session has another standing"));
        }
        if at % 25 == 24 && !listed_alike(&session, book.book().table()) {
            return Err(told(at, step, "the session lists other ids"));
        }
    }
    if listed_alike(&session, book.book().table()) {
        Ok(())
    } else {
        Err("at the end the session lists other ids".into())
    }
}

#[test]
fn a_session_lists_what_the_book_has() {
    for seed in 0..lists() {
        run_owned(seed).unwrap_or_else(|text| panic!("seed {seed}: {text}"));
    }
}
