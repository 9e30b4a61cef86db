//! Two window orders for different windows change places on lent memory: each gets the
//! same number first or second, and the table that is found afterwards is the same.

mod common;

use common::{make, number_of, steps, Record};
use rail::Memory;
use second::generate::random::Random;
use second::generate::session::{may_change_places, pair, pair_for_one, script};
use second::ids::WindowId;
use second::order::CellPlace;
use second::script::parts::Parts;
use second::script::session::{Call, Session as BookSession};
use second::table::Table;

/// Lists of calls, the calls of each, and after how many of them a pair is tried.
const LISTS: u64 = 100;
const CALLS: usize = 300;
const EVERY: usize = 5;

/// The numbers of orders delivered in turn to a copy of the memory, and what lookups find
/// there afterwards.
fn delivered(
    memory: &Memory,
    orders: [&[u8]; 2],
    lookups: &[Call<'_>],
) -> ([u8; 2], Vec<Option<Record>>) {
    let mut memory = memory.clone();
    let mut lent = memory.lend();
    let numbers = orders.map(|order| match lent.deliver(order) {
        Ok(_) => 0,
        Err(refusal) => refusal.number(),
    });
    let found = lookups
        .iter()
        .map(|call| make(&mut lent, call).ok().map(|(_, record)| record))
        .collect();
    (numbers, found)
}

/// Lookups of everything that two orders can leave on a table: its windows and those with
/// the ids that the orders have at byte 7, its notification icons, all cells, the desktop.
fn all_lookups(table: &Table, orders: [&[u8]; 2]) -> Vec<Call<'static>> {
    let named = orders.into_iter().filter_map(|order| {
        let id = order.get(7..11)?.try_into().ok()?;
        Some(WindowId(u32::from_le_bytes(id)))
    });
    let windows = table.window_ids().chain(named).map(Call::Window);
    let icons = table
        .icon_ids()
        .map(|(window, icon)| Call::Icon(window, icon));
    let places = (0..2).flat_map(|cache| (0..6).map(move |entry| CellPlace { cache, entry }));
    let cells = places.map(Call::Cell);
    windows
        .chain(icons)
        .chain(cells)
        .chain([Call::Desktop])
        .collect()
}

/// The numbers of two orders, if they and all that is found are the same in either order.
fn either_way(memory: &Memory, table: &Table, [a, b]: [&[u8]; 2]) -> Option<[u8; 2]> {
    let lookups = all_lookups(table, [a, b]);
    let ([first, second], found) = delivered(memory, [a, b], &lookups);
    let ([other_second, other_first], other) = delivered(memory, [b, a], &lookups);
    let same = [first, second] == [other_first, other_second] && found == other;
    same.then_some([first, second])
}

/// Runs generated lists of calls, and `each` now and then on the memory and its book.
fn states(mut each: impl FnMut(&Memory, &BookSession, &mut Random)) {
    for seed in 0..LISTS {
        let script = script(seed, CALLS, &Parts::default());
        let mut random = Random::new(!seed);
        let mut book = BookSession::default();
        let mut memory = Memory::new();
        memory.lend().reset().expect("memory of the needed lengths");
        let whole = steps(&script);
        let whole = whole.iter().filter(|step| step.lack.is_none());
        for (at, step) in whole.enumerate() {
            let number = book.make(&step.call);
            let answer = make(&mut memory.lend(), &step.call);
            assert_eq!(Some(number_of(&answer)), number);
            if at % EVERY == 0 {
                each(&memory, &book, &mut random);
            }
        }
    }
}

#[test]
fn orders_for_different_windows_change_places() {
    let mut numbers = [0; 18];
    let mut tried = 0;
    states(|memory, book, random| {
        let book = book.book();
        let [a, b] = pair(book, random);
        if !may_change_places(book, &a, &b) {
            return;
        }
        let both = either_way(memory, book.table(), [&a, &b])
            .unwrap_or_else(|| panic!("{a:02x?} and {b:02x?} do not change places"));
        for number in both {
            numbers[usize::from(number)] += 1;
        }
        tried += 1;
    });
    println!("{tried} pairs, numbers {numbers:?}");
    assert!(tried > 3_000);
    for (number, count) in numbers.iter().enumerate() {
        match number {
            0 | 2..=9 => assert!(*count > 20, "number {number} came {count} times"),
            _ => assert_eq!(*count, 0, "number {number}"),
        }
    }
}

/// The same comparison finds fault where both orders name one window, or the table or the
/// history is nearly full.
#[test]
fn a_difference_is_noticed() {
    let (mut one_window, mut crowded) = (0, 0);
    states(|memory, book, random| {
        let book = book.book();
        let [a, b] = pair_for_one(book, random);
        if either_way(memory, book.table(), [&a, &b]).is_none() {
            assert!(!may_change_places(book, &a, &b));
            one_window += 1;
        }
        let [a, b] = pair(book, random);
        let few = may_change_places(book, &a, &b);
        if !few && either_way(memory, book.table(), [&a, &b]).is_none() {
            crowded += 1;
        }
    });
    println!("{one_window} for one window, {crowded} beside too many");
    assert!(one_window > 500 && crowded > 10);
}
