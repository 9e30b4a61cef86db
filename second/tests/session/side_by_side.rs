//! Two window orders for different windows change places: each gets the same number
//! first or second, and the table at the end is the same.

use super::{book_of, order, ID};
use second::book::Book;
use second::generate::random::Random;
use second::generate::session::{may_change_places, pair, pair_for_one, script};
use second::script::parts::Parts;
use second::script::session::{call, Session};
use second::script::take_item;
use second::table::{Table, WINDOWS};

/// The numbers that two orders get, one after the other, and the table then.
fn delivered(book: &Book, first: &[u8], second: &[u8]) -> (u8, u8, Table) {
    let mut book = book.clone();
    let one = book.deliver(first).err().unwrap_or(0);
    let other = book.deliver(second).err().unwrap_or(0);
    (one, other, book.table().clone())
}

/// The numbers of two orders, if they and the table are the same in either order.
fn either_way(book: &Book, a: &[u8], b: &[u8]) -> Option<(u8, u8)> {
    let (first, second, table) = delivered(book, a, b);
    let (other_second, other_first, other_table) = delivered(book, b, a);
    let same = (first, second) == (other_first, other_second) && table == other_table;
    same.then_some((first, second))
}

/// Runs the generated lists of calls of these seeds, and `each` on the book after each call.
fn books(seeds: std::ops::Range<u64>, mut each: impl FnMut(&Book, &mut Random)) {
    let parts = Parts::default();
    for seed in seeds {
        let script = script(seed, 300, &parts);
        let mut random = Random::new(!seed);
        let mut session = Session::default();
        let mut rest = &script[..];
        while let Some((item, tail)) = take_item(rest) {
            let Some(call) = call(item, &parts) else {
                break;
            };
            session.make(&call);
            each(session.book(), &mut random);
            rest = tail;
        }
    }
}

#[test]
fn orders_for_different_windows_change_places() {
    let mut tried = 0;
    // How often a number came, and how often beside another order that was granted.
    let mut numbers = [[0; 2]; 13];
    let mut most_windows = 0;
    books(0..80, |book, random| {
        let [a, b] = pair(book, random);
        if !may_change_places(book, &a, &b) {
            return;
        }
        let (first, second) = either_way(book, &a, &b)
            .unwrap_or_else(|| panic!("{a:02x?} and {b:02x?} do not change places"));
        numbers[usize::from(first)][usize::from(second == 0)] += 1;
        numbers[usize::from(second)][usize::from(first == 0)] += 1;
        most_windows = most_windows.max(book.table().window_ids().count());
        tried += 1;
    });
    println!("{tried} pairs: numbers {numbers:?}");
    assert!(tried > 15_000);
    assert_eq!(most_windows, 30);
    for number in [0, 2, 3, 4, 5, 6, 7, 8, 9] {
        let [beside_refused, beside_granted] = numbers[number];
        assert!(beside_refused > 20 && beside_granted > 20, "{numbers:?}");
    }
    // Neither full nor out of room, and no cell is named.
    for number in [1, 10, 11, 12] {
        assert_eq!(numbers[number], [0, 0]);
    }
}

/// The same comparison finds fault where a premise is missing.
#[test]
fn a_difference_is_noticed() {
    let (mut one_window, mut crowded, mut no_room) = (0, 0, 0);
    books(0..80, |book, random| {
        let [a, b] = pair_for_one(book, random);
        if either_way(book, &a, &b).is_none() {
            assert!(!may_change_places(book, &a, &b));
            one_window += 1;
        }
        let [a, b] = pair(book, random);
        if either_way(book, &a, &b).is_none() {
            assert!(!may_change_places(book, &a, &b));
            match book.table().window_ids().count() {
                31.. => crowded += 1,
                _ => no_room += 1,
            }
        }
    });
    assert!(one_window > 2_000, "{one_window} pairs for one window");
    assert!(crowded > 20, "{crowded} pairs beside 31 or 32 windows");
    assert!(no_room > 10, "{no_room} pairs with room for one");
}

/// At 31 windows, two new ones: whichever comes second finds the table full.
#[test]
fn two_new_windows_beside_31() {
    let new = |id: usize| order(0x1100_0000, &format!("{id:02X}000000"));
    let mut book = Book::new();
    for id in 0..30 {
        assert_eq!(book.deliver(&new(id)), Ok(()));
    }
    assert_eq!(either_way(&book, &new(30), &new(31)), Some((0, 0)));
    assert_eq!(book.deliver(&new(30)), Ok(()));
    assert_eq!(WINDOWS, 32);
    for (a, b) in [(31, 32), (32, 31)] {
        let (first, second, _) = delivered(&book, &new(a), &new(b));
        assert_eq!((first, second), (0, 10));
        assert!(!may_change_places(&book, &new(a), &new(b)));
    }
}

/// Two orders for one window, and a cell filled that the other order names.
#[test]
fn what_must_not_change_places() {
    let book = book_of(&[(0x1100_0000, ID)]);
    let (gone, new) = (order(0x2100_0000, ID), order(0x1100_0000, ID));
    assert_eq!(delivered(&book, &gone, &new).1, 0);
    assert_eq!(delivered(&book, &new, &gone).0, 9);
    let title = |letter: &str| order(0x0100_0004, &format!("{ID} 0200 {letter}00"));
    let (a, b) = (title("41"), title("42"));
    assert_ne!(delivered(&book, &a, &b).2, delivered(&book, &b, &a).2);

    let book = book_of(&[(0x1100_0000, ID), (0x1100_0000, "01000000")]);
    let icon = order(
        0x4100_0000,
        &format!("{ID} 0300 01 20 0100 0200 0100 0000 C5"),
    );
    let cached = order(0x8100_0000, "01000000 0300 01");
    assert_eq!(delivered(&book, &icon, &cached).1, 0);
    assert_eq!(delivered(&book, &cached, &icon).0, 11);
    for (a, b) in [(&gone, &new), (&a, &b), (&icon, &cached)] {
        assert!(!may_change_places(&book, a, b));
    }
}
