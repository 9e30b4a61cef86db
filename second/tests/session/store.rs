//! The store: which places are held, taken, shared and freed; 17.

use super::{book_of, deliver, place, shown};
use super::{BIG, ID, IDS, NOTIFICATION, SMALL, WINDOW};
use second::book::{Book, ORDERS_ROOM};
use second::ids::{NotifyIconId, WindowId};
use second::table::Holder;

const NEW_WINDOW: u32 = 0x1100_0000;
const NEW_ICON: u32 = 0x1200_0000;
const SMALL_ICON: u32 = 0x4100_0000;
const BIG_ICON: u32 = 0x4100_2000;
const NONE: u32 = 0x0400_0001;

/// An icon of one byte for a cell.
fn picture(ids: &str, cache: u8, entry: u8, byte: u8) -> String {
    format!("{ids} {entry:02X}00 {cache:02X} 20 0100 0100 0100 0000 {byte:02X}")
}

fn cached(ids: &str, cache: u8, entry: u8) -> String {
    format!("{ids} {entry:02X}00 {cache:02X}")
}

/// A book with 12 places, all cells filled by the small icon of a window, which shares
/// with the last one.
fn full() -> Book {
    let mut book = Book::with_places(12);
    assert_eq!(deliver(&mut book, NEW_WINDOW, ID), 0);
    for cell in 0..12 {
        let icon = picture(ID, cell / 6, cell % 6, cell);
        assert_eq!(deliver(&mut book, SMALL_ICON, &icon), 0);
    }
    assert_eq!(book.table().store().used(), 12);
    book
}

#[test]
fn letting_go_is_of_the_holder() {
    let mut book = full();
    // The small icon still holds the last cell's place.
    assert_eq!(deliver(&mut book, BIG_ICON, &picture(ID, 1, 5, 0xB1)), 17);
    // Another cell alone has its place.
    let mut other = book.clone();
    assert_eq!(deliver(&mut other, BIG_ICON, &picture(ID, 0, 0, 0xB2)), 0);
    assert_eq!(deliver(&mut book, SMALL_ICON, &picture(ID, 1, 5, 0xB3)), 0);
    assert_eq!(shown(&book, SMALL), [0xB3]);
    assert_eq!(book.cell(place(1, 5)).map(|cell| cell.mask[0]), Ok(0xB3));
    assert_eq!(book.table().store().used(), 12);
    // The pointer's own place, whatever the cell's is shared by.
    let mut book = full();
    for (flags, rest) in [
        (0x8100_2000, cached(ID, 0, 0)),
        (NEW_ICON, IDS.into()),
        (0x8200_0000, cached(IDS, 0, 1)),
        (SMALL_ICON, picture(ID, 0, 0, 0xB4)),
    ] {
        assert_eq!(
            deliver(&mut book, flags, &rest),
            17 * u8::from(flags == SMALL_ICON)
        );
    }
    assert_eq!(deliver(&mut book, SMALL_ICON, &picture(ID, 1, 5, 0xB5)), 0);
}

/// Cell and pointer hold one place, and nothing else does; or two windows' worth of them.
#[test]
fn a_window_that_holds_a_place_twice() {
    let mut book = full();
    assert_eq!(deliver(&mut book, 0x8100_2000, &cached(ID, 1, 5)), 0);
    assert_eq!(book.shared(SMALL, BIG), Ok(true));
    for flags in [SMALL_ICON, BIG_ICON] {
        assert_eq!(deliver(&mut book, flags, &picture(ID, 1, 5, 0xC1)), 17);
    }
    assert_eq!(deliver(&mut book, SMALL_ICON, &picture(ID, 1, 4, 0xC2)), 0);
    assert_eq!(shown(&book, SMALL), [0xC2]);
    assert_eq!(shown(&book, BIG), [11]);
}

#[test]
fn numbers_before_and_after() {
    let mut book = full();
    let no_place = picture(ID, 1, 5, 0xD1);
    assert_eq!(deliver(&mut book, BIG_ICON, &no_place), 17);
    // 7, 8, 9 come first, and 10.
    assert_eq!(
        deliver(&mut book, BIG_ICON, &no_place[..no_place.len() - 2]),
        7
    );
    assert_eq!(deliver(&mut book, BIG_ICON, &picture(ID, 2, 5, 0xD1)), 8);
    assert_eq!(
        deliver(&mut book, BIG_ICON, &picture("01000000", 1, 5, 1)),
        9
    );
    assert_eq!(
        deliver(&mut book, BIG_ICON, &picture(ID, 0xFF, 5, 0xD1)),
        17
    );
    for icon in 0..16 {
        let ids = format!("{ID} {icon:02X}000000");
        assert_eq!(deliver(&mut book, NEW_ICON, &ids), 0);
    }
    let ids = format!("{ID} 10000000");
    let new = 0x5200_0000;
    assert_eq!(deliver(&mut book, new, &picture(&ids, 1, 5, 0xD1)), 10);
    // 12 comes after.
    while book.standing().orders < ORDERS_ROOM {
        assert_eq!(deliver(&mut book, 0x0400_0002, ""), 0);
    }
    assert_eq!(deliver(&mut book, BIG_ICON, &no_place), 17);
    assert_eq!(deliver(&mut book, SMALL_ICON, &no_place), 12);
    assert_eq!(deliver(&mut book, 0x8100_2000, &cached(ID, 1, 5)), 12);
    // A cached icon never meets 17.
    book.mark();
    assert_eq!(deliver(&mut book, 0x8100_2000, &cached(ID, 1, 5)), 0);
}

#[test]
fn refused_orders_change_nothing() {
    let mut book = full();
    let before = book.clone();
    assert_eq!(deliver(&mut book, BIG_ICON, &picture(ID, 1, 5, 0xD1)), 17);
    assert_eq!(book, before);
}

/// A place is freed by what lets the last holder go.
#[test]
fn places_are_freed() {
    let other = "01000000";
    let mut book = Book::with_places(12);
    for id in [ID, other] {
        assert_eq!(deliver(&mut book, NEW_WINDOW, id), 0);
    }
    for cell in 0..12 {
        let icon = picture(other, cell / 6, cell % 6, cell);
        assert_eq!(deliver(&mut book, SMALL_ICON, &icon), 0);
    }
    let no_place = picture(ID, 1, 5, 0xE1);
    assert_eq!(deliver(&mut book, SMALL_ICON, &no_place), 17);
    let granted_after = |flags: u32, rest: &str| {
        let mut book = book.clone();
        assert_eq!(deliver(&mut book, flags, rest), 0);
        deliver(&mut book, SMALL_ICON, &no_place)
    };
    assert_eq!(granted_after(0x2100_0000, other), 0);
    assert_eq!(granted_after(0x8100_0000, &cached(other, 0, 0)), 0);
    assert_eq!(granted_after(NONE, ""), 9);
    // What frees nothing helps nothing.
    assert_eq!(granted_after(0x8100_2000, &cached(other, 0, 0)), 17);
    assert_eq!(granted_after(0x0400_0002, ""), 17);
    let mut back = book.clone();
    assert_eq!(back.step_back(1), Ok(()));
    assert_eq!(deliver(&mut back, SMALL_ICON, &no_place), 0);
    let mut none = book.clone();
    for (flags, rest) in [(NONE, ""), (NEW_WINDOW, ID), (SMALL_ICON, &no_place[..])] {
        assert_eq!(deliver(&mut none, flags, rest), 0);
    }
    assert_eq!(none.table().store().used(), 12);
}

#[test]
fn equal_bytes_lie_apart() {
    let mut book = book_of(&[(NEW_WINDOW, ID), (SMALL_ICON, &picture(ID, 0, 0, 1))]);
    assert_eq!(deliver(&mut book, BIG_ICON, &picture(ID, 0, 1, 1)), 0);
    assert_eq!(book.table().shown(SMALL), book.table().shown(BIG));
    assert_eq!(book.shared(SMALL, BIG), Ok(false));
    assert_eq!(book.table().store().used(), 2);
    // The same icon again: its own place is let go and one is taken.
    assert_eq!(deliver(&mut book, BIG_ICON, &picture(ID, 0, 0, 1)), 0);
    assert_eq!(book.shared(SMALL, BIG), Ok(false));
    assert_eq!(book.shared(BIG, place(0, 0).into()), Ok(true));
    assert_eq!(book.table().store().used(), 3);
}

#[test]
fn a_cached_icon_of_what_it_shares() {
    let mut book = book_of(&[(NEW_WINDOW, ID), (SMALL_ICON, &picture(ID, 0, 0, 1))]);
    let table = book.table().clone();
    assert_eq!(deliver(&mut book, 0x8100_0000, &cached(ID, 0, 0)), 0);
    assert_eq!(*book.table(), table);
}

#[test]
fn deleted_records_hold_nothing() {
    let mut book = book_of(&[
        (NEW_WINDOW, ID),
        (SMALL_ICON, &picture(ID, 0, 0, 1)),
        (0x9200_0000, &cached(IDS, 0, 0)),
        (SMALL_ICON, &picture(ID, 0, 0, 2)),
        (0x2100_0000, ID),
        (NEW_WINDOW, ID),
    ]);
    assert_eq!(book.table().shown(SMALL), None);
    assert_eq!(shown(&book, NOTIFICATION), [1]);
    assert_eq!(deliver(&mut book, 0x2200_0000, IDS), 0);
    assert_eq!(book.table().store().used(), 1);
    assert_eq!(deliver(&mut book, NEW_ICON, IDS), 0);
    assert_eq!(book.table().shown(NOTIFICATION), None);
    assert_eq!(book.shared(NOTIFICATION, SMALL), Err(9));
}

/// Tables are the same whose holders show the same and share alike, however they came to.
#[test]
fn the_same_table_by_another_way() {
    let (a, b) = (picture(ID, 0, 0, 1), picture(ID, 1, 1, 2));
    let one = book_of(&[(NEW_WINDOW, ID), (SMALL_ICON, &a), (BIG_ICON, &b)]);
    let other = book_of(&[(NEW_WINDOW, ID), (BIG_ICON, &b), (SMALL_ICON, &a)]);
    assert_eq!(one.table(), other.table());
    let equal = picture(ID, 0, 0, 2);
    let apart = book_of(&[(NEW_WINDOW, ID), (SMALL_ICON, &equal), (BIG_ICON, &b)]);
    let shared = cached(ID, 1, 1);
    let together = [
        (NEW_WINDOW, ID),
        (SMALL_ICON, &equal[..]),
        (BIG_ICON, &b[..]),
        (0x8100_0000, &shared[..]),
    ];
    assert_ne!(*apart.table(), *book_of(&together).table());
}

#[test]
fn pictures_in_play() {
    let mut book = book_of(&[(NEW_WINDOW, ID)]);
    assert!(!book.has_pictures());
    assert_eq!(deliver(&mut book, SMALL_ICON, &picture(ID, 0, 0, 1)), 0);
    assert!(book.has_pictures());
    book.mark();
    assert!(book.has_pictures());
    book.empty(13);
    assert!(!book.has_pictures());
    assert_eq!(book.places(), 13);
}

#[test]
fn holders_that_there_are_none_of() {
    let book = book_of(&[(NEW_WINDOW, ID), (SMALL_ICON, &picture(ID, 1, 2, 1))]);
    let cell = |cache, entry| Holder::Cell(cache, entry);
    assert_eq!(book.shared(SMALL, cell(1, 2)), Ok(true));
    for other in [
        cell(0, 2),
        cell(2, 2),
        cell(0x101, 2),
        cell(1, 0x1_0002),
        BIG,
        Holder::Small(WindowId(1)),
        Holder::Notification(WINDOW, NotifyIconId(0)),
    ] {
        assert_eq!(book.shared(SMALL, other), Err(9), "{other:?}");
        assert_eq!(book.shared(other, SMALL), Err(9), "{other:?}");
        assert_eq!(book.shared(other, other), Err(9), "{other:?}");
    }
}
