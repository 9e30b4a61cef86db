//! The table rules, one by one.

use super::{book_of, deliver, icon, place, shown, window};
use super::{BIG, ICON, ID, IDS, NOTIFICATION, SMALL, WINDOW};
use second::book::Book;
use second::ids::{NotifyIconId, WindowId};
use second::table::{Desktop, NotificationIcon, Table, Window, MOST_PLACES};

const NEW_WINDOW: u32 = 0x1100_0000;
const NEW_ICON: u32 = 0x1200_0000;

/// An icon of one mask byte for a cell.
fn picture(ids: &str, cache: u8, entry: u8, byte: u8) -> String {
    format!("{ids} {entry:02X}00 {cache:02X} 20 0100 0200 0100 0000 {byte:02X}")
}

fn cached(ids: &str, cache: u8, entry: u8) -> String {
    format!("{ids} {entry:02X}00 {cache:02X}")
}

fn mask(book: &Book, cache: u8, entry: u16) -> &[u8] {
    &book.cell(place(cache, entry)).expect("a filled cell").mask
}

#[test]
fn new_needs_an_absent_id_and_the_rest_a_present_one() {
    let mut book = Book::new();
    for flags in [0x0100_0000, 0x2100_0000] {
        assert_eq!(deliver(&mut book, flags, ID), 9);
    }
    for flags in [0x0200_0000, 0x2200_0000] {
        assert_eq!(deliver(&mut book, flags, IDS), 9);
    }
    assert_eq!(deliver(&mut book, NEW_WINDOW, ID), 0);
    assert_eq!(deliver(&mut book, NEW_WINDOW, ID), 9);
    // The window's id serves no notification icon, nor the other way round.
    assert_eq!(deliver(&mut book, 0x0200_0000, IDS), 9);
    assert_eq!(deliver(&mut book, NEW_ICON, IDS), 0);
    assert_eq!(deliver(&mut book, NEW_ICON, IDS), 9);
    assert_eq!(deliver(&mut book, 0x0100_0000, ID), 0);
    assert_eq!(deliver(&mut book, 0x0200_0000, IDS), 0);
    assert_eq!(deliver(&mut book, 0x2100_0000, ID), 0);
    assert_eq!(deliver(&mut book, 0x2100_0000, ID), 9);
    assert_eq!(deliver(&mut book, 0x0200_0000, IDS), 0);
    assert_eq!(deliver(&mut book, 0x2200_0000, IDS), 0);
    assert_eq!(deliver(&mut book, 0x2200_0000, IDS), 9);
}

#[test]
fn notification_icons_are_keyed_by_both_ids() {
    let mut book = Book::new();
    for (ids, expected) in [
        ("01000000 02000000", 0),
        ("01000000 03000000", 0),
        ("02000000 02000000", 0),
        ("02000000 01000000", 0),
        ("01000000 03000000", 9),
    ] {
        assert_eq!(deliver(&mut book, NEW_ICON, ids), expected, "{ids}");
    }
    assert_eq!(deliver(&mut book, 0x2200_0000, "01000000 01000000"), 9);
    assert_eq!(deliver(&mut book, 0x2200_0000, "01000000 02000000"), 0);
    assert!(book.icon(WindowId(2), NotifyIconId(2)).is_ok());
}

#[test]
fn an_update_sets_only_what_it_carries() {
    let mut book = book_of(&[
        (
            NEW_WINDOW | 0xE,
            &format!("{ID} 01000000 02000000 03000000 0200 4100"),
        ),
        (0x0100_0010, &format!("{ID} 05")),
    ]);
    let before = window(&book).clone();
    assert_eq!(
        (before.owner.0, before.style, before.extended_style),
        (1, 2, 3)
    );
    assert_eq!((before.show_state, &before.title[..]), (5, &b"A\0"[..]));
    assert_eq!(deliver(&mut book, 0x0100_0004, &format!("{ID} 0000")), 0);
    let untitled = Window {
        title: Vec::new(),
        ..before
    };
    assert_eq!(*window(&book), untitled);
    // No field flagged: granted, stands, changes nothing.
    assert_eq!(deliver(&mut book, 0x0100_0000, ID), 0);
    assert_eq!(*window(&book), untitled);
    assert_eq!(book.standing().orders, 4);
}

#[test]
fn an_update_of_a_notification_icon_sets_only_what_it_carries() {
    let balloon = |text: &str| format!("01000000 02000000 0200 {text} 0200 4200");
    let fields = format!("03000000 0200 4300 {} 04000000", balloon("4100"));
    let mut book = book_of(&[
        (NEW_ICON | 0xF, &format!("{IDS} {fields}")),
        (0x4200_0000, &picture(IDS, 1, 2, 0xA1)),
    ]);
    let mut expected = icon(&book).clone();
    assert_eq!((expected.version, expected.state), (3, 4));
    assert_eq!(shown(&book, NOTIFICATION), [0xA1]);
    assert_eq!(deliver(&mut book, 0x0200_0000, IDS), 0);
    assert_eq!(*icon(&book), expected);
    assert_eq!(deliver(&mut book, 0x0200_0001, &format!("{IDS} 0000")), 0);
    expected.tip.clear();
    assert_eq!(*icon(&book), expected);
    let other = format!("{IDS} {}", balloon("5A00"));
    assert_eq!(deliver(&mut book, 0x0200_0002, &other), 0);
    expected.balloon_text = vec![0x5A, 0];
    assert_eq!(*icon(&book), expected);
    let state = format!("{IDS} 09000000");
    assert_eq!(deliver(&mut book, 0x0200_0004, &state), 0);
    expected.state = 9;
    assert_eq!(*icon(&book), expected);
}

#[test]
fn new_resets_what_it_does_not_carry() {
    let balloon = "01000000 02000000 0200 4100 0200 4200";
    let mut book = book_of(&[
        (NEW_WINDOW | 0x14, &format!("{ID} 05 0200 4100")),
        (0x4100_0000, &picture(ID, 0, 0, 1)),
        (0x4100_2000, &picture(ID, 1, 5, 2)),
        (
            NEW_ICON | 0xF,
            &format!("{IDS} 03000000 0200 4300 {balloon} 01000000"),
        ),
        (0x8200_0000, &cached(IDS, 0, 0)),
        (0x2100_0000, ID),
        (0x2200_0000, IDS),
    ]);
    assert_eq!(
        deliver(&mut book, NEW_WINDOW | 2, &format!("{ID} 09000000")),
        0
    );
    let expected = Window {
        owner: WindowId(9),
        ..Window::default()
    };
    assert_eq!(*window(&book), expected);
    assert_eq!(
        deliver(&mut book, NEW_ICON | 4, &format!("{IDS} 08000000")),
        0
    );
    let expected = NotificationIcon {
        state: 8,
        ..NotificationIcon::default()
    };
    assert_eq!(*icon(&book), expected);
}

#[test]
fn an_icon_fills_its_cell_and_points() {
    let mut book = book_of(&[(NEW_WINDOW, ID), (NEW_ICON, IDS)]);
    assert_eq!(deliver(&mut book, 0x4100_0000, &picture(ID, 0, 3, 0xA1)), 0);
    assert_eq!(shown(&book, SMALL), [0xA1]);
    assert_eq!(book.table().shown(BIG), None);
    assert_eq!(deliver(&mut book, 0x4100_2000, &picture(ID, 1, 4, 0xA2)), 0);
    assert_eq!(shown(&book, SMALL), [0xA1]);
    assert_eq!(shown(&book, BIG), [0xA2]);
    // Another filling of the cell shows in neither: they keep what they were given.
    assert_eq!(
        deliver(&mut book, 0x4200_0000, &picture(IDS, 0, 3, 0xA3)),
        0
    );
    assert_eq!(shown(&book, NOTIFICATION), [0xA3]);
    assert_eq!(shown(&book, SMALL), [0xA1]);
    assert_eq!(mask(&book, 0, 3), [0xA3]);
    assert_eq!(mask(&book, 1, 4), [0xA2]);
}

#[test]
fn a_cached_icon_only_points() {
    let mut book = book_of(&[
        (NEW_WINDOW, ID),
        (NEW_ICON, IDS),
        (0x4100_0000, &picture(ID, 1, 2, 0xA1)),
    ]);
    let cells = book.cell(place(1, 2)).cloned();
    assert_eq!(deliver(&mut book, 0x8100_2000, &cached(ID, 1, 2)), 0);
    assert_eq!(book.shared(BIG, place(1, 2).into()), Ok(true));
    assert_eq!(deliver(&mut book, 0x8200_0000, &cached(IDS, 1, 2)), 0);
    assert_eq!(book.shared(NOTIFICATION, place(1, 2).into()), Ok(true));
    assert_eq!(book.cell(place(1, 2)).cloned(), cells);
    assert_eq!(book.table().filled_cells().count(), 1);
    for (cache, entry) in [(0, 2), (1, 1), (1, 3), (0, 0)] {
        assert_eq!(
            deliver(&mut book, 0x8100_0000, &cached(ID, cache, entry)),
            11
        );
        assert_eq!(
            deliver(&mut book, 0x8200_0000, &cached(IDS, cache, entry)),
            11
        );
    }
}

#[test]
fn the_new_bit_is_ignored_on_window_icons() {
    let mut book = Book::new();
    for flags in [0x4100_0000, 0x5100_0000, 0x5100_2000] {
        assert_eq!(deliver(&mut book, flags, &picture(ID, 0, 0, 1)), 9);
    }
    assert_eq!(deliver(&mut book, 0x9100_0000, &cached(ID, 0, 0)), 9);
    assert_eq!(
        deliver(&mut book, NEW_WINDOW | 0x10, &format!("{ID} 03")),
        0
    );
    assert_eq!(deliver(&mut book, 0x5100_0000, &picture(ID, 0, 0, 1)), 0);
    assert_eq!(deliver(&mut book, 0x9100_2000, &cached(ID, 0, 0)), 0);
    assert_eq!(window(&book).show_state, 3);
    assert_eq!(book.shared(SMALL, BIG), Ok(true));
}

#[test]
fn the_new_bit_counts_on_notification_icons() {
    let mut book = Book::new();
    assert_eq!(deliver(&mut book, 0x4200_0000, &picture(IDS, 0, 0, 1)), 9);
    assert_eq!(deliver(&mut book, 0x9200_0000, &cached(IDS, 0, 0)), 11);
    assert_eq!(deliver(&mut book, 0x5200_0000, &picture(IDS, 0, 0, 1)), 0);
    assert_eq!(deliver(&mut book, 0x5200_0000, &picture(IDS, 0, 0, 1)), 9);
    assert_eq!(shown(&book, NOTIFICATION), [1]);
}

#[test]
fn no_cache() {
    let mut book = book_of(&[(NEW_WINDOW, ID)]);
    for (flags, ids, expected) in [
        (0x4200_0000, IDS, 9),
        (0x4100_0000, "01000000", 9),
        (0x4100_0000, ID, 0),
        (0x4100_2000, ID, 0),
        (0x5200_0000, IDS, 0),
    ] {
        assert_eq!(
            deliver(&mut book, flags, &picture(ids, 0xFF, 9, 1)),
            expected
        );
    }
    assert_eq!(book.table().filled_cells().count(), 0);
    assert_eq!(book.table().store().used(), 3);
    for holder in [SMALL, BIG, NOTIFICATION] {
        assert_eq!(shown(&book, holder), [1]);
        assert_eq!(book.table().store().sharing(holder).count(), 1);
    }
}

#[test]
fn the_tables_are_limited() {
    let mut book = Book::new();
    for id in 0..32 {
        assert_eq!(
            deliver(&mut book, NEW_WINDOW, &format!("{id:02X}000000")),
            0
        );
    }
    assert_eq!(deliver(&mut book, NEW_WINDOW, "20000000"), 10);
    assert_eq!(deliver(&mut book, NEW_WINDOW, "05000000"), 9);
    for id in 0..16 {
        let ids = format!("01000000 {id:02X}000000");
        assert_eq!(deliver(&mut book, NEW_ICON, &ids), 0);
    }
    let absent = "01000000 10000000";
    assert_eq!(deliver(&mut book, NEW_ICON, absent), 10);
    // 10 comes before 11.
    assert_eq!(deliver(&mut book, 0x9200_0000, &cached(absent, 0, 0)), 10);
    assert_eq!(
        deliver(&mut book, 0x5200_0000, &picture(absent, 0xFF, 0, 1)),
        10
    );
    assert_eq!(
        deliver(&mut book, 0x5100_0000, &picture("05000000", 0, 0, 1)),
        0
    );
    assert_eq!(deliver(&mut book, 0x2100_0000, "05000000"), 0);
    assert_eq!(deliver(&mut book, NEW_WINDOW, "20000000"), 0);
    assert_eq!(deliver(&mut book, 0x2200_0000, "01000000 0F000000"), 0);
    assert_eq!(deliver(&mut book, NEW_ICON, absent), 0);
}

#[test]
fn delete_leaves_cells_stack_and_what_names_the_window() {
    let mut book = book_of(&[
        (NEW_WINDOW, ID),
        (NEW_WINDOW | 2, &format!("01000000 {ID}")),
        (NEW_ICON, IDS),
        (0x4100_0000, &picture(ID, 0, 0, 0xA1)),
        (0x0400_0030, &format!("{ID} 02 {ID} 01000000")),
    ]);
    let desktop = book.desktop().clone();
    assert_eq!(deliver(&mut book, 0x2100_0000, ID), 0);
    assert!(book.window(WINDOW).is_err());
    assert_eq!(mask(&book, 0, 0), [0xA1]);
    assert_eq!(*book.desktop(), desktop);
    assert_eq!(
        (desktop.active, desktop.stack),
        (WINDOW, vec![WINDOW, WindowId(1)])
    );
    assert!(book.icon(WINDOW, ICON).is_ok());
    assert_eq!(book.window(WindowId(1)).expect("listed").owner, WINDOW);
}

#[test]
fn desktop_fields() {
    let mut book = Book::new();
    let state = |active, hooked, syncing, stack: &[u32]| Desktop {
        active: WindowId(active),
        hooked,
        syncing,
        stack: stack.iter().copied().map(WindowId).collect(),
    };
    for (flags, rest, expected) in [
        (0x00, "", state(0, false, false, &[])),
        (0x08, "", state(0, false, true, &[])),
        (0x02, "", state(0, true, true, &[])),
        (0x04, "", state(0, true, false, &[])),
        (0x0A, "", state(0, true, true, &[])),
        (0x20, "09000000", state(9, true, true, &[])),
        (
            0x10,
            "03 05000000 01000000 05000000",
            state(9, true, true, &[5, 1, 5]),
        ),
        (0x06, "", state(9, true, false, &[5, 1, 5])),
        (0x30, "07000000 00", state(7, true, false, &[])),
        (0x38, "01000000 01 02000000", state(1, true, true, &[2])),
        (0x00, "", state(1, true, true, &[2])),
        (0x01, "", state(0, false, false, &[])),
    ] {
        assert_eq!(deliver(&mut book, 0x0400_0000 | flags, rest), 0);
        assert_eq!(*book.desktop(), expected, "{flags:02X}");
    }
}

#[test]
fn desktop_none_empties_all_but_the_cells() {
    let mut book = book_of(&[
        (NEW_WINDOW, ID),
        (NEW_ICON, IDS),
        (0x4100_0000, &picture(ID, 0, 0, 0xA1)),
        (0x0400_003A, &format!("{ID} 01 {ID}")),
    ]);
    assert_eq!(deliver(&mut book, 0x0400_0001, ""), 0);
    assert_eq!(book.table().window_ids().count(), 0);
    assert_eq!(book.table().icon_ids().count(), 0);
    assert_eq!(*book.desktop(), Desktop::default());
    assert_eq!(mask(&book, 0, 0), [0xA1]);
    book.empty(MOST_PLACES);
    assert_eq!(*book.table(), Table::default());
    assert_eq!(book.table().filled_cells().count(), 0);
}
