//! The book: counts, room, marks, steps back.

use super::{book_of, deliver, icon, order, place, shown};
use super::{BIG, ICON, ID, IDS, SMALL, WINDOW};
use second::book::{Book, Standing};
use second::table::{Table, MOST_PLACES};

fn standing(book: &Book) -> (usize, usize) {
    let Standing { orders, bytes } = book.standing();
    (orders, bytes)
}

/// A window icon order of that many bytes in all, at least 23.
fn order_of(size: usize) -> Vec<u8> {
    let picture = size - 23;
    let [low, high] = (picture as u16).to_le_bytes();
    let rest = format!("{ID} 0000 00 20 0100 0100 0000 {low:02X}{high:02X}");
    order(0x4100_0000, &(rest + &"C5".repeat(picture)))
}

#[test]
fn counts_and_bytes_are_those_after_the_mark() {
    let mut book = Book::new();
    assert_eq!(standing(&book), (0, 0));
    assert_eq!(deliver(&mut book, 0x1100_0000, ID), 0);
    assert_eq!(deliver(&mut book, 0x1200_0000, IDS), 0);
    assert_eq!(standing(&book), (2, 26));
    book.mark();
    assert_eq!(standing(&book), (0, 0));
    assert_eq!(deliver(&mut book, 0x0400_0002, ""), 0);
    assert_eq!(standing(&book), (1, 7));
    assert_eq!(book.step_back(0), Ok(()));
    assert_eq!(standing(&book), (1, 7));
    assert_eq!(book.step_back(1), Ok(()));
    assert_eq!(standing(&book), (0, 0));
    assert_eq!(deliver(&mut book, 0x0400_0002, ""), 0);
    book.empty(MOST_PLACES);
    assert_eq!(standing(&book), (0, 0));
}

#[test]
fn a_refused_call_changes_nothing() {
    let mut book = book_of(&[(0x1100_0000, ID), (0x1200_0000, IDS)]);
    let before = book.clone();
    for (flags, rest, number) in [
        (0x0700_0000, "", 4),
        (0x0100_0020, ID, 5),
        (0x0100_2000, ID, 6),
        (0x0100_0010, ID, 7),
        // A good field before a bad one sets nothing.
        (0x0100_0012, "58000100 01000000 01", 8),
        (0x1100_0000, ID, 9),
        (0x8100_0000, "58000100 0000 00", 11),
        (0x8200_0008, "58000100 07000000 01000000 0000 00", 11),
    ] {
        assert_eq!(deliver(&mut book, flags, rest), number);
        assert_eq!(book, before);
    }
    assert_eq!(book.deliver(&[0x2E]), Err(2));
    assert_eq!(book.deliver(&[0x2E; 8]), Err(3));
    assert_eq!(book.step_back(3), Err(13));
    assert_eq!(book.step_back(u32::MAX), Err(13));
    assert_eq!(book, before);
}

#[test]
fn room_for_128_orders() {
    let mut book = book_of(&[(0x1100_0000, ID)]);
    for _ in 1..128 {
        assert_eq!(deliver(&mut book, 0x0100_0000, ID), 0);
    }
    assert_eq!(standing(&book), (128, 128 * 11));
    let full = book.clone();
    assert_eq!(deliver(&mut book, 0x0100_0000, ID), 12);
    // Other refusals come before 12.
    assert_eq!(deliver(&mut book, 0x1100_0000, ID), 9);
    assert_eq!(deliver(&mut book, 0x8100_0000, &format!("{ID} 000000")), 11);
    assert_eq!(deliver(&mut book, 0x0100_0010, &format!("{ID} 01")), 8);
    assert_eq!(book, full);
    assert_eq!(book.step_back(129), Err(13));
    assert_eq!(book.step_back(1), Ok(()));
    assert_eq!(deliver(&mut book, 0x0100_0000, ID), 0);
    assert_eq!(deliver(&mut book, 0x0100_0000, ID), 12);
    book.mark();
    assert_eq!(deliver(&mut book, 0x0100_0000, ID), 0);
    assert_eq!(standing(&book), (1, 11));
}

#[test]
fn room_for_32768_bytes() {
    let mut book = book_of(&[(0x1100_0000, ID)]);
    for _ in 0..7 {
        assert_eq!(book.deliver(&order_of(4_000)), Ok(()));
    }
    let left = 32_768 - standing(&book).1;
    assert_eq!(book.deliver(&order_of(left + 1 - 4_000)), Ok(()));
    let left = 32_768 - standing(&book).1;
    assert_eq!(left, 3_999);
    let before = book.clone();
    assert_eq!(book.deliver(&order_of(left + 1)), Err(12));
    assert_eq!(book, before);
    assert_eq!(book.deliver(&order_of(left)), Ok(()));
    assert_eq!(standing(&book), (10, 32_768));
    assert_eq!(deliver(&mut book, 0x0400_0000, ""), 12);
    assert_eq!(book.step_back(1), Ok(()));
    assert_eq!(book, before);
    assert_eq!(book.deliver(&order_of(left)), Ok(()));
    book.mark();
    assert_eq!(book.deliver(&order_of(4_247)), Ok(()));
}

/// After each number of steps back the book is what it was before those orders.
#[test]
fn steps_back_restore_what_was() {
    let small = |byte: &str| format!("{ID} 0300 01 20 0100 0200 0100 0000 {byte}");
    let orders: [(u32, &str); 12] = [
        (0x1100_0004, &format!("{ID} 0200 4100")),
        (0x4100_0000, &small("A1")),
        (0x1200_0008, &format!("{IDS} 04000000")),
        (0x8200_0000, &format!("{IDS} 0300 01")),
        (0x4100_2000, &small("A2")),
        (0x0400_003A, &format!("{ID} 01 {ID}")),
        (0x0100_0004, &format!("{ID} 0000")),
        (0x0400_0001, ""),
        (0x1100_0010, &format!("{ID} 02")),
        (0x2100_0000, ID),
        (0x1200_0000, IDS),
        (0x2200_0000, IDS),
    ];
    for marked in 0..=orders.len() {
        let mut book = Book::new();
        let mut history = Vec::new();
        for (at, (flags, rest)) in orders.iter().enumerate() {
            if at == marked {
                book.mark();
            }
            history.push(book.clone());
            assert_eq!(deliver(&mut book, *flags, rest), 0);
        }
        if marked == orders.len() {
            book.mark();
        }
        let after = orders.len() - marked;
        assert_eq!(standing(&book).0, after);
        for steps in 0..=after {
            let mut back = book.clone();
            assert_eq!(back.step_back(steps as u32), Ok(()));
            if steps > 0 {
                assert_eq!(back, history[orders.len() - steps], "{marked} {steps}");
            } else {
                assert_eq!(back, book);
            }
        }
        assert_eq!(book.clone().step_back(after as u32 + 1), Err(13));
    }
}

#[test]
fn a_step_back_restores_an_overwritten_cell() {
    let icon_order = |byte: &str| format!("{ID} 0300 01 20 0100 0200 0100 0000 {byte}");
    let mut book = book_of(&[(0x1100_0000, ID), (0x4100_0000, &icon_order("A1"))]);
    assert_eq!(deliver(&mut book, 0x4100_2000, &icon_order("A2")), 0);
    let mask = |book: &Book| book.cell(place(1, 3)).map(|cell| cell.mask.clone());
    assert_eq!(mask(&book), Ok(vec![0xA2]));
    assert_eq!(book.step_back(1), Ok(()));
    assert_eq!(mask(&book), Ok(vec![0xA1]));
    assert_eq!(shown(&book, SMALL), [0xA1]);
    assert_eq!(book.shared(SMALL, place(1, 3).into()), Ok(true));
    assert_eq!(book.table().shown(BIG), None);
    assert_eq!(book.step_back(1), Ok(()));
    assert_eq!(mask(&book), Err(9));
    assert_eq!(book.table().shown(SMALL), None);
}

#[test]
fn a_step_back_over_desktop_none() {
    let mut book = book_of(&[
        (0x1100_0000, ID),
        (0x1200_0000, IDS),
        (0x0400_003A, &format!("{ID} 01 {ID}")),
    ]);
    book.mark();
    let before = book.clone();
    assert_eq!(deliver(&mut book, 0x0400_0001, ""), 0);
    assert_eq!(*book.table(), Table::default());
    assert_eq!(book.step_back(1), Ok(()));
    assert_eq!(book, before);
    assert_eq!(book.desktop().stack, [WINDOW]);
    assert_eq!(icon(&book), before.icon(WINDOW, ICON).expect("listed"));
    // Not over the mark.
    assert_eq!(book.step_back(1), Err(13));
}

#[test]
fn emptying_ends_the_history() {
    let mut book = book_of(&[(0x1100_0000, ID)]);
    book.empty(MOST_PLACES);
    assert_eq!(book, Book::new());
    assert_eq!(book.step_back(1), Err(13));
    assert_eq!(book.step_back(0), Ok(()));
    assert_eq!(book.window(WINDOW), Err(9));
}
