//! Request No. 12: the newer servers' fields, every combination of their flags, the
//! overlay icon, and what an old terminal makes of such orders.

use super::{book_of, deliver, judged, order, place, shown, window, ID, SMALL, WINDOW};
use second::book::Book;
use second::table::{Holder, MOST_PLACES};

const OVERLAY: Holder = Holder::Overlay(WINDOW);

/// The newer servers' fields by their flags, in carried order, with what each carries here.
const NEWER: [(u32, &str); 7] = [
    (0x0000_0080, "01000000 02000000"),
    (0x0800_0000, "03000000 04000000"),
    (0x0040_0000, "0400 41004200"),
    (0x0080_0000, "01"),
    (0x0008_0000, "01"),
    (0x0000_0040, "01"),
    (0x0000_0001, "03"),
];
const OVERLAY_BIT: u32 = 0x0010_0000;
const OVERLAY_NONE: u32 = 0x0020_0000;
/// The closed list of windows before these fields.
const OLD_LIST: u32 = 0xF107_FF1E;

/// Every set of the nine flags, and what its fields carry.
fn combinations() -> impl Iterator<Item = (u32, String)> {
    (0..512_u32).map(|number| {
        let mut flags = 0;
        let mut body = String::new();
        for (at, (flag, field)) in NEWER.into_iter().enumerate() {
            if number >> at & 1 != 0 {
                flags |= flag;
                body += field;
            }
        }
        flags |= if number & 128 != 0 { OVERLAY_BIT } else { 0 };
        flags |= if number & 256 != 0 { OVERLAY_NONE } else { 0 };
        (flags, body)
    })
}

/// Alone and new: 6 exactly with the overlay icon's flag, and the fields that are carried
/// are set, the others left. A byte more or less meets 7.
#[test]
fn every_combination() {
    let all = [
        (0x0800_0000, "07000000 08000000"),
        (0x80, "05000000 06000000"),
    ];
    for (flags, body) in combinations() {
        for new in [0, 0x1000_0000] {
            let mut book = Book::new();
            if new == 0 {
                assert_eq!(deliver(&mut book, 0x1100_0000, ID), 0);
                for (flag, margins) in all {
                    let rest = format!("{ID} {margins}");
                    assert_eq!(deliver(&mut book, 0x0100_0000 | flag, &rest), 0);
                }
            }
            let clash = flags & OVERLAY_BIT != 0;
            let flags = 0x0100_0000 | new | flags;
            let number = deliver(&mut book, flags, &format!("{ID} {body}"));
            assert_eq!(number, if clash { 6 } else { 0 }, "{flags:08X}");
            if clash {
                continue;
            }
            let has = |at: usize| flags & NEWER[at].0 != 0;
            let was = |x, y| if new == 0 { (x, y) } else { (0, 0) };
            let found = window(&book);
            assert_eq!(found.margin_x, if has(0) { (1, 2) } else { was(5, 6) });
            assert_eq!(found.margin_y, if has(1) { (3, 4) } else { was(7, 8) });
            let text: &[u8] = if has(2) { b"A\0B\0" } else { b"" };
            assert_eq!(found.overlay_text, text);
            assert_eq!(found.taskbar, u8::from(has(3)));
            assert_eq!(found.server_z, u8::from(has(4)));
            assert_eq!(found.app_bar, u8::from(has(5)));
            assert_eq!(found.edge, if has(6) { 3 } else { 0 });
            assert_eq!(judged(&order(flags, &format!("{ID} {body} 00"))), 7);
            if !body.is_empty() {
                let cut = &body[..body.len() - 2];
                assert_eq!(judged(&order(flags, &format!("{ID} {cut}"))), 7);
            }
        }
    }
}

/// Beside an icon or a cached icon, with and without the big one's flag: only the overlay
/// icon's flag alone may stand there.
#[test]
fn every_combination_beside_icons() {
    let icon = "0000 00 20 0100 0100 0000 0000";
    for (flags, body) in combinations() {
        for (state, picture) in [(0x4100_0000, icon), (0x8100_0000, "0000 00")] {
            for more in [0, 0x1000_0000, 0x2000, 0x1000_2000] {
                let mut book = book_of(&[
                    (0x1100_0000, ID),
                    (0x4100_0000, "58000100 0000 00 20 0100 0100 0000 0000"),
                ]);
                let is_big = more & 0x2000 != 0;
                let granted = flags == 0 || flags == OVERLAY_BIT && !is_big;
                let flags = state | more | flags;
                let number = deliver(&mut book, flags, &format!("{ID} {body} {picture}"));
                assert_eq!(number, if granted { 0 } else { 6 }, "{flags:08X}");
                let is_overlay = granted && flags & OVERLAY_BIT != 0;
                assert_eq!(book.table().shown(OVERLAY).is_some(), is_overlay);
            }
        }
        let clash = flags != 0;
        let number = judged(&order(0x2100_0000 | flags, ID));
        assert_eq!(number, if clash { 6 } else { 0 });
    }
}

/// What an old terminal answers to an order with these flags whose type is right: 5 for
/// every one with a newer flag. So it reads no field of such an order.
#[test]
fn an_old_terminal_refuses_every_newer_flag() {
    let mut newer = OVERLAY_BIT | OVERLAY_NONE;
    for (flag, _) in NEWER {
        newer |= flag;
    }
    assert_eq!(newer & OLD_LIST, 0);
    assert_eq!(newer | OLD_LIST, 0xF9FF_FFDF);
    for (flags, _) in combinations().skip(1) {
        assert_ne!(flags & !OLD_LIST, 0, "{flags:08X}");
    }
}

#[test]
fn the_overlay_icon_is_a_third_one() {
    let mut book = book_of(&[
        (0x1100_0000, ID),
        (0x4110_0000, "58000100 0000 00 20 0100 0100 0100 0000 A0"),
        (0x4100_0000, "58000100 0100 00 20 0100 0100 0100 0000 A1"),
        (0x8100_2000, "58000100 0000 00"),
    ]);
    assert_eq!(shown(&book, OVERLAY), [0xA0]);
    assert_eq!(shown(&book, SMALL), [0xA1]);
    let big = Holder::Big(WINDOW);
    assert_eq!(book.shared(OVERLAY, big), Ok(true));
    assert_eq!(book.shared(OVERLAY, place(0, 0).into()), Ok(true));
    assert_eq!(book.shared(OVERLAY, SMALL), Ok(false));
    // None, the rest stays; then back.
    let none = format!("{ID} 0200 4300");
    assert_eq!(deliver(&mut book, 0x0160_0000, &none), 0);
    assert_eq!(book.shared(OVERLAY, big), Err(9));
    assert_eq!(shown(&book, big), [0xA0]);
    assert_eq!(window(&book).overlay_text, b"C\0");
    assert_eq!(deliver(&mut book, 0x0120_0000, ID), 0);
    assert_eq!(window(&book).overlay_text, b"C\0");
    assert_eq!(book.step_back(2), Ok(()));
    assert_eq!(book.shared(OVERLAY, big), Ok(true));
    // A delete and desktop none let it go.
    for (flags, rest) in [(0x2100_0000, ID), (0x0400_0001, "")] {
        let mut book = book.clone();
        assert_eq!(deliver(&mut book, flags, rest), 0);
        assert_eq!(book.shared(OVERLAY, OVERLAY), Err(9));
        assert_eq!(deliver(&mut book, 0x1100_0000, ID), 0);
        assert_eq!(book.shared(OVERLAY, OVERLAY), Err(9));
    }
}

/// All that can point, at places of their own: 12 cells, three icons of 32 windows and 16
/// notification icons are 124; the 65th picture meets 17 and not the first 64.
#[test]
fn overlays_hold_places() {
    let mut book = Book::new();
    for id in 0..32_u32 {
        let id = id.to_le_bytes().map(|byte| format!("{byte:02X}")).concat();
        assert_eq!(deliver(&mut book, 0x1100_0000, &id), 0);
    }
    let mut granted = 0;
    let mut refused = 0;
    for id in 0..32_u32 {
        let id = id.to_le_bytes().map(|byte| format!("{byte:02X}")).concat();
        for which in [0, 0x2000, OVERLAY_BIT] {
            book.mark();
            let rest = format!("{id} 0000 FF 20 0100 0100 0100 0000 {granted:02X}");
            match deliver(&mut book, 0x4100_0000 | which, &rest) {
                0 => granted += 1,
                17 => refused += 1,
                number => panic!("{number}"),
            }
        }
    }
    assert_eq!((granted, refused), (MOST_PLACES, 96 - MOST_PLACES));
    // A cached icon takes none, and an overlay that becomes none frees one.
    assert_eq!(deliver(&mut book, 0x0120_0000, "00000000"), 0);
    let rest = "1F000000 0000 00 20 0100 0100 0100 0000 FF";
    assert_eq!(deliver(&mut book, 0x4110_0000, rest), 0);
    assert_eq!(deliver(&mut book, 0x8110_0000, "00000000 0000 00"), 0);
    let full = "01000000 0100 00 20 0100 0100 0100 0000 FF";
    assert_eq!(deliver(&mut book, 0x4100_0000, full), 0);
    assert_eq!(
        deliver(
            &mut book,
            0x4110_0000,
            "1E000000 0000 FF 20 0100 0100 0000 0000"
        ),
        17
    );
}
