//! Numbers 2 to 7: lengths, types, closed lists, and which refusal comes first.

use super::{common::hex, judged, order, ID, IDS};
use second::order::{judge, NotificationChange, Order, WindowChange, WindowIcon};

const WINDOW: u32 = 0x0100_0000;
const NOTIFICATION: u32 = 0x0200_0000;
const DESKTOP: u32 = 0x0400_0000;

#[test]
fn fewer_than_7_bytes() {
    let whole = hex("2E 0700 00000004");
    for length in 0..7 {
        assert_eq!(judged(&whole[..length]), 2);
        assert_eq!(judged(&vec![0xFF; length]), 2);
    }
    assert_eq!(judged(&whole), 0);
}

#[test]
fn the_declared_length() {
    let whole = order(0x1100_0004, &format!("{ID} 0200 4100"));
    assert_eq!(judged(&whole), 0);
    for length in 7..whole.len() {
        assert_eq!(judged(&whole[..length]), 3);
    }
    assert_eq!(judged(&[&whole[..], &[0]].concat()), 3);
    for declared in [0, 6, 14, 16, 0x0F00, 0xFFFF] {
        let mut changed = whole.clone();
        changed[1..3].copy_from_slice(&u16::to_le_bytes(declared));
        assert_eq!(judged(&changed), 3, "{declared}");
    }
}

#[test]
fn the_first_byte() {
    let mut changed = order(DESKTOP, "");
    for first in (0..=u8::MAX).filter(|&first| first != 0x2E) {
        changed[0] = first;
        assert_eq!(judged(&changed), 4);
    }
}

#[test]
fn exactly_one_type_bit() {
    for types in 0..8_u32 {
        let flags = types << 24;
        let rest = match flags {
            WINDOW => ID,
            NOTIFICATION => IDS,
            _ => "",
        };
        let expected = if types.count_ones() == 1 { 0 } else { 4 };
        assert_eq!(judged(&order(flags, rest)), expected, "{types}");
    }
}

/// Every bit of 32 beside the type: 5 exactly if the closed list lacks it.
#[test]
fn closed_lists() {
    let lists = [
        (WINDOW, 0xF9FF_FFDF_u32),
        (NOTIFICATION, 0xF200_000F),
        (DESKTOP, 0x0400_003F),
    ];
    for (kind, list) in lists {
        for bit in (0..32).map(|shift| 1 << shift) {
            if bit & 0x0700_0000 != 0 {
                continue;
            }
            let number = judged(&order(kind | bit, IDS));
            assert_eq!(number == 5, list & bit == 0, "{kind:08X} {bit:08X}");
        }
    }
}

#[test]
fn ids_that_are_cut_do_not_fill() {
    for (flags, size) in [(WINDOW, 4), (NOTIFICATION, 8), (DESKTOP, 0)] {
        for deleted in [0, 0x2000_0000] {
            if flags == DESKTOP && deleted != 0 {
                continue;
            }
            for length in 0..12 {
                let expected = if length == size { 0 } else { 7 };
                let cut = order(flags | deleted, &"00".repeat(length));
                assert_eq!(judged(&cut), expected, "{flags:08X} {length}");
            }
        }
    }
}

/// Each flag's field has its size; a byte less or more meets 7.
#[test]
fn each_field_fills_its_bytes() {
    let fields: [(u32, &str); 39] = [
        (0x0100_0002, "01000000"),
        (0x0100_0008, "01000000 02000000"),
        (0x0100_0010, "05"),
        (0x0100_0004, "0400 41004200"),
        (0x0100_0004, "0000"),
        (0x0100_4000, "01000000 02000000"),
        (0x0101_0000, "01000000 02000000"),
        (0x0100_0080, "01000000 02000000"),
        (0x0900_0000, "01000000 02000000"),
        (0x0102_0000, "01"),
        (0x0104_0000, "01000000"),
        (0x0100_0800, "01000000 02000000"),
        (0x0100_8000, "01000000 02000000"),
        (0x0100_0400, "01000000 02000000"),
        (0x0100_0100, "0100 0100020003000400"),
        (0x0100_1000, "01000000 02000000"),
        (0x0100_0200, "0200 0100020003000400 0500060007000800"),
        (0x0140_0000, "0200 4100"),
        (0x0140_0000, "0000"),
        (0x0180_0000, "01"),
        (0x0108_0000, "01"),
        (0x0100_0040, "01"),
        (0x0100_0001, "03"),
        (0x0120_0000, ""),
        (0x4100_0000, "0000 00 20 0100 0100 0100 0200 AA BBBB"),
        (0x4110_0000, "0000 00 20 0100 0100 0100 0200 AA BBBB"),
        (
            0x4100_2000,
            "0000 00 08 0100 0100 0300 0100 0200 AA CCCCCC BBBB",
        ),
        (0x8100_2000, "0000 00"),
        (0x8110_0000, "0000 00"),
        (0x0200_0008, "01000000"),
        (0x0200_0001, "0200 4100"),
        (0x0200_0002, "01000000 02000000 0200 4100 0400 42004300"),
        (0x0200_0004, "01000000"),
        (0x4200_0000, "0000 00 01 0100 0100 0000 0000 0000"),
        (0x8200_0000, "0000 00"),
        (0x0400_0020, "01000000"),
        (0x0400_0010, "02 01000000 02000000"),
        (0x0400_0010, "00"),
        (0x0400_0030, "01000000 01 02000000"),
    ];
    for (flags, field) in fields {
        let ids = match flags & 0x0700_0000 {
            WINDOW => ID,
            NOTIFICATION => IDS,
            _ => "",
        };
        let rest = format!("{ids} {field}");
        assert_eq!(judged(&order(flags, &rest)), 0, "{flags:08X}");
        assert_eq!(
            judged(&order(flags, &format!("{rest}00"))),
            7,
            "{flags:08X}"
        );
        for cut in 1..=hex(field).len() {
            let digits = rest.replace(' ', "");
            let cut = &digits[..digits.len() - 2 * cut];
            assert_eq!(judged(&order(flags, cut)), 7, "{flags:08X} {cut}");
        }
    }
}

/// Lengths and counts that would fill if taken modulo 65,536.
#[test]
fn sums_and_products_do_not_wrap() {
    for (flags, rest) in [
        (0x0100_0100, format!("{ID} 0020")),
        (0x0100_0200, format!("{ID} 0120 0000000000000000")),
        (0x4100_0000, format!("{ID} 0000 00 20 0100 0100 0080 0080")),
        (
            0x4100_0000,
            format!("{ID} 0000 00 08 0100 0100 0040 0040 0080"),
        ),
        (0x0200_0002, format!("{IDS} 00000000 00000000 0080 0080")),
    ] {
        assert_eq!(judged(&order(flags, &rest)), 7, "{flags:08X}");
    }
}

/// An order with every fault meets the first number; mended, the next.
#[test]
fn the_first_refusal_is_given() {
    let mut bytes = hex("2F 0000 20000027");
    assert_eq!(judged(&bytes[..6]), 2);
    assert_eq!(judged(&bytes), 3);
    bytes[1] = 7;
    assert_eq!(judged(&bytes), 4);
    bytes[0] = 0x2E;
    assert_eq!(judged(&bytes), 4);
    bytes[6] = 0x21;
    assert_eq!(judged(&bytes), 5);
    bytes[3] = 0x10;
    assert_eq!(judged(&bytes), 6);
    bytes[6] = 0x01;
    assert_eq!(judged(&bytes), 7);
    assert_eq!(judged(&order(0x0100_0010, &format!("{ID} 01"))), 8);
    assert_eq!(judged(&order(0x0100_0010, &format!("{ID} 02"))), 0);
}

/// A number outside its set does not show while the fields do not fill.
#[test]
fn the_fill_comes_before_any_number() {
    let long_title = format!("{ID} 01 0A02 {}", "41".repeat(522));
    assert_eq!(judged(&order(0x0100_0014, &long_title)), 8);
    assert_eq!(judged(&order(0x0100_0014, &format!("{long_title}00"))), 7);
    let rects = format!("{ID} 1100 {} 02", "00".repeat(17 * 8));
    assert_eq!(judged(&order(0x0100_0100, &rects)), 7);
    let ids = format!("41 {}", "00".repeat(65 * 4 - 1));
    assert_eq!(judged(&order(0x0400_0010, &ids)), 7);
}

/// The bits decide whether a color table length is there, also outside the set.
#[test]
fn color_table_length_by_bits() {
    for bits in 0..=255_u8 {
        let head = format!("{ID} 0000 00 {bits:02X} 0100 0100");
        let with = judged(&order(0x4100_0000, &format!("{head} 000000000000")));
        let without = judged(&order(0x4100_0000, &format!("{head} 00000000")));
        let expected = match bits {
            1 | 4 | 8 => (0, 7),
            16 | 24 | 32 => (7, 0),
            _ => (7, 8),
        };
        assert_eq!((with, without), expected, "{bits}");
    }
}

#[test]
fn kinds_of_changes() {
    let change = |flags, rest: &str| match judge(&order(flags, rest)).expect("a good order") {
        Order::Window(order) => match order.change {
            WindowChange::New(_) => "new window",
            WindowChange::Update(_) => "update window",
            WindowChange::Delete => "delete window",
            WindowChange::Picture { which, .. } => match which {
                WindowIcon::Small => "small icon",
                WindowIcon::Big => "big icon",
                WindowIcon::Overlay => "overlay icon",
            },
        },
        Order::Notification(order) => match order.change {
            NotificationChange::New(_) => "new icon",
            NotificationChange::Update(_) => "update icon",
            NotificationChange::Delete => "delete icon",
        },
        Order::Desktop(_) => "desktop",
    };
    assert_eq!(change(0x1100_0000, ID), "new window");
    assert_eq!(change(0x0100_0000, ID), "update window");
    assert_eq!(change(0x2100_0000, ID), "delete window");
    assert_eq!(change(0x9100_2000, &format!("{ID} 000000")), "big icon");
    assert_eq!(change(0x8100_0000, &format!("{ID} 000000")), "small icon");
    assert_eq!(change(0x8110_0000, &format!("{ID} 000000")), "overlay icon");
    assert_eq!(change(0x1200_0000, IDS), "new icon");
    assert_eq!(change(0x0200_0000, IDS), "update icon");
    assert_eq!(change(0x2200_0000, IDS), "delete icon");
    assert_eq!(change(0x0400_003A, "00000000 00"), "desktop");
}
