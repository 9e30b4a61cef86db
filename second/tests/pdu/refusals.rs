//! Numbers 2, 3, 4 and 7, and which comes first.

use super::samples::{message, SAMPLES};
use super::{hex, read_number};

fn check(cases: &[(&str, u8)]) {
    for (text, number) in cases {
        assert_eq!(read_number(&hex(text)), *number, "{text}");
    }
}

#[test]
fn fewer_than_4_bytes() {
    check(&[
        ("", 2),
        ("05", 2),
        ("0500", 2),
        ("050003", 2),
        ("050008", 2),
    ]);
    check(&[("05000400", 7), ("05000800", 3), ("07000400", 4)]);
}

/// Declares another length than the message has.
#[test]
fn declared_length() {
    for sample in &SAMPLES {
        let good = message(sample);
        for offset in [1, 2, 0x100, u16::MAX] {
            let mut message = good.clone();
            let declared = (good.len() as u16).wrapping_add(offset);
            message[2..4].copy_from_slice(&declared.to_le_bytes());
            assert_eq!(read_number(&message), 3);
        }
        for cut in 4..good.len() {
            assert_eq!(read_number(&good[..cut]), 3);
        }
        let mut longer = good;
        longer.push(0);
        assert_eq!(read_number(&longer), 3);
    }
}

/// Every type but the fifteen is unknown, whatever the size.
#[test]
fn unknown_types() {
    let known = [1, 2, 3, 4, 5, 6, 8, 9, 10, 11, 12, 14, 15, 0x13, 0x80];
    for kind in 0..=u16::MAX {
        let mut message = hex("0000 0500 00");
        message[..2].copy_from_slice(&kind.to_le_bytes());
        let number = if known.contains(&kind) { 7 } else { 4 };
        assert_eq!(read_number(&message), number, "{kind:04x}");
    }
}

/// Cut or lengthened, with the header saying so.
#[test]
fn fields_do_not_fill() {
    for sample in &SAMPLES {
        let good = message(sample);
        for size in (4..good.len()).chain(good.len() + 1..good.len() + 20) {
            let mut message = good.clone();
            message.resize(size, 0);
            message[2..4].copy_from_slice(&(size as u16).to_le_bytes());
            assert_eq!(read_number(&message), 7, "{:?} with {size}", sample.0);
        }
    }
}

#[test]
fn length_fields_one_off() {
    check(&[
        ("0100 1200 0000 0200 0200 0200 4142 4344 4546", 0),
        ("0100 1200 0000 0300 0200 0200 4142 4344 4546", 7),
        ("0100 1200 0000 0200 0100 0200 4142 4344 4546", 7),
        ("0100 1200 0000 0200 0200 0300 4142 4344 4546", 7),
        ("8000 1200 0000 0000 00000000 0000 0100 4142", 7),
        ("8000 1200 0000 0000 00000000 0000 0200 4142", 0),
        ("8000 1200 0000 0000 00000000 0000 0300 4142", 7),
    ]);
}

#[test]
fn lengths_add_up_without_wrap() {
    check(&[
        ("0100 0E00 0000 0280 0080 0000 4142", 7),
        ("0100 0E00 0000 0200 0080 0080 4142", 7),
        ("0100 0C00 0000 FFFF 0100 0000", 7),
        ("8000 1000 0000 0000 00000000 0000 FFFF", 7),
    ]);
}

/// Two rules are broken; the one that comes first is told.
#[test]
fn refusal_order() {
    check(&[
        // 2 before 3 and 4.
        ("1300FF", 2),
        // 3 before 4, 7 and 8.
        ("1300 0500", 3),
        ("0200 0900 58000100", 3),
        ("0200 0A00 58000100 02", 3),
        // 4 before 7.
        ("0700 0400", 4),
        // 7 before 8.
        ("0200 0A00 58000100 02 00", 7),
        ("0400 0B00 58000100 0000 00", 7),
        ("0900 0F00 58000100 0000 0000 0000 00", 7),
        ("0100 0E00 2000 0300 0000 0000 4142", 7),
        ("0100 0D00 0000 0000 0000 0000 41", 7),
        ("8000 1200 0000 0400 00000000 0000 0100 4142", 7),
        ("8000 1100 0000 0400 00000000 0000 0000 41", 7),
    ]);
}

#[test]
fn the_longest_messages() {
    // 520 + 520 + 64,483 bytes fill 65,535 and break the rule on arguments.
    let mut message = hex("0100 FFFF 0000 0802 0802 E3FB");
    message.resize(0xFFFF, 0x41);
    assert_eq!(read_number(&message), 8);
    // One byte more cannot be declared.
    message.push(0x41);
    assert_eq!(read_number(&message), 3);
    message.resize(0x1_0000 + 8, 0);
    message[2..4].copy_from_slice(&[8, 0]);
    assert_eq!(read_number(&message), 3);
}
