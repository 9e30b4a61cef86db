//! System parameters: each setting at its length and beside it, numbers that are no
//! setting, and the two lengths of high contrast.

use super::samples::{contrast, setting};
use super::{hex, read_number};
use second::pdu::setting::{Area, Body};
use second::pdu::{read, write};

/// The settings with what follows them.
const BODIES: [(u32, &str); 10] = [
    (0x25, "01"),
    (0x100B, "01"),
    (0x45, "01"),
    (0x21, "01"),
    (0x2F, "0100 0200 0300 0400"),
    (0xF000, "0100 0200 0300 0400"),
    (0xF001, "0100 0200 0300 0400"),
    (0x43, "7E000000 03000000 0100 41"),
    (0x11, "01"),
    (0x77, "01"),
];

/// A message of a setting with this body.
fn message(setting: u32, body: &[u8]) -> Vec<u8> {
    let size = 8 + body.len() as u16;
    let mut message = hex("0300");
    message.extend_from_slice(&size.to_le_bytes());
    message.extend_from_slice(&setting.to_le_bytes());
    message.extend_from_slice(body);
    message
}

#[test]
fn each_setting_at_its_length_and_beside_it() {
    for (setting, body) in BODIES {
        let body = hex(body);
        assert_eq!(read_number(&message(setting, &body)), 0, "{setting:x}");
        for length in 0..body.len() {
            assert_eq!(read_number(&message(setting, &body[..length])), 7);
        }
        let longer = [&body[..], &[0]].concat();
        assert_eq!(read_number(&message(setting, &longer)), 7);
    }
}

#[test]
fn numbers_that_are_no_setting() {
    let settings = BODIES.map(|(setting, _)| setting);
    let low = (0..0x1_0000).filter(|number| !settings.contains(number));
    let high = settings
        .iter()
        .flat_map(|setting| [setting | 0x1_0000, setting << 16]);
    for number in low.chain(high) {
        for length in 0..=4 {
            assert_eq!(
                read_number(&message(number, &[1; 4][..length])),
                8,
                "{number:x}"
            );
        }
        let record = setting(number, Body::Value(1));
        assert_eq!(write(&record, &mut [0; 16]), Err(8));
    }
}

#[test]
fn fewer_than_the_four_bytes_of_a_setting() {
    for (setting, _) in BODIES.into_iter().chain([(0x99, "")]) {
        let whole = message(setting, &[]);
        for size in 4..8 {
            let mut cut = whole[..size].to_vec();
            cut[2] = size as u8;
            assert_eq!(read_number(&cut), 7);
        }
    }
}

/// High contrast with these lengths and that many bytes after them.
fn scheme(outer: u32, inner: u16, bytes: usize) -> u8 {
    let mut body = hex("7E000000");
    body.extend_from_slice(&outer.to_le_bytes());
    body.extend_from_slice(&inner.to_le_bytes());
    body.resize(10 + bytes, 0x41);
    read_number(&message(0x43, &body))
}

#[test]
fn lengths_of_high_contrast() {
    for (length, number) in [
        (0, 0),
        (1, 0),
        (519, 0),
        (520, 0),
        (521, 8),
        (522, 8),
        (40_000, 8),
    ] {
        let inner = u32::from(length);
        let bytes = usize::from(length);
        assert_eq!(scheme(inner + 2, length, bytes), number);
        // The outer length is another: 7, before 8.
        for outer in [
            inner + 1,
            inner + 3,
            inner,
            0,
            u32::MAX,
            inner + 2 + 0x1_0000,
        ] {
            assert_eq!(scheme(outer, length, bytes), 7, "{outer} and {inner}");
        }
        // The string does not fill the message.
        assert_eq!(scheme(inner + 2, length, bytes + 1), 7);
    }
    // 65,535 and 2 are 65,537, and not 1.
    assert_eq!(scheme(1, 0xFFFF, 0), 7);
}

#[test]
fn writing_high_contrast() {
    for (length, number) in [(0, 0), (519, 0), (520, 0), (521, 8)] {
        let string = vec![0x41; length];
        let record = setting(0x43, contrast(1, &string));
        let mut out = [0; 600];
        let written = write(&record, &mut out);
        assert_eq!(written.err().unwrap_or(0), number);
        if let Ok(size) = written {
            assert_eq!(read(&out[..size]), Ok(record));
        }
    }
}

#[test]
fn bytes_and_rectangles_take_any_value() {
    for value in 0..=255 {
        let record = setting(0x77, Body::Value(value));
        let mut out = [0; 9];
        assert_eq!(write(&record, &mut out), Ok(9));
        assert_eq!(read(&out), Ok(record));
    }
    for (left, right) in [(0, 0), (0xFFFF, 0), (0x8000, 0x7FFF)] {
        let area = Area {
            left,
            top: right,
            right,
            bottom: left,
        };
        let record = setting(0x2F, Body::Area(area));
        let mut out = [0; 16];
        assert_eq!(write(&record, &mut out), Ok(16));
        assert_eq!(read(&out), Ok(record));
    }
}
