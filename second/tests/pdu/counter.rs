//! The counter profile: which end sends a kind, which programs may be started, and what
//! comes first.

use super::samples::{message, BROKEN, SAMPLES};
use super::{hex, read_number};
use second::pdu::setting::{Area, Body};
use second::pdu::{counter, read, write};
use second::pdu::{Execute, Record, SystemParameters};

/// Whether a server sends the record, and whether a client does.
fn ends(record: &Record<'_>) -> (bool, bool) {
    match record {
        Record::Handshake(_) => (true, true),
        Record::HandshakeEx(_) | Record::MoveSize(_) | Record::MinMaxInfo(_) => (true, false),
        Record::ApplicationIdResponse(_) | Record::ExecuteResult(_) => (true, false),
        Record::SystemParameters(SystemParameters { setting, .. }) => {
            let by_server = [0x11, 0x77].contains(setting);
            (by_server, !by_server)
        }
        _ => (false, true),
    }
}

/// What writing in the profile answers, the output memory checked.
fn written(record: &Record<'_>, size: usize) -> u8 {
    let mut out = vec![0xEE; size];
    match counter::write(record, &mut out) {
        Ok(length) => {
            let mut plain = vec![0xEE; size];
            assert_eq!(write(record, &mut plain), Ok(length));
            assert_eq!(out, plain);
            0
        }
        Err(number) => {
            assert_eq!(out, vec![0xEE; size]);
            number
        }
    }
}

fn read_in_profile(message: &[u8]) -> u8 {
    match counter::read(message) {
        Ok(record) => {
            assert_eq!(read(message), Ok(record));
            0
        }
        Err(number) => number,
    }
}

#[test]
fn each_kind_from_its_end() {
    let mut numbers = [0; 2];
    for sample in &SAMPLES {
        let (by_server, by_client) = ends(&sample.0);
        let number = read_in_profile(&message(sample));
        assert_eq!(number, if by_server { 0 } else { 20 }, "{:?}", sample.0);
        numbers[usize::from(by_server)] += 1;
        let number = written(&sample.0, 600);
        if matches!(sample.0, Record::Execute(_)) {
            assert_eq!(number, 21);
        } else {
            assert_eq!(number, if by_client { 0 } else { 20 }, "{:?}", sample.0);
        }
    }
    assert!(numbers.iter().all(|&count| count > 4));
}

#[test]
fn each_setting_from_its_end() {
    let area = Area {
        left: 1,
        top: 2,
        right: 3,
        bottom: 4,
    };
    for setting in [0x25, 0x100B, 0x45, 0x21, 0x11, 0x77, 0x2F, 0xF000, 0xF001] {
        let body = match setting {
            0x2F | 0xF000 | 0xF001 => Body::Area(area),
            _ => Body::Value(1),
        };
        let record = Record::SystemParameters(SystemParameters { setting, body });
        let mut out = [0; 16];
        let length = write(&record, &mut out).expect("a plain record");
        let by_server = setting == 0x11 || setting == 0x77;
        let (read, write) = if by_server { (0, 20) } else { (20, 0) };
        assert_eq!(read_in_profile(&out[..length]), read, "{setting:x}");
        assert_eq!(written(&record, 16), write, "{setting:x}");
    }
}

#[test]
fn plain_refusals_come_first() {
    for sample in &SAMPLES {
        let message = message(sample);
        for size in 0..message.len() {
            assert_eq!(written(&sample.0, size), 14);
            assert_eq!(
                read_in_profile(&message[..size]),
                read_number(&message[..size])
            );
        }
    }
    for record in &BROKEN {
        for size in [0, 16, 600] {
            assert_eq!(written(record, size), 8, "{record:?}");
        }
    }
}

fn execute(flags: u16, name: &[u8]) -> u8 {
    let record = Record::Execute(Execute {
        flags,
        exe_or_file: name,
        working_dir: &[0x43, 0x44],
        arguments: &[],
    });
    assert_eq!(
        written(&record, 13 + name.len()),
        write(&record, &mut [0; 600]).map_or(8, |_| 14)
    );
    written(&record, 600)
}

#[test]
fn all_flags() {
    let name = hex("7C007C00 4100");
    for flags in 0..=0xFFFF {
        let number = match flags {
            0x20.. => 8,
            flags if flags & 6 == 2 => 8,
            0 | 1 | 8 | 9 => 0,
            _ => 21,
        };
        assert_eq!(execute(flags, &name), number, "{flags:x}");
    }
}

#[test]
fn names() {
    for (name, number) in [
        ("", 8),
        ("7C", 8),
        ("7C00", 21),
        ("7C007C", 8),
        ("7C007C00", 21),
        ("7C007C0041", 8),
        ("7C007C000000", 0),
        ("7C007C007C007C00", 0),
        ("00 7C007C00 41", 21),
        ("41007C007C00", 21),
    ] {
        assert_eq!(execute(0, &hex(name)), number, "{name}");
    }
    // Each bit of the prefix counts.
    for at in 0..4 {
        for bit in 0..8 {
            let mut name = hex("7C007C00 4100");
            name[at] ^= 1 << bit;
            assert_eq!(execute(0, &name), 21);
        }
    }
}
