//! Number 8: each rule at its limits, on reading and on writing.

use super::samples::{execute, result};
use super::{hex, read_number};
use second::ids::WindowId;
use second::pdu::{write, Activate, ApplicationIdResponse, MoveSize, Record, SystemCommand};

fn write_number(record: &Record<'_>) -> u8 {
    write(record, &mut [0; 20_000]).err().unwrap_or(0)
}

/// An Execute message laid out by hand.
fn execute_message(flags: u16, lengths: [usize; 3]) -> Vec<u8> {
    let total: usize = lengths.iter().sum();
    let mut message = vec![1, 0];
    for number in [12 + total, flags.into(), lengths[0], lengths[1], lengths[2]] {
        message.extend_from_slice(&(number as u16).to_le_bytes());
    }
    message.resize(12 + total, 0x41);
    message
}

fn check_execute(flags: u16, lengths: [usize; 3], number: u8) {
    let bytes = [0x41; 16_100];
    let [p, d, a] = lengths.map(|length| &bytes[..length]);
    assert_eq!(read_number(&execute_message(flags, lengths)), number);
    assert_eq!(write_number(&execute(flags, p, d, a)), number);
}

#[test]
fn execute_lengths() {
    for (length, number) in [
        (0, 8),
        (1, 8),
        (2, 0),
        (3, 8),
        (519, 8),
        (520, 0),
        (521, 8),
        (522, 8),
    ] {
        check_execute(0, [length, 0, 0], number);
    }
    for (length, number) in [
        (0, 0),
        (1, 8),
        (2, 0),
        (519, 8),
        (520, 0),
        (521, 8),
        (522, 8),
    ] {
        check_execute(0, [2, length, 0], number);
    }
    for (length, number) in [
        (0, 0),
        (1, 8),
        (2, 0),
        (15_998, 0),
        (15_999, 8),
        (16_000, 0),
        (16_001, 8),
        (16_002, 8),
    ] {
        check_execute(0, [2, 0, length], number);
    }
    check_execute(0x1D, [520, 520, 16_000], 0);
}

#[test]
fn execute_flags() {
    let granted = [
        0, 1, 4, 5, 6, 7, 8, 9, 12, 13, 14, 15, 16, 17, 20, 21, 22, 23, 24, 25, 28, 29, 30, 31,
    ];
    for flags in 0..=u16::MAX {
        let number = if granted.contains(&flags) { 0 } else { 8 };
        check_execute(flags, [2, 0, 0], number);
    }
}

#[test]
fn execute_result_numbers() {
    for exec_result in 0..=u16::MAX {
        let number = if [0, 1, 2, 3, 5, 6, 7].contains(&exec_result) {
            0
        } else {
            8
        };
        let mut message = hex("8000 1200 FFFF 0000 FFFFFFFF 0000 0200 4142");
        message[6..8].copy_from_slice(&exec_result.to_le_bytes());
        assert_eq!(read_number(&message), number);
        assert_eq!(write_number(&result(exec_result, &[0x41; 2])), number);
    }
}

#[test]
fn execute_result_length() {
    for (length, number) in [
        (0, 8),
        (1, 0),
        (2, 0),
        (3, 0),
        (519, 0),
        (520, 0),
        (521, 8),
        (522, 8),
    ] {
        let mut message = hex("8000 0000 0000 0000 00000000 0000 0000");
        message[2..4].copy_from_slice(&(16 + length as u16).to_le_bytes());
        message[14..16].copy_from_slice(&(length as u16).to_le_bytes());
        message.resize(16 + length, 0x41);
        assert_eq!(read_number(&message), number);
        assert_eq!(write_number(&result(0, &message[16..])), number);
    }
}

#[test]
fn enabled() {
    for enabled in 0..=u8::MAX {
        let number = if enabled < 2 { 0 } else { 8 };
        let mut message = hex("0200 0900 58000100 00");
        message[8] = enabled;
        assert_eq!(read_number(&message), number);
        let window_id = WindowId(0x10058);
        assert_eq!(
            write_number(&Record::Activate(Activate { window_id, enabled })),
            number
        );
    }
}

#[test]
fn command() {
    let granted = [
        0xF000, 0xF010, 0xF020, 0xF030, 0xF060, 0xF100, 0xF120, 0xF160,
    ];
    for command in 0..=u16::MAX {
        let number = if granted.contains(&command) { 0 } else { 8 };
        let mut message = hex("0400 0A00 58000100 0000");
        message[8..].copy_from_slice(&command.to_le_bytes());
        assert_eq!(read_number(&message), number);
        let window_id = WindowId(0x10058);
        assert_eq!(
            write_number(&Record::SystemCommand(SystemCommand { window_id, command })),
            number
        );
    }
}

#[test]
fn move_size_type() {
    for move_size_type in 0..=u16::MAX {
        let number = if (1..=11).contains(&move_size_type) {
            0
        } else {
            8
        };
        let mut message = hex("0900 1000 58000100 0100 0000 0000 0000");
        message[10..12].copy_from_slice(&move_size_type.to_le_bytes());
        assert_eq!(read_number(&message), number);
        let record = Record::MoveSize(MoveSize {
            window_id: WindowId(0x10058),
            is_move_size_start: false,
            move_size_type,
            pos_x: -1,
            pos_y: -1,
        });
        assert_eq!(write_number(&record), number);
    }
}

#[test]
fn application_id_length() {
    for (length, number) in [
        (0, 0),
        (1, 0),
        (519, 0),
        (520, 0),
        (521, 8),
        (522, 8),
        (17_000, 8),
    ] {
        let record = Record::ApplicationIdResponse(ApplicationIdResponse {
            window_id: WindowId(1),
            application_id: &vec![0x41; length],
        });
        assert_eq!(write_number(&record), number);
    }
}

#[test]
fn a_string_past_16_bits_is_refused() {
    let long = vec![0; 0x1_0002];
    assert_eq!(write_number(&execute(0, &long, &[], &[])), 8);
    assert_eq!(write_number(&execute(0, &long[..2], &long, &[])), 8);
    assert_eq!(write_number(&execute(0, &long[..2], &[], &long)), 8);
    assert_eq!(write_number(&result(0, &long)), 8);
}

#[test]
fn other_fields_take_any_number() {
    for message in [
        "0500 0800 FFFFFFFF",
        "0600 1000 FFFFFFFF FFFFFFFF FFFFFFFF",
        "0800 1000 FFFFFFFF FFFF FFFF FFFF FFFF",
        "0A00 1800 FFFFFFFF FFFF FFFF FFFF FFFF FFFF FFFF FFFF FFFF",
        "0B00 0800 FFFFFFFF",
        "0C00 0C00 FFFFFFFF FFFF FFFF",
        "0E00 0800 FFFFFFFF",
    ] {
        let message = hex(message);
        let record = second::pdu::read(&message).expect("granted");
        let mut out = vec![0; message.len()];
        assert_eq!(write(&record, &mut out), Ok(message.len()));
        assert_eq!(out, message);
    }
}
