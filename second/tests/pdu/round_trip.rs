//! Records and messages there and back.

use super::samples::{contrast, setting};
use second::generate::{self, random::Random};
use second::ids::{NotifyIconId, WindowId};
use second::pdu::setting::{Area, Body};
use second::pdu::*;
use second::script::take_item;

/// A message that is read writes the same bytes, Padding and start aside.
#[test]
fn read_messages_write_the_same_bytes() {
    let mut granted = 0;
    for seed in 0..50 {
        let script = generate::pdu::script(seed, 200);
        let mut rest = &script[..];
        while let Some((item, tail)) = take_item(rest) {
            rest = tail;
            if item.kind != b'R' {
                continue;
            }
            if let Ok(record) = read(item.payload) {
                let mut out = vec![0xEE; item.payload.len()];
                assert_eq!(write(&record, &mut out), Ok(out.len()));
                assert_eq!(out, normal(item.payload));
                granted += 1;
            }
        }
    }
    assert!(granted > 1_000, "only {granted} messages");
}

/// The message with Padding 0 and any nonzero start 1.
fn normal(message: &[u8]) -> Vec<u8> {
    let mut message = message.to_vec();
    if message[..2] == [0x80, 0] {
        message[12..14].fill(0);
    }
    if message[..2] == [0x09, 0] && message[8..10] != [0, 0] {
        message[8..10].copy_from_slice(&[1, 0]);
    }
    message
}

/// A record that is written reads back equal, a short application id aside.
#[test]
fn written_records_read_back_equal() {
    let mut random = Random::new(7);
    let bytes = random.bytes(16_000);
    for _ in 0..20_000 {
        let record = allowed_record(&mut random, &bytes);
        let mut out = [0xEE; 17_408];
        let size = write(&record, &mut out).expect("an allowed record");
        let back = read(&out[..size]).expect("a written message");
        match (record, back) {
            (Record::ApplicationIdResponse(r), Record::ApplicationIdResponse(b)) => {
                let (id, zeros) = b.application_id.split_at(r.application_id.len());
                assert_eq!((b.window_id, id), (r.window_id, r.application_id));
                assert_eq!(b.application_id.len(), 520);
                assert!(zeros.iter().all(|&byte| byte == 0));
            }
            _ => assert_eq!(back, record),
        }
    }
}

fn allowed_record<'a>(random: &mut Random, bytes: &'a [u8]) -> Record<'a> {
    let window_id = WindowId(random.bits() as u32);
    let mut short = || random.bits() as u16;
    let numbers = [(); 8].map(|()| short());
    match random.below(17) {
        0 => Record::Execute(Execute {
            flags: random.pick(&[0, 1, 4, 6, 8, 0x14, 0x1F]),
            exe_or_file: &bytes[..2 + 2 * random.below(260)],
            working_dir: &bytes[..2 * random.below(261)],
            arguments: &bytes[..2 * random.below(8_001)],
        }),
        1 => Record::Activate(Activate {
            window_id,
            enabled: random.below(2) as u8,
        }),
        2 => Record::SystemCommand(SystemCommand {
            window_id,
            command: random.pick(&[
                0xF000, 0xF010, 0xF020, 0xF030, 0xF060, 0xF100, 0xF120, 0xF160,
            ]),
        }),
        3 => Record::Handshake(Handshake {
            build_number: random.bits() as u32,
        }),
        4 => Record::NotifyEvent(NotifyEvent {
            window_id,
            notify_icon_id: NotifyIconId(random.bits() as u32),
            message: random.bits() as u32,
        }),
        5 => Record::WindowMove(WindowMove {
            window_id,
            left: numbers[0] as i16,
            top: numbers[1] as i16,
            right: numbers[2] as i16,
            bottom: numbers[3] as i16,
        }),
        6 => Record::MoveSize(MoveSize {
            window_id,
            is_move_size_start: random.chance(50),
            move_size_type: 1 + random.below(11) as u16,
            pos_x: numbers[0] as i16,
            pos_y: numbers[1] as i16,
        }),
        7 => Record::MinMaxInfo(MinMaxInfo {
            window_id,
            max_width: numbers[0],
            max_height: numbers[1],
            max_pos_x: numbers[2] as i16,
            max_pos_y: numbers[3] as i16,
            min_track_width: numbers[4],
            min_track_height: numbers[5],
            max_track_width: numbers[6],
            max_track_height: numbers[7],
        }),
        8 => Record::ClientInformation(ClientInformation {
            flags: random.bits() as u32,
        }),
        9 => Record::SystemMenu(SystemMenu {
            window_id,
            left: numbers[0] as i16,
            top: numbers[1] as i16,
        }),
        10 => Record::GetApplicationId(GetApplicationId { window_id }),
        11 => Record::ApplicationIdResponse(ApplicationIdResponse {
            window_id,
            application_id: &bytes[..random.below(521)],
        }),
        12 => setting(
            random.pick(&[0x11, 0x21, 0x25, 0x45, 0x77, 0x100B]),
            Body::Value(numbers[0] as u8),
        ),
        13 => setting(
            random.pick(&[0x2F, 0xF000, 0xF001]),
            Body::Area(Area {
                left: numbers[0],
                top: numbers[1],
                right: numbers[2],
                bottom: numbers[3],
            }),
        ),
        14 => setting(
            0x43,
            contrast(random.bits() as u32, &bytes[..random.below(521)]),
        ),
        15 => Record::HandshakeEx(HandshakeEx {
            build_number: random.bits() as u32,
            flags: random.bits() as u32,
        }),
        _ => Record::ExecuteResult(ExecuteResult {
            flags: numbers[0],
            exec_result: random.pick(&[0, 1, 2, 3, 5, 6, 7]),
            raw_result: random.bits() as u32,
            exe_or_file: &bytes[..1 + random.below(520)],
        }),
    }
}
