//! One record of each kind, with a different number in every field.

use second::ids::{NotifyIconId, WindowId};
use second::pdu::setting::{Area, Body, Contrast};
use second::pdu::*;

/// Each record with its message in hex.
pub const SAMPLES: [(Record<'static>, &str); 17] = [
    (
        Record::Execute(Execute {
            flags: 0x0016,
            exe_or_file: &[0x41, 0x42],
            working_dir: &[0x43, 0x44, 0x45, 0x46],
            arguments: &[0x47, 0x48, 0x49, 0x4A, 0x4B, 0x4C],
        }),
        "0100 1800 1600 0200 0400 0600 4142 43444546 4748494A4B4C",
    ),
    (
        Record::Activate(Activate {
            window_id: WindowId(0x0403_0201),
            enabled: 1,
        }),
        "0200 0900 01020304 01",
    ),
    (
        Record::SystemCommand(SystemCommand {
            window_id: WindowId(0x0403_0201),
            command: 0xF160,
        }),
        "0400 0A00 01020304 60F1",
    ),
    (
        Record::Handshake(Handshake {
            build_number: 0x1413_1211,
        }),
        "0500 0800 11121314",
    ),
    (
        Record::NotifyEvent(NotifyEvent {
            window_id: WindowId(0x0403_0201),
            notify_icon_id: NotifyIconId(0x2423_2221),
            message: 0x3433_3231,
        }),
        "0600 1000 01020304 21222324 31323334",
    ),
    (
        Record::WindowMove(WindowMove {
            window_id: WindowId(0x0403_0201),
            left: 0x2221,
            top: 0x3231,
            right: 0x4241,
            bottom: 0x5251,
        }),
        "0800 1000 01020304 2122 3132 4142 5152",
    ),
    (
        Record::MoveSize(MoveSize {
            window_id: WindowId(0x0403_0201),
            is_move_size_start: true,
            move_size_type: 0x000B,
            pos_x: 0x4241,
            pos_y: 0x5251,
        }),
        "0900 1000 01020304 0100 0B00 4142 5152",
    ),
    (
        Record::MinMaxInfo(MinMaxInfo {
            window_id: WindowId(0x0403_0201),
            max_width: 0x1211,
            max_height: 0x2221,
            max_pos_x: 0x3231,
            max_pos_y: 0x4241,
            min_track_width: 0x5251,
            min_track_height: 0x6261,
            max_track_width: 0x7271,
            max_track_height: 0x8281,
        }),
        "0A00 1800 01020304 1112 2122 3132 4142 5152 6162 7172 8182",
    ),
    (
        Record::ClientInformation(ClientInformation { flags: 0x1413_1211 }),
        "0B00 0800 11121314",
    ),
    (
        Record::SystemMenu(SystemMenu {
            window_id: WindowId(0x0403_0201),
            left: -223,
            top: 0x3231,
        }),
        "0C00 0C00 01020304 21FF 3132",
    ),
    (
        Record::GetApplicationId(GetApplicationId {
            window_id: WindowId(0x0403_0201),
        }),
        "0E00 0800 01020304",
    ),
    (
        Record::ApplicationIdResponse(ApplicationIdResponse {
            window_id: WindowId(0x0403_0201),
            application_id: &[0x5A; 520],
        }),
        // The id's 520 bytes are added by `message`.
        "0F00 1002 01020304",
    ),
    (
        Record::ExecuteResult(ExecuteResult {
            flags: 0xFFEE,
            exec_result: 7,
            raw_result: 0x2423_2221,
            exe_or_file: &[0x41, 0x42, 0x43],
        }),
        "8000 1300 EEFF 0700 21222324 0000 0300 414243",
    ),
    (
        setting(0x0000_100B, Body::Value(0xFE)),
        "0300 0900 0B100000 FE",
    ),
    (
        setting(
            0x0000_F001,
            Body::Area(Area {
                left: 0x2221,
                top: 0x3231,
                right: 0x4241,
                bottom: 0x5251,
            }),
        ),
        "0300 1000 01F00000 2122 3132 4142 5152",
    ),
    (
        setting(0x0000_0043, contrast(0x1413_1211, &[0x41, 0x42, 0x43])),
        "0300 1500 43000000 11121314 05000000 0300 414243",
    ),
    (
        Record::HandshakeEx(HandshakeEx {
            build_number: 0x1413_1211,
            flags: 0x2423_2221,
        }),
        "1300 0C00 11121314 21222324",
    ),
];

/// A sample's message.
pub fn message(sample: &(Record<'static>, &str)) -> Vec<u8> {
    let mut message = super::hex(sample.1);
    if let Record::ApplicationIdResponse(r) = sample.0 {
        message.extend_from_slice(r.application_id);
    }
    message
}

/// Every kind with a rule, broken by one field.
pub const BROKEN: [Record<'static>; 13] = [
    execute(0x0020, &[1; 2], &[], &[]),
    execute(0, &[], &[], &[]),
    execute(0, &[1; 2], &[1; 522], &[]),
    execute(0, &[1; 2], &[], &[1; 3]),
    Record::Activate(Activate {
        window_id: WindowId(1),
        enabled: 2,
    }),
    Record::SystemCommand(SystemCommand {
        window_id: WindowId(1),
        command: 0xF040,
    }),
    Record::MoveSize(MoveSize {
        window_id: WindowId(1),
        is_move_size_start: false,
        move_size_type: 12,
        pos_x: 0,
        pos_y: 0,
    }),
    Record::ApplicationIdResponse(ApplicationIdResponse {
        window_id: WindowId(1),
        application_id: &[1; 521],
    }),
    result(4, &[1; 2]),
    result(0, &[]),
    setting(0x0000_0043, contrast(0, &[1; 521])),
    // What another setting carries, and no setting.
    setting(0x0000_0025, contrast(0, &[])),
    setting(0x0001_0025, Body::Value(1)),
];

/// A setting with what it carries.
pub const fn setting<'a>(setting: u32, body: Body<'a>) -> Record<'a> {
    Record::SystemParameters(SystemParameters { setting, body })
}

/// High contrast.
pub const fn contrast(flags: u32, color_scheme: &[u8]) -> Body<'_> {
    Body::Contrast(Contrast {
        flags,
        color_scheme,
    })
}

/// An Execute record.
pub const fn execute<'a>(flags: u16, p: &'a [u8], d: &'a [u8], a: &'a [u8]) -> Record<'a> {
    Record::Execute(Execute {
        flags,
        exe_or_file: p,
        working_dir: d,
        arguments: a,
    })
}

/// An Execute Result record.
pub const fn result(exec_result: u16, exe_or_file: &[u8]) -> Record<'_> {
    Record::ExecuteResult(ExecuteResult {
        flags: 0,
        exec_result,
        raw_result: 0,
        exe_or_file,
    })
}
