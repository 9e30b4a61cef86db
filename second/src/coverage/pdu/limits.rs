//! The limited fields, where they stand, and the numbers to be met in them.

use crate::pdu::rules;
use crate::pdu::setting::{form, Form};
use Kind::{Setting, Type};

/// A field with a limit, or one whose numbers are worth meeting.
pub struct Limit {
    pub kind: Kind,
    pub name: &'static str,
    /// Offset and width in a message, if it is carried there.
    read: Option<(usize, usize)>,
    /// Offset and width in a `P` item's payload, if it is carried there.
    write: Option<(usize, usize)>,
    pub allows: fn(u32) -> bool,
    pub values: &'static [u32],
}

#[rustfmt::skip]
const COMMANDS: [u32; 24] = [
    0xEFFF, 0xF000, 0xF001, 0xF00F, 0xF010, 0xF011, 0xF01F, 0xF020, 0xF021, 0xF02F, 0xF030, 0xF031,
    0xF05F, 0xF060, 0xF061, 0xF0FF, 0xF100, 0xF101, 0xF11F, 0xF120, 0xF121, 0xF15F, 0xF160, 0xF161,
];

#[rustfmt::skip]
const FLAGS: [u32; 36] = [
    0, 1, 2, 3, 4, 5, 6, 7, 8, 9, 10, 11, 12, 13, 14, 15, 16, 17, 18, 19, 20, 21, 22, 23, 24, 25, 26, 27,
    28, 29, 30, 31, 32, 0x40, 0x8000, 0xFFFF,
];

/// All limited fields. In messages and items alike a header of 4 comes first.
pub const LIMITS: [Limit; 23] = [
    Limit {
        kind: HIGH_CONTRAST,
        name: "length",
        read: Some((16, 2)),
        write: Some((12, 2)),
        allows: |value| rules::color_scheme_length(value as usize),
        values: &[0, 1, 2, 519, 520, 521, 522],
    },
    Limit {
        kind: Type(0x0001),
        name: "flags",
        read: Some((4, 2)),
        write: Some((4, 2)),
        allows: |value| rules::execute_flags(value as u16),
        values: &FLAGS,
    },
    Limit {
        kind: Type(0x0001),
        name: "program",
        read: Some((6, 2)),
        write: Some((6, 2)),
        allows: |value| rules::program_length(value as usize),
        values: &[0, 1, 2, 519, 520, 521, 522],
    },
    Limit {
        kind: Type(0x0001),
        name: "directory",
        read: Some((8, 2)),
        write: Some((8, 2)),
        allows: |value| rules::directory_length(value as usize),
        values: &[0, 1, 2, 519, 520, 521, 522],
    },
    Limit {
        kind: Type(0x0001),
        name: "arguments",
        read: Some((10, 2)),
        write: Some((10, 2)),
        allows: |value| rules::arguments_length(value as usize),
        values: &[0, 1, 2, 15_998, 15_999, 16_000, 16_001, 16_002],
    },
    Limit {
        kind: Type(0x0002),
        name: "enabled",
        read: Some((8, 1)),
        write: Some((8, 1)),
        allows: |value| rules::enabled(value as u8),
        values: &[0, 1, 2, 255],
    },
    Limit {
        kind: Type(0x0004),
        name: "command",
        read: Some((8, 2)),
        write: Some((8, 2)),
        allows: |value| rules::command(value as u16),
        values: &COMMANDS,
    },
    Limit {
        kind: Type(0x0009),
        name: "start",
        read: Some((8, 2)),
        write: None,
        allows: |_| true,
        values: &[0, 1, 2, 0x100, 0xFFFF],
    },
    Limit {
        kind: Type(0x0009),
        name: "move_type",
        read: Some((10, 2)),
        write: Some((9, 2)),
        allows: |value| rules::move_size_type(value as u16),
        values: &[0, 1, 2, 3, 4, 5, 6, 7, 8, 9, 10, 11, 12, 0xFFFF],
    },
    Limit {
        kind: Type(0x000F),
        name: "length",
        read: None,
        write: Some((8, 2)),
        allows: |value| rules::application_id_length(value as usize),
        values: &[0, 1, 2, 519, 520, 521, 522],
    },
    Limit {
        kind: Type(0x0080),
        name: "result",
        read: Some((6, 2)),
        write: Some((6, 2)),
        allows: |value| rules::exec_result(value as u16),
        values: &[0, 1, 2, 3, 4, 5, 6, 7, 8, 0xFFFF],
    },
    Limit {
        kind: Type(0x0080),
        name: "padding",
        read: Some((12, 2)),
        write: None,
        allows: |_| true,
        values: &[0, 1, 0x100, 0xFFFF],
    },
    Limit {
        kind: Type(0x0080),
        name: "length",
        read: Some((14, 2)),
        write: Some((12, 2)),
        allows: |value| rules::result_length(value as usize),
        values: &[0, 1, 2, 519, 520, 521],
    },
    position(0x0008, "left", 8, 8),
    position(0x0008, "top", 10, 10),
    position(0x0008, "right", 12, 12),
    position(0x0008, "bottom", 14, 14),
    position(0x0009, "x", 12, 11),
    position(0x0009, "y", 14, 13),
    position(0x000A, "max_x", 12, 12),
    position(0x000A, "max_y", 14, 14),
    position(0x000C, "left", 8, 8),
    position(0x000C, "top", 10, 10),
];

/// A position, signed: the least, the greatest, -1 and -100 are to be met.
const fn position(kind: u16, name: &'static str, read: usize, write: usize) -> Limit {
    Limit {
        kind: Kind::Type(kind),
        name,
        read: Some((read, 2)),
        write: Some((write, 2)),
        allows: |_| true,
        values: &[0x8000, 0x7FFF, 0xFFFF, 0xFF9C],
    }
}

impl Limit {
    /// Where the field stands for this call.
    pub fn place(&self, call: char) -> Option<(usize, usize)> {
        if call == 'R' {
            self.read
        } else {
            self.write
        }
    }

    /// The field's number in a message or payload that has one.
    pub fn value(&self, call: char, bytes: &[u8]) -> Option<u32> {
        let (at, width) = self.place(call)?;
        Some(number(bytes.get(at..at + width)?))
    }

    /// The text of the fact that this number met that answer.
    pub fn fact(&self, call: char, value: u32, number: u8) -> String {
        let kind = kind_name(self.kind).expect("a listed type");
        format!("{call} {kind} {}={value} {number}", self.name)
    }
}

/// A type, and with system parameters the setting.
#[derive(Clone, Copy, PartialEq, Eq)]
pub enum Kind {
    Type(u16),
    Setting(u32),
}

/// The setting with a string.
pub const HIGH_CONTRAST: Kind = Setting(0x43);

/// The kinds and their names.
pub const KINDS: [(Kind, &str); 24] = [
    (Type(0x0001), "Execute"),
    (Type(0x0002), "Activate"),
    (Type(0x0004), "SystemCommand"),
    (Type(0x0005), "Handshake"),
    (Type(0x0006), "NotifyEvent"),
    (Type(0x0008), "WindowMove"),
    (Type(0x0009), "MoveSize"),
    (Type(0x000A), "MinMaxInfo"),
    (Type(0x000B), "ClientInformation"),
    (Type(0x000C), "SystemMenu"),
    (Type(0x000E), "GetApplicationId"),
    (Type(0x000F), "ApplicationIdResponse"),
    (Type(0x0080), "ExecuteResult"),
    (Type(0x0013), "HandshakeEx"),
    (Setting(0x11), "ScreenSaveActive"),
    (Setting(0x77), "ScreenSaveSecure"),
    (Setting(0x21), "MouseButtonSwap"),
    (Setting(0x25), "DragFullWindows"),
    (Setting(0x45), "KeyboardPref"),
    (Setting(0x100B), "KeyboardCues"),
    (Setting(0x2F), "WorkArea"),
    (Setting(0xF000), "TaskbarPos"),
    (Setting(0xF001), "DisplayChange"),
    (HIGH_CONTRAST, "HighContrast"),
];

/// The kind of a message, or of a `P` item's payload, by its type and the bytes
/// after the first four.
pub fn kind_of(kind: u16, bytes: &[u8]) -> Kind {
    match (kind, bytes.get(4..8)) {
        (0x0003, Some(setting)) => Kind::Setting(number(setting)),
        _ => Kind::Type(kind),
    }
}

/// The kind's name, if it is a known one.
pub fn kind_name(kind: Kind) -> Option<&'static str> {
    KINDS
        .iter()
        .find(|(known, _)| *known == kind)
        .map(|(_, name)| *name)
}

/// The size that a message's type and length fields ask for, if they are whole.
pub fn size_by_fields(message: &[u8]) -> Option<i64> {
    let kind = number(message.get(..2)?);
    let length = |at: usize| {
        message
            .get(at..at + 2)
            .map(|bytes| i64::from(number(bytes)))
    };
    Some(match kind {
        0x0001 => 12 + length(6)? + length(8)? + length(10)?,
        0x0002 => 9,
        0x0004 => 10,
        0x0005 | 0x000B | 0x000E => 8,
        0x000C | 0x0013 => 12,
        0x000A => 24,
        0x000F => 528,
        0x0080 => 16 + length(14)?,
        0x0003 => match form(number(message.get(4..8)?))? {
            Form::Value => 9,
            Form::Area => 16,
            Form::Contrast => 18 + length(16)?,
        },
        _ => 16,
    })
}

fn number(bytes: &[u8]) -> u32 {
    bytes
        .iter()
        .rev()
        .fold(0, |number, &byte| number << 8 | u32::from(byte))
}
