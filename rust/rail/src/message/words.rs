//! Messages as 12 words: the type, then the fields in carried order, a string as its
//! place and its length, then zeros.

use alloc::borrow::Cow;

use super::setting::{setting_of, words_of_setting};
use super::{Message, Setting};
use crate::answer::Refusal;
use crate::ffi::Words;
use crate::ids::{NotifyIconId, WindowId};

const EXECUTE: u32 = 0x01;
const ACTIVATE: u32 = 0x02;
const SYSTEM_PARAMETERS: u32 = 0x03;
const SYSTEM_COMMAND: u32 = 0x04;
const HANDSHAKE: u32 = 0x05;
const NOTIFY_EVENT: u32 = 0x06;
const WINDOW_MOVE: u32 = 0x08;
const MOVE_SIZE: u32 = 0x09;
const MIN_MAX_INFO: u32 = 0x0A;
const CLIENT_INFORMATION: u32 = 0x0B;
const SYSTEM_MENU: u32 = 0x0C;
const GET_APPLICATION_ID: u32 = 0x0E;
const APPLICATION_ID_RESPONSE: u32 = 0x0F;
const HANDSHAKE_EX: u32 = 0x13;
const EXECUTE_RESULT: u32 = 0x80;

/// The longest string that a length of 2 bytes can tell. The rules allow less.
const STRING_LIMIT: usize = u16::MAX as usize;

/// The message of words that were read from these bytes.
pub(crate) fn message_of<'a>(words: &Words, bytes: &'a [u8]) -> Message<'a> {
    let mut from = Fields {
        words: &words[1..],
        bytes,
    };
    match words[0] {
        EXECUTE | APPLICATION_ID_RESPONSE | EXECUTE_RESULT => with_strings(words[0], &mut from),
        ACTIVATE => Message::Activate {
            window_id: from.window_id(),
            enabled: from.yes(),
        },
        SYSTEM_COMMAND => Message::SystemCommand {
            window_id: from.window_id(),
            command: from.u16(),
        },
        HANDSHAKE => Message::Handshake {
            build_number: from.u32(),
        },
        NOTIFY_EVENT => Message::NotifyEvent {
            window_id: from.window_id(),
            notify_icon_id: NotifyIconId(from.u32()),
            message: from.u32(),
        },
        WINDOW_MOVE | MOVE_SIZE | MIN_MAX_INFO | SYSTEM_MENU => with_positions(words[0], &mut from),
        CLIENT_INFORMATION => Message::ClientInformation { flags: from.u32() },
        GET_APPLICATION_ID => Message::GetApplicationId {
            window_id: from.window_id(),
        },
        SYSTEM_PARAMETERS => Message::SystemParameters {
            setting: setting_of(&mut from),
        },
        HANDSHAKE_EX => Message::HandshakeEx {
            build_number: from.u32(),
            flags: from.u32(),
        },
        kind => unreachable!("the library grants no message of type {kind:04X}"),
    }
}

/// The messages that have strings.
fn with_strings<'a>(kind: u32, from: &mut Fields<'_, 'a>) -> Message<'a> {
    match kind {
        EXECUTE => Message::Execute {
            flags: from.u16(),
            exe_or_file: from.string(),
            working_dir: from.string(),
            arguments: from.string(),
        },
        APPLICATION_ID_RESPONSE => Message::ApplicationIdResponse {
            window_id: from.window_id(),
            application_id: from.string(),
        },
        _ => Message::ExecuteResult {
            flags: from.u16(),
            exec_result: from.u16(),
            raw_result: from.u32(),
            exe_or_file: from.string(),
        },
    }
}

/// The messages that have positions.
fn with_positions<'a>(kind: u32, from: &mut Fields<'_, 'a>) -> Message<'a> {
    let window_id = from.window_id();
    match kind {
        WINDOW_MOVE => Message::WindowMove {
            window_id,
            left: from.i16(),
            top: from.i16(),
            right: from.i16(),
            bottom: from.i16(),
        },
        MOVE_SIZE => Message::MoveSize {
            window_id,
            is_start: from.yes(),
            move_size_type: from.u16(),
            pos_x: from.i16(),
            pos_y: from.i16(),
        },
        MIN_MAX_INFO => Message::MinMaxInfo {
            window_id,
            max_width: from.u16(),
            max_height: from.u16(),
            max_pos_x: from.i16(),
            max_pos_y: from.i16(),
            min_track_width: from.u16(),
            min_track_height: from.u16(),
            max_track_width: from.u16(),
            max_track_height: from.u16(),
        },
        _ => Message::SystemMenu {
            window_id,
            left: from.i16(),
            top: from.i16(),
        },
    }
}

/// The words not yet taken, and the bytes that strings are parts of.
pub(super) struct Fields<'w, 'a> {
    words: &'w [u32],
    bytes: &'a [u8],
}

impl<'a> Fields<'_, 'a> {
    pub(super) fn u32(&mut self) -> u32 {
        let (word, rest) = self.words.split_first().expect("a message has few fields");
        self.words = rest;
        *word
    }

    /// A field of 1 byte.
    pub(super) fn u8(&mut self) -> u8 {
        self.u32() as u8
    }

    /// A field of 2 bytes: its low half.
    pub(super) fn u16(&mut self) -> u16 {
        self.u32() as u16
    }

    /// A signed field of 2 bytes: the word is its sign-extended number, so the low half decides it.
    fn i16(&mut self) -> i16 {
        self.u16() as i16
    }

    fn yes(&mut self) -> bool {
        self.u32() != 0
    }

    fn window_id(&mut self) -> WindowId {
        WindowId(self.u32())
    }

    pub(super) fn string(&mut self) -> &'a [u8] {
        let [at, length] = [self.u32() as usize, self.u32() as usize];
        &self.bytes[at..at + length]
    }
}

/// The words of a message, and the bytes that its strings are parts of. A string of
/// more bytes than its length can tell is outside its set.
pub(crate) fn words_of<'a>(message: &Message<'a>) -> Result<(Words, Cow<'a, [u8]>), Refusal> {
    let strings = strings_of(message);
    if strings.iter().any(|string| string.len() > STRING_LIMIT) {
        return Err(Refusal::OutsideSet);
    }
    let words = numbers_of(message, places(strings));
    let bytes = match strings {
        [string, [], []] => Cow::Borrowed(string),
        _ => Cow::Owned(strings.concat()),
    };
    Ok((words, bytes))
}

/// The strings in carried order, then empty ones.
fn strings_of<'a>(message: &Message<'a>) -> [&'a [u8]; 3] {
    match *message {
        Message::Execute {
            exe_or_file,
            working_dir,
            arguments,
            ..
        } => [exe_or_file, working_dir, arguments],
        Message::ApplicationIdResponse { application_id, .. } => [application_id, &[], &[]],
        Message::ExecuteResult { exe_or_file, .. } => [exe_or_file, &[], &[]],
        Message::SystemParameters {
            setting: Setting::HighContrast { color_scheme, .. },
        } => [color_scheme, &[], &[]],
        _ => [&[], &[], &[]],
    }
}

/// Place and length of each string, one after the other.
fn places(strings: [&[u8]; 3]) -> [[u32; 2]; 3] {
    let mut at = 0;
    strings.map(|string| {
        let length = string.len() as u32;
        let place = [at, length];
        at += length;
        place
    })
}

fn numbers_of(message: &Message<'_>, places: [[u32; 2]; 3]) -> Words {
    match *message {
        Message::Activate { window_id, enabled } => filled([ACTIVATE, window_id.0, enabled.into()]),
        Message::SystemCommand { window_id, command } => {
            filled([SYSTEM_COMMAND, window_id.0, command.into()])
        }
        Message::Handshake { build_number } => filled([HANDSHAKE, build_number]),
        Message::NotifyEvent {
            window_id,
            notify_icon_id,
            message,
        } => filled([NOTIFY_EVENT, window_id.0, notify_icon_id.0, message]),
        Message::WindowMove {
            window_id,
            left,
            top,
            right,
            bottom,
        } => {
            let [left, top, right, bottom] = [left, top, right, bottom].map(word);
            filled([WINDOW_MOVE, window_id.0, left, top, right, bottom])
        }
        Message::ClientInformation { flags } => filled([CLIENT_INFORMATION, flags]),
        Message::SystemMenu {
            window_id,
            left,
            top,
        } => filled([SYSTEM_MENU, window_id.0, word(left), word(top)]),
        Message::GetApplicationId { window_id } => filled([GET_APPLICATION_ID, window_id.0]),
        Message::SystemParameters { setting } => {
            words_of_setting(SYSTEM_PARAMETERS, &setting, places[0])
        }
        Message::HandshakeEx {
            build_number,
            flags,
        } => filled([HANDSHAKE_EX, build_number, flags]),
        Message::MoveSize { .. } | Message::MinMaxInfo { .. } => numbers_of_size(message),
        _ => numbers_with_strings(message, places),
    }
}

/// Those of Move/Size and Min Max Info.
fn numbers_of_size(message: &Message<'_>) -> Words {
    match *message {
        Message::MoveSize {
            window_id,
            is_start,
            move_size_type,
            pos_x,
            pos_y,
        } => {
            let [start, kind] = [is_start.into(), move_size_type.into()];
            filled([
                MOVE_SIZE,
                window_id.0,
                start,
                kind,
                word(pos_x),
                word(pos_y),
            ])
        }
        Message::MinMaxInfo {
            window_id,
            max_width,
            max_height,
            max_pos_x,
            max_pos_y,
            min_track_width,
            min_track_height,
            max_track_width,
            max_track_height,
        } => filled([
            MIN_MAX_INFO,
            window_id.0,
            max_width.into(),
            max_height.into(),
            word(max_pos_x),
            word(max_pos_y),
            min_track_width.into(),
            min_track_height.into(),
            max_track_width.into(),
            max_track_height.into(),
        ]),
        _ => unreachable!("one of the two"),
    }
}

/// Those of the messages that have strings.
fn numbers_with_strings(message: &Message<'_>, places: [[u32; 2]; 3]) -> Words {
    let [[at_1, length_1], [at_2, length_2], [at_3, length_3]] = places;
    match *message {
        Message::Execute { flags, .. } => {
            let flags = flags.into();
            filled([
                EXECUTE, flags, at_1, length_1, at_2, length_2, at_3, length_3,
            ])
        }
        Message::ApplicationIdResponse { window_id, .. } => {
            filled([APPLICATION_ID_RESPONSE, window_id.0, at_1, length_1])
        }
        Message::ExecuteResult {
            flags,
            exec_result,
            raw_result,
            ..
        } => {
            let [flags, result] = [flags, exec_result].map(u32::from);
            filled([EXECUTE_RESULT, flags, result, raw_result, at_1, length_1])
        }
        _ => unreachable!("a message with strings"),
    }
}

/// A signed field of 2 bytes, sign-extended to 4.
fn word(field: i16) -> u32 {
    i32::from(field) as u32
}

/// The numbers given, then zeros.
pub(super) fn filled<const N: usize>(numbers: [u32; N]) -> Words {
    let mut words = [0; 12];
    words[..N].copy_from_slice(&numbers);
    words
}

#[cfg(test)]
mod tests {
    use super::*;

    #[test]
    fn positions_are_signed() {
        let message = Message::SystemMenu {
            window_id: WindowId(0x0001_0058),
            left: -92,
            top: i16::MAX,
        };
        let (words, strings) = words_of(&message).unwrap();
        assert_eq!(words[..5], [0x0C, 0x0001_0058, 0xFFFF_FFA4, 0x7FFF, 0]);
        assert!(strings.is_empty());
        assert_eq!(message_of(&words, &[]), message);
    }

    #[test]
    fn strings_stand_one_after_the_other() {
        let message = Message::Execute {
            flags: 4,
            exe_or_file: b"a\0b\0",
            working_dir: b"",
            arguments: b"c\0",
        };
        let (words, strings) = words_of(&message).unwrap();
        assert_eq!(words, [1, 4, 0, 4, 4, 0, 4, 2, 0, 0, 0, 0]);
        assert_eq!(&strings[..], b"a\0b\0c\0");
        assert_eq!(message_of(&words, &strings), message);
    }

    #[test]
    fn a_single_string_is_not_copied() {
        let string = [7; 23];
        let message = Message::ExecuteResult {
            flags: 1,
            exec_result: 3,
            raw_result: 9,
            exe_or_file: &string,
        };
        let (words, strings) = words_of(&message).unwrap();
        assert_eq!(words[..6], [0x80, 1, 3, 9, 0, 23]);
        assert!(matches!(strings, Cow::Borrowed(_)));
        assert_eq!(message_of(&words, &strings), message);
    }

    #[test]
    fn a_string_that_no_length_tells() {
        let string = vec![0; STRING_LIMIT + 1];
        let message = Message::ApplicationIdResponse {
            window_id: WindowId(1),
            application_id: &string,
        };
        assert_eq!(words_of(&message), Err(Refusal::OutsideSet));
    }
}
