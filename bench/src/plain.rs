//! The plain side: the jobs of the proved library's entry points, with the same
//! shapes, over `second`.

use std::slice;

use second::ids::{NotifyIconId, WindowId};
use second::number::OUTSIDE_SET;
use second::pdu::setting::{self, Area, Body, Contrast, Form};
use second::pdu::{self, order_type, Record};
use second::pdu::{
    Activate, ApplicationIdResponse, ClientInformation, Execute, ExecuteResult, GetApplicationId,
    Handshake, HandshakeEx, MinMaxInfo, MoveSize, NotifyEvent, SystemCommand, SystemMenu,
    SystemParameters, WindowMove,
};

use crate::call::Words;

/// As `rail_pdu_read`.
///
/// # Safety
/// `message` has `length` bytes and `words` has 12 words.
#[no_mangle]
#[inline(never)]
pub unsafe extern "C" fn plain_pdu_read(message: *const u8, length: usize, words: *mut u32) -> u32 {
    let message = slice::from_raw_parts(message, length);
    let words = &mut *words.cast::<Words>();
    match pdu::read(message) {
        Ok(record) => {
            *words = words_of(&record, message);
            0
        }
        Err(number) => u32::from(number),
    }
}

/// As `rail_pdu_write`.
///
/// # Safety
/// `words` has 12 words, `strings` has `strings_length` bytes, `out` has
/// `out_length`, and it is apart from both.
#[no_mangle]
#[inline(never)]
pub unsafe extern "C" fn plain_pdu_write(
    words: *const u32,
    strings: *const u8,
    strings_length: usize,
    out: *mut u8,
    out_length: usize,
) -> u32 {
    let words = &*words.cast::<Words>();
    let strings = slice::from_raw_parts(strings, strings_length);
    let out = slice::from_raw_parts_mut(out, out_length);
    let Some(record) = record_of(words, strings) else {
        return OUTSIDE_SET.into();
    };
    match pdu::write(&record, out) {
        Ok(written) => (written as u32) << 16,
        Err(number) => number.into(),
    }
}

/// A position as a word: sign-extended.
fn extended(position: i16) -> u32 {
    i32::from(position) as u32
}

/// The record that words stand for: none where the type is unknown, a word does
/// not fit its field or is not 0 after the last, or a string is not in `strings`.
#[inline]
fn record_of<'a>(words: &Words, strings: &'a [u8]) -> Option<Record<'a>> {
    let half = |i: usize| u16::try_from(words[i]).ok();
    let position = |i: usize| i16::try_from(words[i] as i32).ok();
    let window_id = WindowId(words[1]);
    let string = |i: usize| {
        let from = strings.get(words[i] as usize..)?;
        from.get(..words[i + 1] as usize)
    };
    let ends = |n: usize| words[n..].iter().all(|&word| word == 0).then_some(());
    Some(match u16::try_from(words[0]).ok()? {
        order_type::EXECUTE => {
            ends(8)?;
            Record::Execute(Execute {
                flags: half(1)?,
                exe_or_file: string(2)?,
                working_dir: string(4)?,
                arguments: string(6)?,
            })
        }
        order_type::ACTIVATE => {
            ends(3)?;
            Record::Activate(Activate {
                window_id,
                enabled: u8::try_from(words[2]).ok()?,
            })
        }
        order_type::SYSTEM_COMMAND => {
            ends(3)?;
            Record::SystemCommand(SystemCommand {
                window_id,
                command: half(2)?,
            })
        }
        order_type::HANDSHAKE => {
            ends(2)?;
            Record::Handshake(Handshake {
                build_number: words[1],
            })
        }
        order_type::NOTIFY_EVENT => {
            ends(4)?;
            Record::NotifyEvent(NotifyEvent {
                window_id,
                notify_icon_id: NotifyIconId(words[2]),
                message: words[3],
            })
        }
        order_type::WINDOW_MOVE => {
            ends(6)?;
            Record::WindowMove(WindowMove {
                window_id,
                left: position(2)?,
                top: position(3)?,
                right: position(4)?,
                bottom: position(5)?,
            })
        }
        order_type::MOVE_SIZE => {
            ends(6)?;
            Record::MoveSize(MoveSize {
                window_id,
                is_move_size_start: match words[2] {
                    0 => false,
                    1 => true,
                    _ => return None,
                },
                move_size_type: half(3)?,
                pos_x: position(4)?,
                pos_y: position(5)?,
            })
        }
        order_type::MIN_MAX_INFO => {
            ends(10)?;
            Record::MinMaxInfo(MinMaxInfo {
                window_id,
                max_width: half(2)?,
                max_height: half(3)?,
                max_pos_x: position(4)?,
                max_pos_y: position(5)?,
                min_track_width: half(6)?,
                min_track_height: half(7)?,
                max_track_width: half(8)?,
                max_track_height: half(9)?,
            })
        }
        order_type::CLIENT_INFORMATION => {
            ends(2)?;
            Record::ClientInformation(ClientInformation { flags: words[1] })
        }
        order_type::SYSTEM_MENU => {
            ends(4)?;
            Record::SystemMenu(SystemMenu {
                window_id,
                left: position(2)?,
                top: position(3)?,
            })
        }
        order_type::GET_APPLICATION_ID => {
            ends(2)?;
            Record::GetApplicationId(GetApplicationId { window_id })
        }
        order_type::APPLICATION_ID_RESPONSE => {
            ends(4)?;
            Record::ApplicationIdResponse(ApplicationIdResponse {
                window_id,
                application_id: string(2)?,
            })
        }
        order_type::EXECUTE_RESULT => {
            ends(6)?;
            Record::ExecuteResult(ExecuteResult {
                flags: half(1)?,
                exec_result: half(2)?,
                raw_result: words[3],
                exe_or_file: string(4)?,
            })
        }
        order_type::SYSTEM_PARAMETERS => {
            let setting = words[1];
            let body = match setting::form(setting)? {
                Form::Value => {
                    ends(3)?;
                    Body::Value(u8::try_from(words[2]).ok()?)
                }
                Form::Area => {
                    ends(6)?;
                    Body::Area(Area {
                        left: half(2)?,
                        top: half(3)?,
                        right: half(4)?,
                        bottom: half(5)?,
                    })
                }
                Form::Contrast => {
                    ends(5)?;
                    Body::Contrast(Contrast {
                        flags: words[2],
                        color_scheme: string(3)?,
                    })
                }
            };
            Record::SystemParameters(SystemParameters { setting, body })
        }
        order_type::HANDSHAKE_EX => {
            ends(3)?;
            Record::HandshakeEx(HandshakeEx {
                build_number: words[1],
                flags: words[2],
            })
        }
        _ => return None,
    })
}

/// The type, then the fields in carried order, then zeros.
#[inline]
fn words_of(record: &Record<'_>, message: &[u8]) -> Words {
    let at = |string: &[u8]| (string.as_ptr() as usize - message.as_ptr() as usize) as u32;
    let length = |string: &[u8]| string.len() as u32;
    match record {
        Record::Execute(r) => filled([
            order_type::EXECUTE.into(),
            r.flags.into(),
            at(r.exe_or_file),
            length(r.exe_or_file),
            at(r.working_dir),
            length(r.working_dir),
            at(r.arguments),
            length(r.arguments),
        ]),
        Record::Activate(r) => {
            filled([order_type::ACTIVATE.into(), r.window_id.0, r.enabled.into()])
        }
        Record::SystemCommand(r) => filled([
            order_type::SYSTEM_COMMAND.into(),
            r.window_id.0,
            r.command.into(),
        ]),
        Record::Handshake(r) => filled([order_type::HANDSHAKE.into(), r.build_number]),
        Record::NotifyEvent(r) => filled([
            order_type::NOTIFY_EVENT.into(),
            r.window_id.0,
            r.notify_icon_id.0,
            r.message,
        ]),
        Record::WindowMove(r) => filled([
            order_type::WINDOW_MOVE.into(),
            r.window_id.0,
            extended(r.left),
            extended(r.top),
            extended(r.right),
            extended(r.bottom),
        ]),
        Record::MoveSize(r) => filled([
            order_type::MOVE_SIZE.into(),
            r.window_id.0,
            r.is_move_size_start.into(),
            r.move_size_type.into(),
            extended(r.pos_x),
            extended(r.pos_y),
        ]),
        Record::MinMaxInfo(r) => filled([
            order_type::MIN_MAX_INFO.into(),
            r.window_id.0,
            r.max_width.into(),
            r.max_height.into(),
            extended(r.max_pos_x),
            extended(r.max_pos_y),
            r.min_track_width.into(),
            r.min_track_height.into(),
            r.max_track_width.into(),
            r.max_track_height.into(),
        ]),
        Record::ClientInformation(r) => filled([order_type::CLIENT_INFORMATION.into(), r.flags]),
        Record::SystemMenu(r) => filled([
            order_type::SYSTEM_MENU.into(),
            r.window_id.0,
            extended(r.left),
            extended(r.top),
        ]),
        Record::GetApplicationId(r) => {
            filled([order_type::GET_APPLICATION_ID.into(), r.window_id.0])
        }
        Record::ApplicationIdResponse(r) => filled([
            order_type::APPLICATION_ID_RESPONSE.into(),
            r.window_id.0,
            at(r.application_id),
            length(r.application_id),
        ]),
        Record::ExecuteResult(r) => filled([
            order_type::EXECUTE_RESULT.into(),
            r.flags.into(),
            r.exec_result.into(),
            r.raw_result,
            at(r.exe_or_file),
            length(r.exe_or_file),
        ]),
        Record::SystemParameters(r) => {
            let kind = order_type::SYSTEM_PARAMETERS.into();
            match r.body {
                Body::Value(value) => filled([kind, r.setting, value.into()]),
                Body::Area(area) => filled([
                    kind,
                    r.setting,
                    area.left.into(),
                    area.top.into(),
                    area.right.into(),
                    area.bottom.into(),
                ]),
                Body::Contrast(contrast) => filled([
                    kind,
                    r.setting,
                    contrast.flags,
                    at(contrast.color_scheme),
                    length(contrast.color_scheme),
                ]),
            }
        }
        Record::HandshakeEx(r) => {
            filled([order_type::HANDSHAKE_EX.into(), r.build_number, r.flags])
        }
    }
}

/// The numbers given, then zeros.
#[inline(always)]
fn filled<const N: usize>(numbers: [u32; N]) -> Words {
    let mut words = [0; 12];
    words[..N].copy_from_slice(&numbers);
    words
}
