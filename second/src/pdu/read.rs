//! Reading: the bytes of one message into a record.

use super::rules::APPLICATION_ID_SIZE;
use super::setting::{self, Area, Body, Contrast, Form};
use super::{order_type, Record};
use super::{
    Activate, ApplicationIdResponse, ClientInformation, Execute, ExecuteResult, GetApplicationId,
    Handshake, HandshakeEx, MinMaxInfo, MoveSize, NotifyEvent, SystemCommand, SystemMenu,
    SystemParameters, WindowMove,
};
use crate::ids::{NotifyIconId, WindowId};
use crate::number::{LENGTH_DIFFERS, NOT_FILLED, OUTSIDE_SET, TOO_SHORT, UNKNOWN_TYPE};

/// Reads one message. A refusal is 2, 3, 4, 7 or 8, the first that applies.
#[inline]
pub fn read(message: &[u8]) -> Result<Record<'_>, u8> {
    let Some((header, body)) = message.split_first_chunk::<4>() else {
        return Err(TOO_SHORT);
    };
    if usize::from(u16_at(header, 2)) != message.len() {
        return Err(LENGTH_DIFFERS);
    }
    match u16_at(header, 0) {
        order_type::EXECUTE => execute(body),
        order_type::ACTIVATE => activate(body),
        order_type::SYSTEM_COMMAND => system_command(body),
        order_type::HANDSHAKE => handshake(body),
        order_type::NOTIFY_EVENT => notify_event(body),
        order_type::WINDOW_MOVE => window_move(body),
        order_type::MOVE_SIZE => move_size(body),
        order_type::MIN_MAX_INFO => min_max_info(body),
        order_type::CLIENT_INFORMATION => client_information(body),
        order_type::SYSTEM_MENU => system_menu(body),
        order_type::GET_APPLICATION_ID => get_application_id(body),
        order_type::APPLICATION_ID_RESPONSE => application_id_response(body),
        order_type::EXECUTE_RESULT => execute_result(body),
        order_type::SYSTEM_PARAMETERS => system_parameters(body),
        order_type::HANDSHAKE_EX => handshake_ex(body),
        _ => Err(UNKNOWN_TYPE),
    }
}

fn execute(body: &[u8]) -> Result<Record<'_>, u8> {
    let (head, strings) = split::<8>(body)?;
    let program = usize::from(u16_at(head, 2));
    let directory = usize::from(u16_at(head, 4));
    let arguments = usize::from(u16_at(head, 6));
    if program + directory + arguments != strings.len() {
        return Err(NOT_FILLED);
    }
    let (exe_or_file, rest) = strings.split_at(program);
    let (working_dir, arguments) = rest.split_at(directory);
    let record = Execute {
        flags: u16_at(head, 0),
        exe_or_file,
        working_dir,
        arguments,
    };
    granted(record.is_allowed(), Record::Execute(record))
}

fn activate(body: &[u8]) -> Result<Record<'_>, u8> {
    let body = exact::<5>(body)?;
    let record = Activate {
        window_id: window_id(body),
        enabled: body[4],
    };
    granted(record.is_allowed(), Record::Activate(record))
}

fn system_command(body: &[u8]) -> Result<Record<'_>, u8> {
    let body = exact::<6>(body)?;
    let record = SystemCommand {
        window_id: window_id(body),
        command: u16_at(body, 4),
    };
    granted(record.is_allowed(), Record::SystemCommand(record))
}

fn handshake(body: &[u8]) -> Result<Record<'_>, u8> {
    let body = exact::<4>(body)?;
    Ok(Record::Handshake(Handshake {
        build_number: u32_at(body, 0),
    }))
}

fn notify_event(body: &[u8]) -> Result<Record<'_>, u8> {
    let body = exact::<12>(body)?;
    Ok(Record::NotifyEvent(NotifyEvent {
        window_id: window_id(body),
        notify_icon_id: NotifyIconId(u32_at(body, 4)),
        message: u32_at(body, 8),
    }))
}

fn window_move(body: &[u8]) -> Result<Record<'_>, u8> {
    let body = exact::<12>(body)?;
    Ok(Record::WindowMove(WindowMove {
        window_id: window_id(body),
        left: i16_at(body, 4),
        top: i16_at(body, 6),
        right: i16_at(body, 8),
        bottom: i16_at(body, 10),
    }))
}

fn move_size(body: &[u8]) -> Result<Record<'_>, u8> {
    let body = exact::<12>(body)?;
    let record = MoveSize {
        window_id: window_id(body),
        is_move_size_start: u16_at(body, 4) != 0,
        move_size_type: u16_at(body, 6),
        pos_x: i16_at(body, 8),
        pos_y: i16_at(body, 10),
    };
    granted(record.is_allowed(), Record::MoveSize(record))
}

fn min_max_info(body: &[u8]) -> Result<Record<'_>, u8> {
    let body = exact::<20>(body)?;
    Ok(Record::MinMaxInfo(MinMaxInfo {
        window_id: window_id(body),
        max_width: u16_at(body, 4),
        max_height: u16_at(body, 6),
        max_pos_x: i16_at(body, 8),
        max_pos_y: i16_at(body, 10),
        min_track_width: u16_at(body, 12),
        min_track_height: u16_at(body, 14),
        max_track_width: u16_at(body, 16),
        max_track_height: u16_at(body, 18),
    }))
}

fn client_information(body: &[u8]) -> Result<Record<'_>, u8> {
    let body = exact::<4>(body)?;
    Ok(Record::ClientInformation(ClientInformation {
        flags: u32_at(body, 0),
    }))
}

fn system_menu(body: &[u8]) -> Result<Record<'_>, u8> {
    let body = exact::<8>(body)?;
    Ok(Record::SystemMenu(SystemMenu {
        window_id: window_id(body),
        left: i16_at(body, 4),
        top: i16_at(body, 6),
    }))
}

fn get_application_id(body: &[u8]) -> Result<Record<'_>, u8> {
    let body = exact::<4>(body)?;
    Ok(Record::GetApplicationId(GetApplicationId {
        window_id: window_id(body),
    }))
}

fn application_id_response(body: &[u8]) -> Result<Record<'_>, u8> {
    let (head, application_id) = split::<4>(body)?;
    if application_id.len() != APPLICATION_ID_SIZE {
        return Err(NOT_FILLED);
    }
    Ok(Record::ApplicationIdResponse(ApplicationIdResponse {
        window_id: window_id(head),
        application_id,
    }))
}

fn execute_result(body: &[u8]) -> Result<Record<'_>, u8> {
    let (head, exe_or_file) = split::<12>(body)?;
    if usize::from(u16_at(head, 10)) != exe_or_file.len() {
        return Err(NOT_FILLED);
    }
    let record = ExecuteResult {
        flags: u16_at(head, 0),
        exec_result: u16_at(head, 2),
        raw_result: u32_at(head, 4),
        exe_or_file,
    };
    granted(record.is_allowed(), Record::ExecuteResult(record))
}

fn system_parameters(body: &[u8]) -> Result<Record<'_>, u8> {
    let (name, rest) = split::<4>(body)?;
    let setting = u32_at(name, 0);
    let body = match setting::form(setting) {
        Some(Form::Value) => {
            let &[value] = exact::<1>(rest)?;
            Body::Value(value)
        }
        Some(Form::Area) => {
            let area = exact::<8>(rest)?;
            Body::Area(Area {
                left: u16_at(area, 0),
                top: u16_at(area, 2),
                right: u16_at(area, 4),
                bottom: u16_at(area, 6),
            })
        }
        Some(Form::Contrast) => Body::Contrast(contrast(rest)?),
        None => return Err(OUTSIDE_SET),
    };
    let record = SystemParameters { setting, body };
    granted(record.is_allowed(), Record::SystemParameters(record))
}

/// Flags, the length of all that follows, and a string after its own length.
fn contrast(body: &[u8]) -> Result<Contrast<'_>, u8> {
    let (head, color_scheme) = split::<10>(body)?;
    let outer = u64::from(u32_at(head, 4));
    let inner = u16_at(head, 8);
    if usize::from(inner) != color_scheme.len() || outer != u64::from(inner) + 2 {
        return Err(NOT_FILLED);
    }
    Ok(Contrast {
        flags: u32_at(head, 0),
        color_scheme,
    })
}

fn handshake_ex(body: &[u8]) -> Result<Record<'_>, u8> {
    let body = exact::<8>(body)?;
    Ok(Record::HandshakeEx(HandshakeEx {
        build_number: u32_at(body, 0),
        flags: u32_at(body, 4),
    }))
}

/// The record, or 8 if one of its numbers is outside its set.
#[inline]
fn granted(allowed: bool, record: Record<'_>) -> Result<Record<'_>, u8> {
    if allowed {
        Ok(record)
    } else {
        Err(OUTSIDE_SET)
    }
}

/// The whole body of a kind of fixed size.
#[inline]
fn exact<const N: usize>(body: &[u8]) -> Result<&[u8; N], u8> {
    body.try_into().map_err(|_| NOT_FILLED)
}

/// The fixed part of a body, and what follows it.
#[inline]
fn split<const N: usize>(body: &[u8]) -> Result<(&[u8; N], &[u8]), u8> {
    body.split_first_chunk().ok_or(NOT_FILLED)
}

/// The window id with which most bodies begin.
#[inline]
fn window_id<const N: usize>(body: &[u8; N]) -> WindowId {
    WindowId(u32_at(body, 0))
}

#[inline(always)]
fn u16_at<const N: usize>(bytes: &[u8; N], at: usize) -> u16 {
    u16::from_le_bytes([bytes[at], bytes[at + 1]])
}

/// A position: two's complement.
#[inline(always)]
fn i16_at<const N: usize>(bytes: &[u8; N], at: usize) -> i16 {
    i16::from_le_bytes([bytes[at], bytes[at + 1]])
}

#[inline(always)]
fn u32_at<const N: usize>(bytes: &[u8; N], at: usize) -> u32 {
    u32::from_le_bytes([bytes[at], bytes[at + 1], bytes[at + 2], bytes[at + 3]])
}
