//! Writing: a record into the first bytes of the output memory.

use super::rules::{self, APPLICATION_ID_SIZE};
use super::setting::{Area, Body, Contrast};
use super::{order_type, Record};
use super::{
    Activate, ApplicationIdResponse, Execute, ExecuteResult, HandshakeEx, MinMaxInfo, MoveSize,
    NotifyEvent, SystemCommand, SystemMenu, SystemParameters, WindowMove,
};
use crate::number::{OUTPUT_TOO_SMALL, OUTSIDE_SET};

/// Writes one message and answers its length n. Only the first n bytes change.
/// A refusal is 8, then 14, and leaves the output memory untouched.
#[inline]
pub fn write(record: &Record<'_>, out: &mut [u8]) -> Result<usize, u8> {
    match record {
        Record::Execute(r) => execute(r, out),
        Record::Activate(r) => activate(r, out),
        Record::SystemCommand(r) => system_command(r, out),
        Record::Handshake(r) => one_number(order_type::HANDSHAKE, r.build_number, out),
        Record::NotifyEvent(r) => notify_event(r, out),
        Record::WindowMove(r) => window_move(r, out),
        Record::MoveSize(r) => move_size(r, out),
        Record::MinMaxInfo(r) => min_max_info(r, out),
        Record::ClientInformation(r) => one_number(order_type::CLIENT_INFORMATION, r.flags, out),
        Record::SystemMenu(r) => system_menu(r, out),
        Record::GetApplicationId(r) => {
            one_number(order_type::GET_APPLICATION_ID, r.window_id.0, out)
        }
        Record::ApplicationIdResponse(r) => application_id_response(r, out),
        Record::ExecuteResult(r) => execute_result(r, out),
        Record::SystemParameters(r) => system_parameters(r, out),
        Record::HandshakeEx(r) => handshake_ex(r, out),
    }
}

fn execute(r: &Execute<'_>, out: &mut [u8]) -> Result<usize, u8> {
    allowed(r.is_allowed())?;
    let program = r.exe_or_file.len();
    let directory = r.working_dir.len();
    let arguments = r.arguments.len();
    let (head, strings) = frame::<12>(order_type::EXECUTE, program + directory + arguments, out)?;
    put_u16(head, 4, r.flags);
    put_u16(head, 6, program as u16);
    put_u16(head, 8, directory as u16);
    put_u16(head, 10, arguments as u16);
    let (to_program, rest) = strings.split_at_mut(program);
    let (to_directory, to_arguments) = rest.split_at_mut(directory);
    to_program.copy_from_slice(r.exe_or_file);
    to_directory.copy_from_slice(r.working_dir);
    to_arguments.copy_from_slice(r.arguments);
    Ok(12 + program + directory + arguments)
}

fn activate(r: &Activate, out: &mut [u8]) -> Result<usize, u8> {
    allowed(r.is_allowed())?;
    let message = fixed::<9>(order_type::ACTIVATE, out)?;
    put_u32(message, 4, r.window_id.0);
    message[8] = r.enabled;
    Ok(9)
}

fn system_command(r: &SystemCommand, out: &mut [u8]) -> Result<usize, u8> {
    allowed(r.is_allowed())?;
    let message = fixed::<10>(order_type::SYSTEM_COMMAND, out)?;
    put_u32(message, 4, r.window_id.0);
    put_u16(message, 8, r.command);
    Ok(10)
}

/// The kinds whose body is a single number of 4 bytes.
fn one_number(kind: u16, number: u32, out: &mut [u8]) -> Result<usize, u8> {
    let message = fixed::<8>(kind, out)?;
    put_u32(message, 4, number);
    Ok(8)
}

fn notify_event(r: &NotifyEvent, out: &mut [u8]) -> Result<usize, u8> {
    let message = fixed::<16>(order_type::NOTIFY_EVENT, out)?;
    put_u32(message, 4, r.window_id.0);
    put_u32(message, 8, r.notify_icon_id.0);
    put_u32(message, 12, r.message);
    Ok(16)
}

fn window_move(r: &WindowMove, out: &mut [u8]) -> Result<usize, u8> {
    let message = fixed::<16>(order_type::WINDOW_MOVE, out)?;
    put_u32(message, 4, r.window_id.0);
    put_i16(message, 8, r.left);
    put_i16(message, 10, r.top);
    put_i16(message, 12, r.right);
    put_i16(message, 14, r.bottom);
    Ok(16)
}

fn move_size(r: &MoveSize, out: &mut [u8]) -> Result<usize, u8> {
    allowed(r.is_allowed())?;
    let message = fixed::<16>(order_type::MOVE_SIZE, out)?;
    put_u32(message, 4, r.window_id.0);
    put_u16(message, 8, u16::from(r.is_move_size_start));
    put_u16(message, 10, r.move_size_type);
    put_i16(message, 12, r.pos_x);
    put_i16(message, 14, r.pos_y);
    Ok(16)
}

fn min_max_info(r: &MinMaxInfo, out: &mut [u8]) -> Result<usize, u8> {
    let message = fixed::<24>(order_type::MIN_MAX_INFO, out)?;
    put_u32(message, 4, r.window_id.0);
    put_u16(message, 8, r.max_width);
    put_u16(message, 10, r.max_height);
    put_i16(message, 12, r.max_pos_x);
    put_i16(message, 14, r.max_pos_y);
    put_u16(message, 16, r.min_track_width);
    put_u16(message, 18, r.min_track_height);
    put_u16(message, 20, r.max_track_width);
    put_u16(message, 22, r.max_track_height);
    Ok(24)
}

fn system_menu(r: &SystemMenu, out: &mut [u8]) -> Result<usize, u8> {
    let message = fixed::<12>(order_type::SYSTEM_MENU, out)?;
    put_u32(message, 4, r.window_id.0);
    put_i16(message, 8, r.left);
    put_i16(message, 10, r.top);
    Ok(12)
}

fn application_id_response(r: &ApplicationIdResponse<'_>, out: &mut [u8]) -> Result<usize, u8> {
    let length = r.application_id.len();
    allowed(rules::application_id_length(length))?;
    let (head, string) = frame::<8>(
        order_type::APPLICATION_ID_RESPONSE,
        APPLICATION_ID_SIZE,
        out,
    )?;
    put_u32(head, 4, r.window_id.0);
    let (id, zeros) = string.split_at_mut(length);
    id.copy_from_slice(r.application_id);
    zeros.fill(0);
    Ok(8 + APPLICATION_ID_SIZE)
}

fn execute_result(r: &ExecuteResult<'_>, out: &mut [u8]) -> Result<usize, u8> {
    allowed(r.is_allowed())?;
    let length = r.exe_or_file.len();
    let (head, string) = frame::<16>(order_type::EXECUTE_RESULT, length, out)?;
    put_u16(head, 4, r.flags);
    put_u16(head, 6, r.exec_result);
    put_u32(head, 8, r.raw_result);
    put_u16(head, 12, 0);
    put_u16(head, 14, length as u16);
    string.copy_from_slice(r.exe_or_file);
    Ok(16 + length)
}

fn system_parameters(r: &SystemParameters<'_>, out: &mut [u8]) -> Result<usize, u8> {
    allowed(r.is_allowed())?;
    match &r.body {
        Body::Value(value) => {
            let message = fixed::<9>(order_type::SYSTEM_PARAMETERS, out)?;
            put_u32(message, 4, r.setting);
            message[8] = *value;
            Ok(9)
        }
        Body::Area(area) => area_setting(r.setting, area, out),
        Body::Contrast(contrast) => contrast_setting(r.setting, contrast, out),
    }
}

fn area_setting(setting: u32, area: &Area, out: &mut [u8]) -> Result<usize, u8> {
    let message = fixed::<16>(order_type::SYSTEM_PARAMETERS, out)?;
    put_u32(message, 4, setting);
    put_u16(message, 8, area.left);
    put_u16(message, 10, area.top);
    put_u16(message, 12, area.right);
    put_u16(message, 14, area.bottom);
    Ok(16)
}

fn contrast_setting(setting: u32, r: &Contrast<'_>, out: &mut [u8]) -> Result<usize, u8> {
    let length = r.color_scheme.len();
    let (head, string) = frame::<18>(order_type::SYSTEM_PARAMETERS, length, out)?;
    put_u32(head, 4, setting);
    put_u32(head, 8, r.flags);
    put_u32(head, 12, length as u32 + 2);
    put_u16(head, 16, length as u16);
    string.copy_from_slice(r.color_scheme);
    Ok(18 + length)
}

fn handshake_ex(r: &HandshakeEx, out: &mut [u8]) -> Result<usize, u8> {
    let message = fixed::<12>(order_type::HANDSHAKE_EX, out)?;
    put_u32(message, 4, r.build_number);
    put_u32(message, 8, r.flags);
    Ok(12)
}

#[inline]
fn allowed(allowed: bool) -> Result<(), u8> {
    if allowed {
        Ok(())
    } else {
        Err(OUTSIDE_SET)
    }
}

/// The bytes of a message of N bytes, its header written.
#[inline]
fn fixed<const N: usize>(kind: u16, out: &mut [u8]) -> Result<&mut [u8; N], u8> {
    let message = out.first_chunk_mut::<N>().ok_or(OUTPUT_TOO_SMALL)?;
    put_u16(message, 0, kind);
    put_u16(message, 2, N as u16);
    Ok(message)
}

/// The fixed part of a message, its header written, and the `rest` bytes after
/// it. The rules keep the whole far below 65,536.
#[inline]
fn frame<const N: usize>(
    kind: u16,
    rest: usize,
    out: &mut [u8],
) -> Result<(&mut [u8; N], &mut [u8]), u8> {
    let (head, strings) = out
        .get_mut(..N + rest)
        .and_then(|message| message.split_first_chunk_mut::<N>())
        .ok_or(OUTPUT_TOO_SMALL)?;
    put_u16(head, 0, kind);
    put_u16(head, 2, (N + rest) as u16);
    Ok((head, strings))
}

#[inline(always)]
fn put_u16<const N: usize>(bytes: &mut [u8; N], at: usize, value: u16) {
    bytes[at..at + 2].copy_from_slice(&value.to_le_bytes());
}

#[inline(always)]
fn put_i16<const N: usize>(bytes: &mut [u8; N], at: usize, value: i16) {
    bytes[at..at + 2].copy_from_slice(&value.to_le_bytes());
}

#[inline(always)]
fn put_u32<const N: usize>(bytes: &mut [u8; N], at: usize, value: u32) {
    bytes[at..at + 4].copy_from_slice(&value.to_le_bytes());
}
