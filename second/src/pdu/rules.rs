//! The allowed sets behind number 8. Fields not named here take any number.

use super::setting::{form, Body};
use super::{Activate, Execute, ExecuteResult, MoveSize, SystemCommand, SystemParameters};

/// Bytes that an Application ID Response carries for its id.
pub const APPLICATION_ID_SIZE: usize = 520;

/// Execute: no flag above 0010, and 0002 only beside 0004.
#[inline]
pub fn execute_flags(flags: u16) -> bool {
    flags <= 0x001F && (flags & 0x0002 == 0 || flags & 0x0004 != 0)
}

/// Execute: 1 to 520 bytes and even.
#[inline]
pub fn program_length(length: usize) -> bool {
    (1..=520).contains(&length) && is_even(length)
}

/// Execute: 0 to 520 bytes and even.
#[inline]
pub fn directory_length(length: usize) -> bool {
    length <= 520 && is_even(length)
}

/// Execute: 0 to 16,000 bytes and even.
#[inline]
pub fn arguments_length(length: usize) -> bool {
    length <= 16_000 && is_even(length)
}

/// Execute Result: 0, 1, 2, 3, 5, 6 or 7.
#[inline]
pub fn exec_result(result: u16) -> bool {
    matches!(result, 0..=3 | 5..=7)
}

/// Execute Result: 1 to 520 bytes, odd permitted.
#[inline]
pub fn result_length(length: usize) -> bool {
    (1..=520).contains(&length)
}

/// Activate: 0 or 1.
#[inline]
pub fn enabled(enabled: u8) -> bool {
    enabled <= 1
}

/// Move/Size: 1 to 11.
#[inline]
pub fn move_size_type(kind: u16) -> bool {
    (1..=11).contains(&kind)
}

/// System Command: one of the eight commands.
#[inline]
pub fn command(command: u16) -> bool {
    matches!(
        command,
        0xF000 | 0xF010 | 0xF020 | 0xF030 | 0xF060 | 0xF100 | 0xF120 | 0xF160
    )
}

/// Application ID Response, to be written: up to 520 bytes.
#[inline]
pub fn application_id_length(length: usize) -> bool {
    length <= APPLICATION_ID_SIZE
}

/// High contrast: a color scheme of 0 to 520 bytes, odd permitted.
#[inline]
pub fn color_scheme_length(length: usize) -> bool {
    length <= 520
}

#[inline]
fn is_even(length: usize) -> bool {
    length & 1 == 0
}

impl Execute<'_> {
    #[inline]
    pub(super) fn is_allowed(&self) -> bool {
        execute_flags(self.flags)
            && program_length(self.exe_or_file.len())
            && directory_length(self.working_dir.len())
            && arguments_length(self.arguments.len())
    }
}

impl Activate {
    #[inline]
    pub(super) fn is_allowed(&self) -> bool {
        enabled(self.enabled)
    }
}

impl SystemCommand {
    #[inline]
    pub(super) fn is_allowed(&self) -> bool {
        command(self.command)
    }
}

impl MoveSize {
    #[inline]
    pub(super) fn is_allowed(&self) -> bool {
        move_size_type(self.move_size_type)
    }
}

impl ExecuteResult<'_> {
    #[inline]
    pub(super) fn is_allowed(&self) -> bool {
        exec_result(self.exec_result) && result_length(self.exe_or_file.len())
    }
}

impl SystemParameters<'_> {
    #[inline]
    pub(super) fn is_allowed(&self) -> bool {
        let string = match self.body {
            Body::Contrast(contrast) => contrast.color_scheme.len(),
            Body::Value(_) | Body::Area(_) => 0,
        };
        form(self.setting) == Some(self.body.form()) && color_scheme_length(string)
    }
}
