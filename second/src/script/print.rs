//! How answers are printed.

use crate::pdu::setting::Body;
use crate::pdu::{order_type, Record, SystemParameters};

/// Adds lowercase hex with no separators.
pub fn push_hex(line: &mut Vec<u8>, bytes: &[u8]) {
    const DIGITS: &[u8; 16] = b"0123456789abcdef";
    line.reserve(bytes.len() * 2);
    for byte in bytes {
        line.push(DIGITS[usize::from(byte >> 4)]);
        line.push(DIGITS[usize::from(byte & 15)]);
    }
}

/// Adds `type=` and then each field as ` name=value`.
pub fn push_record(line: &mut Vec<u8>, record: &Record<'_>) {
    let mut fields = Fields { line };
    match record {
        Record::Execute(r) => fields
            .kind(order_type::EXECUTE)
            .number("flags", r.flags)
            .string("program", r.exe_or_file)
            .string("directory", r.working_dir)
            .string("arguments", r.arguments),
        Record::Activate(r) => fields
            .kind(order_type::ACTIVATE)
            .number("window", r.window_id.0)
            .number("enabled", r.enabled),
        Record::SystemCommand(r) => fields
            .kind(order_type::SYSTEM_COMMAND)
            .number("window", r.window_id.0)
            .number("command", r.command),
        Record::Handshake(r) => fields
            .kind(order_type::HANDSHAKE)
            .number("build", r.build_number),
        Record::NotifyEvent(r) => fields
            .kind(order_type::NOTIFY_EVENT)
            .number("window", r.window_id.0)
            .number("icon", r.notify_icon_id.0)
            .number("message", r.message),
        Record::WindowMove(r) => fields
            .kind(order_type::WINDOW_MOVE)
            .number("window", r.window_id.0)
            .position("left", r.left)
            .position("top", r.top)
            .position("right", r.right)
            .position("bottom", r.bottom),
        Record::MoveSize(r) => fields
            .kind(order_type::MOVE_SIZE)
            .number("window", r.window_id.0)
            .number("start", r.is_move_size_start)
            .number("move_type", r.move_size_type)
            .position("x", r.pos_x)
            .position("y", r.pos_y),
        Record::MinMaxInfo(r) => fields
            .kind(order_type::MIN_MAX_INFO)
            .number("window", r.window_id.0)
            .number("max_width", r.max_width)
            .number("max_height", r.max_height)
            .position("max_x", r.max_pos_x)
            .position("max_y", r.max_pos_y)
            .number("min_track_width", r.min_track_width)
            .number("min_track_height", r.min_track_height)
            .number("max_track_width", r.max_track_width)
            .number("max_track_height", r.max_track_height),
        Record::ClientInformation(r) => fields
            .kind(order_type::CLIENT_INFORMATION)
            .number("flags", r.flags),
        Record::SystemMenu(r) => fields
            .kind(order_type::SYSTEM_MENU)
            .number("window", r.window_id.0)
            .position("left", r.left)
            .position("top", r.top),
        Record::GetApplicationId(r) => fields
            .kind(order_type::GET_APPLICATION_ID)
            .number("window", r.window_id.0),
        Record::ApplicationIdResponse(r) => fields
            .kind(order_type::APPLICATION_ID_RESPONSE)
            .number("window", r.window_id.0)
            .string("string", r.application_id),
        Record::ExecuteResult(r) => fields
            .kind(order_type::EXECUTE_RESULT)
            .number("flags", r.flags)
            .number("result", r.exec_result)
            .number("raw", r.raw_result)
            .string("string", r.exe_or_file),
        Record::SystemParameters(r) => fields.setting(r),
        Record::HandshakeEx(r) => fields
            .kind(order_type::HANDSHAKE_EX)
            .number("build", r.build_number)
            .number("flags", r.flags),
    };
}

/// A line that grows field by field.
pub(super) struct Fields<'a> {
    pub(super) line: &'a mut Vec<u8>,
}

impl Fields<'_> {
    fn kind(&mut self, kind: u16) -> &mut Self {
        self.line.extend_from_slice(b"type=");
        push_hex(self.line, &kind.to_be_bytes());
        self
    }

    fn setting(&mut self, r: &SystemParameters<'_>) -> &mut Self {
        self.kind(order_type::SYSTEM_PARAMETERS)
            .text("setting", &format!("{:08x}", r.setting));
        match r.body {
            Body::Value(value) => self.number("value", value),
            Body::Area(area) => self
                .number("left", area.left)
                .number("top", area.top)
                .number("right", area.right)
                .number("bottom", area.bottom),
            Body::Contrast(contrast) => self
                .number("flags", contrast.flags)
                .string("string", contrast.color_scheme),
        }
    }

    pub(super) fn number(&mut self, name: &str, value: impl Into<u32>) -> &mut Self {
        self.text(name, &value.into().to_string())
    }

    fn position(&mut self, name: &str, value: i16) -> &mut Self {
        self.text(name, &value.to_string())
    }

    pub(super) fn string(&mut self, name: &str, bytes: &[u8]) -> &mut Self {
        self.name(name);
        push_hex(self.line, bytes);
        self
    }

    pub(super) fn text(&mut self, name: &str, text: &str) -> &mut Self {
        self.name(name);
        self.line.extend_from_slice(text.as_bytes());
        self
    }

    fn name(&mut self, name: &str) {
        self.line.push(b' ');
        self.line.extend_from_slice(name.as_bytes());
        self.line.push(b'=');
    }
}
