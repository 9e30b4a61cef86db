//! Control messages (PDUs): records, reading and writing.

pub mod chunk;
pub mod counter;
mod read;
pub mod rules;
pub mod setting;
mod write;

pub use read::read;
pub use write::write;

use crate::ids::{NotifyIconId, WindowId};
use setting::Body;

/// The values of orderType, one for each kind of record.
pub mod order_type {
    /// Client Execute.
    pub const EXECUTE: u16 = 0x0001;
    /// Client Activate.
    pub const ACTIVATE: u16 = 0x0002;
    /// Client or Server System Parameters Update.
    pub const SYSTEM_PARAMETERS: u16 = 0x0003;
    /// Client System Command.
    pub const SYSTEM_COMMAND: u16 = 0x0004;
    /// Handshake.
    pub const HANDSHAKE: u16 = 0x0005;
    /// Client Notify Event.
    pub const NOTIFY_EVENT: u16 = 0x0006;
    /// Client Window Move.
    pub const WINDOW_MOVE: u16 = 0x0008;
    /// Server Move/Size Start and End.
    pub const MOVE_SIZE: u16 = 0x0009;
    /// Server Min Max Info.
    pub const MIN_MAX_INFO: u16 = 0x000A;
    /// Client Information.
    pub const CLIENT_INFORMATION: u16 = 0x000B;
    /// Client System Menu.
    pub const SYSTEM_MENU: u16 = 0x000C;
    /// Client Get Application ID.
    pub const GET_APPLICATION_ID: u16 = 0x000E;
    /// Server Get Application ID Response.
    pub const APPLICATION_ID_RESPONSE: u16 = 0x000F;
    /// HandshakeEx.
    pub const HANDSHAKE_EX: u16 = 0x0013;
    /// Server Execute Result.
    pub const EXECUTE_RESULT: u16 = 0x0080;
}

/// One control message. Strings are parts of the bytes it was read from.
#[derive(Clone, Copy, Debug, PartialEq, Eq)]
pub enum Record<'a> {
    /// A program is to be launched.
    Execute(Execute<'a>),
    /// A window is activated or deactivated.
    Activate(Activate),
    /// A window command was chosen.
    SystemCommand(SystemCommand),
    /// Both ends are ready.
    Handshake(Handshake),
    /// A notification icon was used.
    NotifyEvent(NotifyEvent),
    /// A window's new position.
    WindowMove(WindowMove),
    /// A local move or resize starts or ends.
    MoveSize(MoveSize),
    /// The bounds of a move or resize.
    MinMaxInfo(MinMaxInfo),
    /// What the client can do.
    ClientInformation(ClientInformation),
    /// A window's system menu is to be shown.
    SystemMenu(SystemMenu),
    /// A window's application id is asked for.
    GetApplicationId(GetApplicationId),
    /// A window's application id.
    ApplicationIdResponse(ApplicationIdResponse<'a>),
    /// How a launch ended.
    ExecuteResult(ExecuteResult<'a>),
    /// A setting of one end, for the other.
    SystemParameters(SystemParameters<'a>),
    /// Both ends are ready, with flags.
    HandshakeEx(HandshakeEx),
}

/// Client Execute (0001).
#[derive(Clone, Copy, Debug, PartialEq, Eq)]
#[allow(missing_docs)]
pub struct Execute<'a> {
    pub flags: u16,
    pub exe_or_file: &'a [u8],
    pub working_dir: &'a [u8],
    pub arguments: &'a [u8],
}

/// Client Activate (0002).
#[derive(Clone, Copy, Debug, PartialEq, Eq)]
#[allow(missing_docs)]
pub struct Activate {
    pub window_id: WindowId,
    pub enabled: u8,
}

/// Client or Server System Parameters Update (0003). Which of the two it is, the
/// setting tells.
#[derive(Clone, Copy, Debug, PartialEq, Eq)]
#[allow(missing_docs)]
pub struct SystemParameters<'a> {
    pub setting: u32,
    pub body: Body<'a>,
}

/// HandshakeEx (0013).
#[derive(Clone, Copy, Debug, PartialEq, Eq)]
#[allow(missing_docs)]
pub struct HandshakeEx {
    pub build_number: u32,
    pub flags: u32,
}

/// Client System Command (0004).
#[derive(Clone, Copy, Debug, PartialEq, Eq)]
#[allow(missing_docs)]
pub struct SystemCommand {
    pub window_id: WindowId,
    pub command: u16,
}

/// Handshake (0005).
#[derive(Clone, Copy, Debug, PartialEq, Eq)]
#[allow(missing_docs)]
pub struct Handshake {
    pub build_number: u32,
}

/// Client Notify Event (0006).
#[derive(Clone, Copy, Debug, PartialEq, Eq)]
#[allow(missing_docs)]
pub struct NotifyEvent {
    pub window_id: WindowId,
    pub notify_icon_id: NotifyIconId,
    pub message: u32,
}

/// Client Window Move (0008).
#[derive(Clone, Copy, Debug, PartialEq, Eq)]
#[allow(missing_docs)]
pub struct WindowMove {
    pub window_id: WindowId,
    pub left: i16,
    pub top: i16,
    pub right: i16,
    pub bottom: i16,
}

/// Server Move/Size Start or End (0009).
#[derive(Clone, Copy, Debug, PartialEq, Eq)]
#[allow(missing_docs)]
pub struct MoveSize {
    pub window_id: WindowId,
    pub is_move_size_start: bool,
    pub move_size_type: u16,
    pub pos_x: i16,
    pub pos_y: i16,
}

/// Server Min Max Info (000A).
#[derive(Clone, Copy, Debug, PartialEq, Eq)]
#[allow(missing_docs)]
pub struct MinMaxInfo {
    pub window_id: WindowId,
    pub max_width: u16,
    pub max_height: u16,
    pub max_pos_x: i16,
    pub max_pos_y: i16,
    pub min_track_width: u16,
    pub min_track_height: u16,
    pub max_track_width: u16,
    pub max_track_height: u16,
}

/// Client Information (000B).
#[derive(Clone, Copy, Debug, PartialEq, Eq)]
#[allow(missing_docs)]
pub struct ClientInformation {
    pub flags: u32,
}

/// Client System Menu (000C).
#[derive(Clone, Copy, Debug, PartialEq, Eq)]
#[allow(missing_docs)]
pub struct SystemMenu {
    pub window_id: WindowId,
    pub left: i16,
    pub top: i16,
}

/// Client Get Application ID (000E).
#[derive(Clone, Copy, Debug, PartialEq, Eq)]
#[allow(missing_docs)]
pub struct GetApplicationId {
    pub window_id: WindowId,
}

/// Server Get Application ID Response (000F). Reading hands back all 520 bytes;
/// writing takes up to 520 and fills the rest with zeros.
#[derive(Clone, Copy, Debug, PartialEq, Eq)]
#[allow(missing_docs)]
pub struct ApplicationIdResponse<'a> {
    pub window_id: WindowId,
    pub application_id: &'a [u8],
}

/// Server Execute Result (0080), without its Padding.
#[derive(Clone, Copy, Debug, PartialEq, Eq)]
#[allow(missing_docs)]
pub struct ExecuteResult<'a> {
    pub flags: u16,
    pub exec_result: u16,
    pub raw_result: u32,
    pub exe_or_file: &'a [u8],
}
