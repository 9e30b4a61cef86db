//! Control messages (PDUs): reading and writing.

mod setting;
#[cfg(test)]
mod tests;
mod words;

use alloc::vec::Vec;

use crate::answer::Refusal;
use crate::ids::{NotifyIconId, WindowId};
use crate::profile::Profile;
pub use setting::Setting;
pub(crate) use words::{message_of, words_of};

/// The most bytes of a message that can be written or read.
pub const MESSAGE_LIMIT: usize = 12 + 520 + 520 + 16_000;

/// One control message. Strings are UTF-16 bytes, those of a message that was read
/// parts of its bytes; [`text_lossy`](crate::text_lossy) and
/// [`utf16_bytes`](crate::utf16_bytes) go to and fro.
///
/// ```
/// use rail::{Message, Refusal};
///
/// let bytes = [5, 0, 8, 0, 0xB1, 0x1D, 0, 0];
/// let message = Message::read(&bytes)?;
/// assert_eq!(message, Message::Handshake { build_number: 7601 });
/// assert_eq!(message.to_vec()?, bytes);
///
/// assert_eq!(Message::read(&bytes[..7]), Err(Refusal::LengthDiffers));
/// # Ok::<(), Refusal>(())
/// ```
///
/// A message to be written:
///
/// ```
/// use rail::{utf16_bytes, Message, Refusal};
///
/// let (program, arguments) = (utf16_bytes("||notepad"), utf16_bytes("C:\\readme.txt"));
/// let message = Message::Execute {
///     flags: 0,
///     exe_or_file: &program,
///     working_dir: &[],
///     arguments: &arguments,
/// };
/// let bytes = message.to_vec()?;
/// assert_eq!(Message::read(&bytes)?, message);
/// # Ok::<(), Refusal>(())
/// ```
#[derive(Clone, Copy, Debug, PartialEq, Eq)]
#[non_exhaustive]
pub enum Message<'a> {
    /// 0001, to the server: a program is to be launched.
    Execute {
        /// Up to 001F; 0002 needs 0004.
        flags: u16,
        /// The program or file, 2 to 520 bytes.
        exe_or_file: &'a [u8],
        /// The working directory, up to 520 bytes.
        working_dir: &'a [u8],
        /// The arguments, up to 16,000 bytes.
        arguments: &'a [u8],
    },
    /// 0002, to the server: a window is activated or deactivated.
    Activate {
        /// The window.
        window_id: WindowId,
        /// Whether it is activated.
        enabled: bool,
    },
    /// 0004, to the server: a command of a window's system menu was chosen.
    SystemCommand {
        /// The window.
        window_id: WindowId,
        /// F000, F010, F020, F030, F060, F100, F120 or F160.
        command: u16,
    },
    /// 0005: both ends are ready.
    Handshake {
        /// The sender's build.
        build_number: u32,
    },
    /// 0006, to the server: a notification icon was used.
    NotifyEvent {
        /// The window that owns the icon.
        window_id: WindowId,
        /// The icon.
        notify_icon_id: NotifyIconId,
        /// What was done with it.
        message: u32,
    },
    /// 0008, to the server: a window's new position.
    WindowMove {
        /// The window.
        window_id: WindowId,
        /// The left side.
        left: i16,
        /// The upper side.
        top: i16,
        /// The right side.
        right: i16,
        /// The lower side.
        bottom: i16,
    },
    /// 0009, to the terminal: a local move or resize starts or ends.
    MoveSize {
        /// The window.
        window_id: WindowId,
        /// Whether it starts.
        is_start: bool,
        /// 1 to 11.
        move_size_type: u16,
        /// A position whose meaning depends on the type.
        pos_x: i16,
        /// As `pos_x`.
        pos_y: i16,
    },
    /// 000A, to the terminal: the bounds of a move or resize.
    MinMaxInfo {
        /// The window.
        window_id: WindowId,
        /// The width of the maximized window.
        max_width: u16,
        /// Its height.
        max_height: u16,
        /// Where the maximized window begins.
        max_pos_x: i16,
        /// As `max_pos_x`.
        max_pos_y: i16,
        /// The least width while resizing.
        min_track_width: u16,
        /// The least height.
        min_track_height: u16,
        /// The most width while resizing.
        max_track_width: u16,
        /// The most height.
        max_track_height: u16,
    },
    /// 000B, to the server: what the terminal can do.
    ClientInformation {
        /// Any bits.
        flags: u32,
    },
    /// 000C, to the server: a window's system menu is to be shown.
    SystemMenu {
        /// The window.
        window_id: WindowId,
        /// Where the menu begins.
        left: i16,
        /// As `left`.
        top: i16,
    },
    /// 000E, to the server: a window's application id is asked for.
    GetApplicationId {
        /// The window.
        window_id: WindowId,
    },
    /// 000F, to the terminal: a window's application id.
    ApplicationIdResponse {
        /// The window.
        window_id: WindowId,
        /// All 520 bytes of a message that was read. Of one that is written up to 520,
        /// with zeros after them.
        application_id: &'a [u8],
    },
    /// 0003: a setting of the terminal, to the server; or one of the server.
    SystemParameters {
        /// Which it is, with its data.
        setting: Setting<'a>,
    },
    /// 0013: both ends are ready, with flags.
    HandshakeEx {
        /// The sender's build.
        build_number: u32,
        /// Any bits.
        flags: u32,
    },
    /// 0080, to the terminal: how a launch ended.
    ExecuteResult {
        /// Those of the Execute message.
        flags: u16,
        /// 0 for done; 1, 2, 3, 5, 6 or 7.
        exec_result: u16,
        /// A code of the server's system.
        raw_result: u32,
        /// The program or file of the Execute message, 1 to 520 bytes.
        exe_or_file: &'a [u8],
    },
}

impl<'a> Message<'a> {
    /// Reads a message that is these bytes and no more.
    ///
    /// # Errors
    /// The first of the numbers 2, 3, 4, 7 and 8 that applies.
    pub fn read(bytes: &'a [u8]) -> Result<Self, Refusal> {
        Profile::Plain.read(bytes)
    }

    /// Writes the message into the first bytes of `out` and answers how many they are.
    /// No other byte changes, and none where it is refused.
    ///
    /// # Errors
    /// [`Refusal::OutsideSet`] where a number or the length of a string is not allowed,
    /// then [`Refusal::OutputTooSmall`].
    pub fn write(&self, out: &mut [u8]) -> Result<usize, Refusal> {
        Profile::Plain.write(self, out)
    }

    /// The message's bytes.
    ///
    /// # Errors
    /// [`Refusal::OutsideSet`] as [`write`](Self::write).
    pub fn to_vec(&self) -> Result<Vec<u8>, Refusal> {
        let mut bytes = vec![0; MESSAGE_LIMIT];
        let length = self.write(&mut bytes)?;
        bytes.truncate(length);
        Ok(bytes)
    }
}
