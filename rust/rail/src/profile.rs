//! By which rules messages are read and written.

use crate::answer::{refused, written_answer, Refusal};
use crate::ffi;
use crate::message::{message_of, words_of, Message};

/// By which rules messages are read and written: the plain ones, or those of a registry
/// counter, which may start published programs only.
///
/// ```
/// use rail::{utf16_bytes, Message, Profile, Refusal};
///
/// let name = utf16_bytes("||accounts");
/// let start = Message::Execute {
///     flags: 0,
///     exe_or_file: &name,
///     working_dir: &[],
///     arguments: &[],
/// };
/// let mut out = [0; 64];
/// assert_eq!(Profile::Counter.write(&start, &mut out)?, 32);
///
/// // It is the plain message, which the counter does not take from a server.
/// assert_eq!(Message::read(&out[..32])?, start);
/// assert_eq!(Profile::Counter.read(&out[..32]), Err(Refusal::WrongEnd));
/// # Ok::<(), Refusal>(())
/// ```
#[derive(Clone, Copy, Debug, PartialEq, Eq, Hash)]
#[non_exhaustive]
pub enum Profile {
    /// Every kind in both directions, and every program: [`Message::read`] and
    /// [`Message::write`].
    Plain,
    /// Reads what a server sends: both handshakes, Move/Size, Min Max Info, Application ID
    /// Response, Execute Result, and the settings of the screen saver. Writes Handshake and
    /// the rest but those, so not HandshakeEx: a server that opens with it is answered with
    /// Handshake. An Execute has none of the flags 0002, 0004 and 0010, and its program name
    /// begins with `||` and is longer than that.
    Counter,
}

impl Profile {
    /// Reads a message that is these bytes and no more.
    ///
    /// # Errors
    /// As [`Message::read`]; in the counter profile then [`Refusal::WrongEnd`].
    pub fn read(self, bytes: &[u8]) -> Result<Message<'_>, Refusal> {
        let mut words = [0; 12];
        let number = match self {
            Profile::Plain => ffi::pdu_read(bytes, &mut words),
            Profile::Counter => ffi::counter_read(bytes, &mut words),
        };
        refused(u8::try_from(number).expect("the library answers listed numbers only"))?;
        Ok(message_of(&words, bytes))
    }

    /// Writes the message into the first bytes of `out` and answers how many they are.
    /// No other byte changes, and none where it is refused.
    ///
    /// # Errors
    /// As [`Message::write`]; in the counter profile then [`Refusal::WrongEnd`], then
    /// [`Refusal::NotPermitted`].
    pub fn write(self, message: &Message<'_>, out: &mut [u8]) -> Result<usize, Refusal> {
        let (words, strings) = words_of(message)?;
        written_answer(match self {
            Profile::Plain => ffi::pdu_write(&words, &strings, out),
            Profile::Counter => ffi::counter_write(&words, &strings, out),
        })
    }
}
