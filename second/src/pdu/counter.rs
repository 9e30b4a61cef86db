//! The counter profile: reading and writing at a registry counter, which may start
//! published programs only.

use super::setting::{SPI_SETSCREENSAVEACTIVE, SPI_SETSCREENSAVESECURE};
use super::{Execute, Record};
use crate::number::{NOT_PERMITTED, WRONG_END};

/// What the name of a published program begins with.
const PUBLISHED: &[u8] = b"|\0|\0";

/// Flags that an Execute may not have here.
const FORBIDDEN_FLAGS: u16 = 0x0016;

/// The end that sends a message.
#[derive(Clone, Copy, Debug, PartialEq, Eq)]
enum Sender {
    Client,
    Server,
    Either,
}

impl Record<'_> {
    /// HandshakeEx counts as a server's, although a client may answer with it.
    fn sender(&self) -> Sender {
        match self {
            Record::Handshake(_) => Sender::Either,
            Record::HandshakeEx(_)
            | Record::MoveSize(_)
            | Record::MinMaxInfo(_)
            | Record::ApplicationIdResponse(_)
            | Record::ExecuteResult(_) => Sender::Server,
            Record::SystemParameters(update) => match update.setting {
                SPI_SETSCREENSAVEACTIVE | SPI_SETSCREENSAVESECURE => Sender::Server,
                _ => Sender::Client,
            },
            Record::Execute(_)
            | Record::Activate(_)
            | Record::SystemCommand(_)
            | Record::NotifyEvent(_)
            | Record::WindowMove(_)
            | Record::ClientInformation(_)
            | Record::SystemMenu(_)
            | Record::GetApplicationId(_) => Sender::Client,
        }
    }
}

impl Execute<'_> {
    fn is_published(&self) -> bool {
        let rest = self.exe_or_file.strip_prefix(PUBLISHED);
        self.flags & FORBIDDEN_FLAGS == 0 && rest.is_some_and(|rest| !rest.is_empty())
    }
}

/// Reads one message that a server sends. A refusal is that of [`super::read`], then 20.
pub fn read(message: &[u8]) -> Result<Record<'_>, u8> {
    let record = super::read(message)?;
    if record.sender() == Sender::Client {
        return Err(WRONG_END);
    }
    Ok(record)
}

/// Writes one message that a client sends. A refusal is that of [`super::write`], then
/// 20, then 21, and leaves the output memory untouched.
pub fn write(record: &Record<'_>, out: &mut [u8]) -> Result<usize, u8> {
    let mut trial = vec![0; out.len()];
    let length = super::write(record, &mut trial)?;
    match record {
        _ if record.sender() == Sender::Server => return Err(WRONG_END),
        Record::Execute(execute) if !execute.is_published() => return Err(NOT_PERMITTED),
        _ => out[..length].copy_from_slice(&trial[..length]),
    }
    Ok(length)
}
