//! Control messages that arrive in the chunks of a static virtual channel.

use alloc::boxed::Box;
use core::fmt;

use crate::answer::{refused, Refusal};
use crate::ffi::{self, Words};
use crate::message::{message_of, Message};
use crate::profile::Profile;

/// The bytes of memory that an unfinished message is kept in.
pub const CHUNK_SIZE: usize = 17_060;

/// The receiving end of the channel: takes its chunks one by one and hands out the
/// messages. A chunk is the length of the whole message (4 bytes), flags (4; 1 first,
/// 2 last) and a piece of it, as MS-RDPBCGR 2.2.6.1 has it.
///
/// ```
/// use rail::{Channel, Message, Refusal};
///
/// let mut channel = Channel::new();
/// let first = [8, 0, 0, 0, 1, 0, 0, 0, 5, 0, 8, 0];
/// let last = [8, 0, 0, 0, 2, 0, 0, 0, 0xB1, 0x1D, 0, 0];
/// assert_eq!(channel.take(&first)?, None);
/// let message = channel.take(&last)?;
/// assert_eq!(message, Some(Message::Handshake { build_number: 7601 }));
///
/// // Nothing is begun any more.
/// assert_eq!(channel.take(&last), Err(Refusal::BadChunk));
/// # Ok::<(), Refusal>(())
/// ```
pub struct Channel {
    memory: Box<[u8; CHUNK_SIZE]>,
}

impl Channel {
    /// A channel with nothing begun.
    pub fn new() -> Self {
        let mut channel = Self {
            memory: Box::new([0; CHUNK_SIZE]),
        };
        channel.reset();
        channel
    }

    /// Drops what is begun, as after a lost connection.
    pub fn reset(&mut self) {
        let number = ffi::chunk_reset(&mut self.memory[..]);
        assert_eq!(number, 0, "the memory has the measure");
    }

    /// As [`take`](Self::take), with the message read by the rules of this profile.
    ///
    /// # Errors
    /// As [`take`](Self::take); in the counter profile then [`Refusal::WrongEnd`], after
    /// which nothing is begun.
    pub fn take_in(
        &mut self,
        profile: Profile,
        chunk: &[u8],
    ) -> Result<Option<Message<'_>>, Refusal> {
        let Some(length) = self.join(chunk)?.1 else {
            return Ok(None);
        };
        profile.read(&self.memory[..length]).map(Some)
    }

    /// Takes the next chunk: the message where it was the last of one, none where more
    /// is awaited. The message's strings lie in the channel's memory, so that it has to
    /// be done with before the next chunk is taken.
    ///
    /// A first chunk in the middle drops the unfinished message and starts afresh.
    ///
    /// # Errors
    /// [`Refusal::ChunkTooShort`], which leaves what was begun; [`Refusal::BadChunk`],
    /// which drops it; and what [`Message::read`] refuses a whole message with, after
    /// which nothing is begun.
    pub fn take(&mut self, chunk: &[u8]) -> Result<Option<Message<'_>>, Refusal> {
        let (words, length) = self.join(chunk)?;
        Ok(length.map(|length| message_of(&words, &self.memory[..length])))
    }

    /// The words of a whole message and its length, if there is one.
    fn join(&mut self, chunk: &[u8]) -> Result<(Words, Option<usize>), Refusal> {
        let mut words = [0; 12];
        let answer = ffi::chunk(&mut self.memory[..], chunk, &mut words);
        let [number, messages, bytes @ ..] = answer.to_le_bytes();
        refused(number)?;
        let whole = messages != 0;
        Ok((words, whole.then(|| u16::from_le_bytes(bytes).into())))
    }
}

impl Default for Channel {
    fn default() -> Self {
        Self::new()
    }
}

impl fmt::Debug for Channel {
    fn fmt(&self, f: &mut fmt::Formatter<'_>) -> fmt::Result {
        f.debug_struct("Channel").finish_non_exhaustive()
    }
}

#[cfg(test)]
mod tests {
    use super::*;

    #[test]
    fn the_measure() {
        assert_eq!(ffi::size(8), CHUNK_SIZE as u32);
    }

    /// Damaged memory is refused with 1 until it is emptied.
    #[test]
    fn damaged_memory() {
        let whole = [8, 0, 0, 0, 3, 0, 0, 0, 5, 0, 8, 0, 9, 0, 0, 0];
        let mut channel = Channel::new();
        channel.memory[CHUNK_SIZE - 1] = 1;
        let before = channel.memory.clone();
        assert_eq!(channel.take(&whole), Err(Refusal::UnfitMemory));
        assert_eq!(channel.take(&[]), Err(Refusal::UnfitMemory));
        assert_eq!(channel.memory, before);
        channel.reset();
        let message = channel.take(&whole);
        assert_eq!(message, Ok(Some(Message::Handshake { build_number: 9 })));
    }
}
