//! Messages that arrive in chunks: a length of the whole, flags, and a piece of it.

use crate::number::{BAD_CHUNK, CHUNK_TOO_SHORT};

/// The longest message that may arrive in chunks.
pub const LONGEST: usize = 17_052;

/// The flags that matter.
pub mod flag {
    /// The first chunk of a message.
    pub const FIRST: u32 = 0x0000_0001;
    /// The last one.
    pub const LAST: u32 = 0x0000_0002;
    /// Its piece is compressed, which is never taken here.
    pub const COMPRESSED: u32 = 0x0020_0000;
}

/// What arrived of a message that is not whole yet.
#[derive(Clone, Debug, PartialEq, Eq)]
pub struct Unfinished {
    /// The bytes that its first chunk promised.
    pub promised: usize,
    /// Those that came, in order.
    pub pieces: Vec<u8>,
}

/// The receiving end of a channel.
#[derive(Clone, Debug, Default, PartialEq, Eq)]
pub struct Assembly {
    unfinished: Option<Unfinished>,
}

impl Assembly {
    /// Forgets an unfinished message.
    pub fn clear(&mut self) {
        self.unfinished = None;
    }

    /// The unfinished message, if there is one.
    pub fn unfinished(&self) -> Option<&Unfinished> {
        self.unfinished.as_ref()
    }

    /// Takes the next chunk: the message that it makes whole, or none yet. A chunk
    /// of fewer bytes than its head leaves the unfinished message; any other
    /// refusal forgets it.
    pub fn take(&mut self, chunk: &[u8]) -> Result<Option<Vec<u8>>, u8> {
        let Some((head, piece)) = Head::split(chunk) else {
            return Err(CHUNK_TOO_SHORT);
        };
        let before = self.unfinished.take();
        let mut message = match (head.has(flag::FIRST), before) {
            (true, _) => Unfinished {
                promised: head.length,
                pieces: Vec::new(),
            },
            (false, Some(begun)) if begun.promised == head.length => begun,
            (false, _) => return Err(BAD_CHUNK),
        };
        if head.has(flag::COMPRESSED) || !(1..=LONGEST).contains(&message.promised) {
            return Err(BAD_CHUNK);
        }
        if piece.len() > message.promised - message.pieces.len() {
            return Err(BAD_CHUNK);
        }
        message.pieces.extend_from_slice(piece);
        if !head.has(flag::LAST) {
            self.unfinished = Some(message);
            return Ok(None);
        }
        if message.pieces.len() < message.promised {
            return Err(BAD_CHUNK);
        }
        Ok(Some(message.pieces))
    }
}

/// The numbers before a chunk's piece.
#[derive(Clone, Copy, Debug, PartialEq, Eq)]
pub struct Head {
    /// The bytes of the whole message.
    pub length: usize,
    /// The flags.
    pub flags: u32,
}

impl Head {
    /// The head of a chunk and its piece, or none if it is too short for a head.
    pub fn split(chunk: &[u8]) -> Option<(Self, &[u8])> {
        let (length, rest) = chunk.split_first_chunk()?;
        let (flags, piece) = rest.split_first_chunk()?;
        let head = Self {
            length: u32::from_le_bytes(*length) as usize,
            flags: u32::from_le_bytes(*flags),
        };
        Some((head, piece))
    }

    /// Whether a flag is set.
    pub fn has(self, flag: u32) -> bool {
        self.flags & flag != 0
    }

    /// The chunk of this head with a piece.
    pub fn with(self, piece: &[u8]) -> Vec<u8> {
        let length = self.length as u32;
        [&length.to_le_bytes(), &self.flags.to_le_bytes(), piece].concat()
    }
}
