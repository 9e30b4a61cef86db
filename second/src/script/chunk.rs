//! The items of chunks in a script of control messages: `K` (a chunk), `E` (emptying),
//! `T` (the next of them is lent too little), `X` (a byte of their memory changes).

use std::collections::BTreeMap;

use super::Item;
use crate::number::STATE_UNFIT;
use crate::pdu::chunk::Assembly;

/// The bytes of chunk memory that the program compared lends. Nothing is kept in
/// such memory here; the measure only tells which `X` items are bad.
pub const MEASURE: u32 = 17_060;

/// The kinds of items that print nothing.
pub const SILENT: &[u8] = b"TX";

/// What an item asks for.
#[derive(Clone, Copy, Debug, PartialEq, Eq)]
pub enum Call<'a> {
    /// A chunk.
    Take(&'a [u8]),
    /// Emptying.
    Empty,
    /// No call: the next one is lent memory that is too short.
    Shorten,
    /// No call: a byte of the memory changes by these bits.
    Fault(u32, u8),
}

/// What the item asks for, or none if it is no well-formed item of chunks.
pub fn call(item: Item<'_>) -> Option<Call<'_>> {
    Some(match (item.kind, item.payload) {
        (b'K', chunk) => Call::Take(chunk),
        (b'E', []) => Call::Empty,
        (b'T', &[low, high]) if (low, high) != (0, 0) => Call::Shorten,
        (b'X', &[a, b, c, d, bits]) => {
            let offset = u32::from_le_bytes([a, b, c, d]);
            if offset >= MEASURE {
                return None;
            }
            Call::Fault(offset, bits)
        }
        _ => return None,
    })
}

/// What a call comes to.
#[derive(Clone, Debug, PartialEq, Eq)]
pub enum Outcome {
    /// It was no call.
    Silent,
    /// A message is whole: its bytes.
    Message(Vec<u8>),
    /// The number alone.
    Number(u8),
    /// A chunk met memory with a changed byte: nothing is known of its answer.
    Unknown,
}

/// A run of such calls.
#[derive(Clone, Debug, Default)]
pub struct Chunks {
    assembly: Assembly,
    short: bool,
    /// Bits that are not as the calls left them.
    changed: BTreeMap<u32, u8>,
}

impl From<Result<Option<Vec<u8>>, u8>> for Outcome {
    fn from(taken: Result<Option<Vec<u8>>, u8>) -> Self {
        match taken {
            Ok(Some(message)) => Self::Message(message),
            Ok(None) => Self::Number(0),
            Err(number) => Self::Number(number),
        }
    }
}

impl Chunks {
    /// Calls that left this assembled.
    pub fn after(assembly: Assembly) -> Self {
        Self {
            assembly,
            ..Self::default()
        }
    }

    /// What is assembled.
    pub fn assembly(&self) -> &Assembly {
        &self.assembly
    }

    /// Whether the next call is lent too little.
    pub fn is_short(&self) -> bool {
        self.short
    }

    /// Makes a call.
    pub fn make(&mut self, call: Call<'_>) -> Outcome {
        match call {
            Call::Shorten => self.short = true,
            Call::Fault(offset, bits) => {
                let changed = self.changed.entry(offset).or_default();
                *changed ^= bits;
                if *changed == 0 {
                    self.changed.remove(&offset);
                }
            }
            _ if std::mem::take(&mut self.short) => return Outcome::Number(STATE_UNFIT),
            Call::Empty => {
                self.assembly.clear();
                self.changed.clear();
                return Outcome::Number(0);
            }
            Call::Take(_) if !self.changed.is_empty() => return Outcome::Unknown,
            Call::Take(chunk) => return self.assembly.take(chunk).into(),
        }
        Outcome::Silent
    }
}
