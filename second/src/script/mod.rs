//! Call scripts: a run of items, each a kind letter, a length of 2 and a payload.

pub mod chunk;
pub mod dump;
pub(crate) mod lookup;
pub mod parts;
pub mod pdu;
mod print;
pub mod session;

/// How a run ended.
#[derive(Clone, Copy, Debug, PartialEq, Eq)]
pub enum End {
    /// At the script's end or at a bad item.
    Done,
    /// At a call on memory that was changed: the model here keeps no memory.
    Fault,
}

/// The most bytes that a payload can have.
pub const PAYLOAD_LIMIT: usize = u16::MAX as usize;

/// One call of a script.
#[derive(Clone, Copy, Debug, PartialEq, Eq)]
pub struct Item<'a> {
    /// The kind letter.
    pub kind: u8,
    /// The bytes that the call carries.
    pub payload: &'a [u8],
}

/// The first item of a script and the rest of it, or none if the item is cut.
pub fn take_item(script: &[u8]) -> Option<(Item<'_>, &[u8])> {
    let (&[kind, low, high], rest) = script.split_first_chunk::<3>()?;
    let length = usize::from(u16::from_le_bytes([low, high]));
    let (payload, rest) = rest.split_at_checked(length)?;
    Some((Item { kind, payload }, rest))
}

/// Adds an item to a script.
///
/// # Panics
/// If the payload is longer than [`PAYLOAD_LIMIT`].
pub fn push_item(script: &mut Vec<u8>, kind: u8, payload: &[u8]) {
    let length = u16::try_from(payload.len()).expect("a payload has at most 65,535 bytes");
    script.push(kind);
    script.extend_from_slice(&length.to_le_bytes());
    script.extend_from_slice(payload);
}
