//! The session record for support: the standing orders after the mark, with a table
//! of contents. Count 2; for each order offset 4, from the record's start, and size
//! 4; then the orders' bytes, touching, and nothing after them.

use crate::book::{BYTES_ROOM, ORDERS_ROOM};
use crate::number::{RECORD_CUT, RECORD_DIFFERS};

/// The bytes of the count.
pub const COUNT_SIZE: usize = 2;
/// The bytes of an entry of the table of contents.
pub const ENTRY_SIZE: usize = 8;

/// The record of orders that a history has room for.
pub fn write(orders: &[Vec<u8>]) -> Vec<u8> {
    let mut record = (orders.len() as u16).to_le_bytes().to_vec();
    let mut offset = COUNT_SIZE + ENTRY_SIZE * orders.len();
    for order in orders {
        record.extend_from_slice(&(offset as u32).to_le_bytes());
        record.extend_from_slice(&(order.len() as u32).to_le_bytes());
        offset += order.len();
    }
    for order in orders {
        record.extend_from_slice(order);
    }
    record
}

/// The bodies of a record, each as the part of it where it lies, or its refusal.
pub fn read(record: &[u8]) -> Result<Vec<&[u8]>, u8> {
    let (count, rest) = record.split_first_chunk::<COUNT_SIZE>().ok_or(RECORD_CUT)?;
    let count = usize::from(u16::from_le_bytes(*count));
    let contents = rest.get(..ENTRY_SIZE * count).ok_or(RECORD_CUT)?;
    let entries: Vec<(u64, u64)> = contents.chunks_exact(ENTRY_SIZE).map(entry).collect();
    let bodies = entries.iter().map(|&(offset, size)| {
        let end = usize::try_from(offset + size).ok()?;
        record.get(usize::try_from(offset).ok()?..end)
    });
    let bodies: Vec<&[u8]> = bodies.collect::<Option<_>>().ok_or(RECORD_CUT)?;
    let mut end = (COUNT_SIZE + ENTRY_SIZE * count) as u64;
    let mut all = 0;
    for &(offset, size) in &entries {
        if offset != end {
            return Err(RECORD_DIFFERS);
        }
        end += size;
        all += size;
    }
    if count > ORDERS_ROOM || all > BYTES_ROOM as u64 || end != record.len() as u64 {
        return Err(RECORD_DIFFERS);
    }
    Ok(bodies)
}

/// Offset and size of an entry.
fn entry(bytes: &[u8]) -> (u64, u64) {
    let number = |at: usize| {
        let bytes: [u8; 4] = bytes[at..at + 4].try_into().expect("an entry has 8 bytes");
        u64::from(u32::from_le_bytes(bytes))
    };
    (number(0), number(4))
}
