//! Session records to be read: good ones, and ones with a fault in each field.

use crate::book::{BYTES_ROOM, ORDERS_ROOM};
use crate::generate::random::Random;
use crate::record::{write, COUNT_SIZE, ENTRY_SIZE};
use crate::script::PAYLOAD_LIMIT;

/// A record, made of the standing orders or of bytes that are no orders.
pub fn record(random: &mut Random, standing: &[Vec<u8>]) -> Vec<u8> {
    match random.below(20) {
        0..=4 => write(standing),
        5..=8 => write(&bodies_at_limit(random)),
        9 => unwritable(random),
        _ => {
            let mut record = if random.chance(50) && !standing.is_empty() {
                write(standing)
            } else {
                write(&few_bodies(random))
            };
            damage(random, &mut record);
            record.truncate(PAYLOAD_LIMIT);
            record
        }
    }
}

/// Up to nine bodies; some are empty.
fn few_bodies(random: &mut Random) -> Vec<Vec<u8>> {
    let count = 1 + random.below(9);
    let sizes: Vec<usize> = (0..count)
        .map(|_| random.below(4) * random.below(20))
        .collect();
    sizes.into_iter().map(|size| random.bytes(size)).collect()
}

/// As many bodies, or as many bytes of them, as a record can have, one more, and few.
fn bodies_at_limit(random: &mut Random) -> Vec<Vec<u8>> {
    if random.chance(60) {
        let limit = ORDERS_ROOM;
        let count = random.pick(&[0, 1, limit - 1, limit, limit + 1, 2 * limit]);
        return vec![vec![0x2E; random.below(9)]; count];
    }
    let first = random.below(BYTES_ROOM);
    let more = random.below(3);
    vec![vec![1; first], vec![2; BYTES_ROOM - first], vec![3; more]]
}

/// Too short for a count, or for what it counts.
fn unwritable(random: &mut Random) -> Vec<u8> {
    match random.below(5) {
        0 => Vec::new(),
        1 => random.bytes(1),
        2 => vec![0xFF; COUNT_SIZE + random.below(3) * ENTRY_SIZE],
        3 => vec![0xFF, 0xFF]
            .into_iter()
            .chain(vec![0; random.below(PAYLOAD_LIMIT - 1)])
            .collect(),
        _ => {
            let length = random.below(60);
            random.bytes(length)
        }
    }
}

/// One fault, in a field or at the end.
fn damage(random: &mut Random, record: &mut Vec<u8>) {
    let count = usize::from(u16::from_le_bytes([record[0], record[1]]));
    if count == 0 {
        return record.push(0);
    }
    let entry = COUNT_SIZE + ENTRY_SIZE * random.below(count);
    let (offset, size) = (entry, entry + 4);
    match random.below(14) {
        0 => add(record, offset, 1),
        1 => add(record, offset, u32::MAX),
        2 => add(record, size, 1),
        3 => add(record, size, u32::MAX),
        // one field more and the other less: the sum stays
        4 => {
            add(record, offset, 1);
            add(record, size, u32::MAX);
        }
        // sums that wrap at 32 bits and come out small
        5 => {
            set(record, offset, u32::MAX - random.below(9) as u32);
            set(record, size, 1 + random.below(20) as u32);
        }
        6 => {
            set(record, offset, 1 << 31);
            set(record, size, 1 << 31);
        }
        7 => set(
            record,
            random.pick(&[offset, size]),
            random.number(u32::MAX),
        ),
        8 => {
            let count = random.pick(&[0, 1, count - 1, count + 1, 127, 128, 129, 65_535]);
            record[..2].copy_from_slice(&(count as u16).to_le_bytes());
        }
        9 => {
            let more = 1 + random.below(9);
            record.extend(vec![0x2E; more]);
        }
        10 => {
            let kept = record.len() - 1 - random.below(record.len().min(9));
            record.truncate(kept);
        }
        // the last two bodies change places in the table of contents
        11 if count > 1 => {
            let last = COUNT_SIZE + ENTRY_SIZE * (count - 2);
            record[last..last + 2 * ENTRY_SIZE].rotate_left(ENTRY_SIZE);
        }
        // a body is taken away, its entry is not
        12 => {
            let length = record.len();
            record.truncate(length - random.below(length.min(40)));
        }
        _ => {
            let at = random.below(record.len());
            record[at] ^= 1 << random.below(8);
        }
    }
}

fn set(record: &mut [u8], at: usize, number: u32) {
    record[at..at + 4].copy_from_slice(&number.to_le_bytes());
}

fn add(record: &mut [u8], at: usize, more: u32) {
    let number = u32::from_le_bytes(record[at..at + 4].try_into().expect("4 bytes"));
    set(record, at, number.wrapping_add(more));
}
