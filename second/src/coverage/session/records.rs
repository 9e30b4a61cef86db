//! What the session records of generated scripts reach.

use super::super::Facts;
use crate::record::{COUNT_SIZE, ENTRY_SIZE};

/// The counts and the sums of sizes at which a record's number may change.
const COUNTS: [usize; 6] = [0, 1, 127, 128, 129, 65_535];
const BYTES: [u64; 3] = [0, 32_768, 32_769];

impl Facts {
    /// A write to so much memory where so much is needed.
    pub(super) fn add_written(&mut self, room: usize, needed: usize, number: u8) {
        let what = match room {
            _ if room == needed => "exact",
            _ if room + 1 == needed => "one short",
            _ if room < needed => "short",
            _ => "more",
        };
        self.add(format!("O {what} {number}"));
    }

    /// A record that was read.
    pub(super) fn add_read(&mut self, record: &[u8], number: u8) {
        let Some((count, rest)) = record.split_first_chunk::<COUNT_SIZE>() else {
            return self.add(format!("V no count {number}"));
        };
        let count = usize::from(u16::from_le_bytes(*count));
        if COUNTS.contains(&count) {
            self.add(format!("V count={count} {number}"));
        }
        let Some(contents) = rest.get(..ENTRY_SIZE * count) else {
            return self.add(format!("V no contents {number}"));
        };
        self.add_contents(contents, record.len() as u64, number);
    }

    fn add_contents(&mut self, contents: &[u8], length: u64, number: u8) {
        let mut end = (COUNT_SIZE + contents.len()) as u64;
        let mut sizes = 0;
        let (mut past, mut wraps, mut misplaced) = (false, false, false);
        for entry in contents.chunks_exact(ENTRY_SIZE) {
            let offset = u64::from(u32::from_le_bytes([entry[0], entry[1], entry[2], entry[3]]));
            let size = u64::from(u32::from_le_bytes([entry[4], entry[5], entry[6], entry[7]]));
            past |= offset + size > length;
            wraps |= offset + size > u32::MAX.into() && (offset + size) % (1 << 32) <= length;
            misplaced |= offset != end;
            end += size;
            sizes += size;
        }
        if BYTES.contains(&sizes) && !misplaced {
            self.add(format!("V bytes={sizes} {number}"));
        }
        for (name, holds) in [
            ("past the end", past && !wraps),
            ("wraps", wraps),
            ("misplaced", misplaced && !past),
            ("left over", !misplaced && end < length),
        ] {
            if holds {
                self.add(format!("V {name} {number}"));
            }
        }
    }
}
