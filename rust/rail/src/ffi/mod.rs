//! The library's C boundary, and the only unsafe code of this crate.
//!
//! What each call relies on: a slice goes over as its pointer, which is never null,
//! and its length; the library reads and writes within these lengths only, for all
//! bytes that they may hold, and keeps no pointer. A slice that is written is
//! borrowed mutably, so no other one overlaps it.
#![allow(unsafe_code)]

mod state;

pub(crate) use state::{
    cell, checkpoint, deliver, desktop, explain, figure, notification, notifications, record_write,
    reset, run, shared, undo, update, window, windows,
};

/// A record's fields as numbers: the type, then the fields in carried order, a string
/// as its place and its length, then zeros.
pub(crate) type Words = [u32; 12];

extern "C" {
    fn rail_record_check(record: *const u8, record_length: usize) -> u32;
    fn rail_record_body(record: *const u8, record_length: usize, index: u32) -> u32;
    fn rail_chunk_reset(memory: *mut u8, memory_length: usize) -> u32;
    fn rail_chunk(
        memory: *mut u8,
        memory_length: usize,
        chunk: *const u8,
        chunk_length: usize,
        words: *mut u32,
    ) -> u32;
    fn rail_pdu_read(message: *const u8, length: usize, words: *mut u32) -> u32;
    fn rail_pdu_write(
        words: *const u32,
        strings: *const u8,
        strings_length: usize,
        out: *mut u8,
        out_length: usize,
    ) -> u32;
    fn rail_counter_read(message: *const u8, length: usize, words: *mut u32) -> u32;
    fn rail_counter_write(
        words: *const u32,
        strings: *const u8,
        strings_length: usize,
        out: *mut u8,
        out_length: usize,
    ) -> u32;
    #[cfg(test)]
    fn rail_size(what: u32) -> u32;
}

pub(crate) fn record_check(record: &[u8]) -> u32 {
    // SAFETY: the record is read with its length.
    unsafe { rail_record_check(record.as_ptr(), record.len()) }
}

pub(crate) fn record_body(record: &[u8], index: u32) -> u32 {
    // SAFETY: the record is read with its length.
    unsafe { rail_record_body(record.as_ptr(), record.len(), index) }
}

pub(crate) fn chunk_reset(memory: &mut [u8]) -> u32 {
    // SAFETY: the memory is written with its length.
    unsafe { rail_chunk_reset(memory.as_mut_ptr(), memory.len()) }
}

pub(crate) fn chunk(memory: &mut [u8], chunk: &[u8], words: &mut Words) -> u32 {
    // SAFETY: the chunk is read with its length; the memory is written with its own, and
    // the 12 words are, both borrowed mutably and so apart from each other and the chunk.
    unsafe {
        rail_chunk(
            memory.as_mut_ptr(),
            memory.len(),
            chunk.as_ptr(),
            chunk.len(),
            words.as_mut_ptr(),
        )
    }
}

pub(crate) fn pdu_read(message: &[u8], words: &mut Words) -> u32 {
    // SAFETY: the message is read with its length, and the 12 words are written,
    // which are borrowed mutably and so apart from it.
    unsafe { rail_pdu_read(message.as_ptr(), message.len(), words.as_mut_ptr()) }
}

pub(crate) fn pdu_write(words: &Words, strings: &[u8], out: &mut [u8]) -> u32 {
    // SAFETY: the 12 words and the strings are read, these with their length, and
    // `out` is written with its own, which is borrowed mutably and so apart from both.
    unsafe {
        rail_pdu_write(
            words.as_ptr(),
            strings.as_ptr(),
            strings.len(),
            out.as_mut_ptr(),
            out.len(),
        )
    }
}

pub(crate) fn counter_read(message: &[u8], words: &mut Words) -> u32 {
    // SAFETY: as `pdu_read`.
    unsafe { rail_counter_read(message.as_ptr(), message.len(), words.as_mut_ptr()) }
}

pub(crate) fn counter_write(words: &Words, strings: &[u8], out: &mut [u8]) -> u32 {
    // SAFETY: as `pdu_write`.
    unsafe {
        rail_counter_write(
            words.as_ptr(),
            strings.as_ptr(),
            strings.len(),
            out.as_mut_ptr(),
            out.len(),
        )
    }
}

/// A size by its number: the parts and a place of the store, then what is handed out.
#[cfg(test)]
pub(crate) fn size(what: u32) -> u32 {
    // SAFETY: a number goes in and a number comes out.
    unsafe { rail_size(what) }
}

#[cfg(test)]
mod tests {
    use super::*;
    use crate::memory::{BODIES_SIZE, INDEX_SIZE, JOURNAL_SIZE, PLACE_SIZE};

    #[test]
    fn sizes_of_the_parts() {
        let sizes = [INDEX_SIZE, BODIES_SIZE, PLACE_SIZE, JOURNAL_SIZE];
        for (what, expected) in (0..).zip(sizes) {
            assert_eq!(size(what), expected as u32);
        }
        assert_eq!(size(9), crate::RECORD_LIMIT as u32);
        for what in [12, 13, 255, 256, u32::MAX] {
            assert_eq!(size(what), 0);
        }
    }

    /// Words change only where a read is granted.
    #[test]
    fn words_of_a_refused_read() {
        let mut words = [7; 12];
        assert_eq!(pdu_read(&[], &mut words), 2);
        assert_eq!(words, [7; 12]);
        assert_eq!(pdu_read(&[5, 0, 8, 0, 9, 0, 0, 0], &mut words), 0);
        assert_eq!(words, [5, 9, 0, 0, 0, 0, 0, 0, 0, 0, 0, 0]);
    }

    /// Words that are no record: an unknown type, a number too great for its field, a
    /// nonzero word after the last, a string past the strings lent.
    #[test]
    fn words_that_are_no_record() {
        let mut out = [0xEE; 600];
        let mut written = |words: &[u32], strings: &[u8]| {
            let mut all = [0; 12];
            all[..words.len()].copy_from_slice(words);
            pdu_write(&all, strings, &mut out)
        };
        let refused = 8;
        assert_eq!(written(&[3, 1], &[]), refused);
        assert_eq!(written(&[0x1_0005, 1], &[]), refused);
        assert_eq!(written(&[5, 1, 1], &[]), refused);
        assert_eq!(written(&[0x0C, 1, 0x1_0000, 0], &[]), refused);
        assert_eq!(written(&[2, 1, 2], &[]), refused);
        assert_eq!(written(&[2, 1, 0x1_0001], &[]), refused);
        assert_eq!(written(&[0x0F, 1, 1, 4], &[0; 4]), refused);
        assert_eq!(written(&[0x0F, 1, u32::MAX, 1], &[0; 4]), refused);
        assert_eq!(written(&[0x0F, 1, 0, u32::MAX], &[0; 4]), refused);
        assert_eq!(written(&[5, 1, 0, 0, 0, 0, 0, 0, 0, 0, 0, 1], &[]), refused);
        assert_eq!(written(&[5, 1], &[9; 3]), 8 * 65_536);
        assert_eq!(out[..9], [5, 0, 8, 0, 1, 0, 0, 0, 0xEE]);
    }
}
