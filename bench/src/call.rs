//! The two jobs, and the sides that do them. All sides have the same C entry
//! points and are called through a pointer that the compiler cannot see through,
//! from the same loops, so that none is inlined there.

use std::hint::black_box;

use crate::plain;

/// A record's fields as numbers.
pub type Words = [u32; 12];

/// Bytes of output memory that a write is lent, more than any message needs.
pub const ROOM: usize = 17_408;

type ReadFn = unsafe extern "C" fn(message: *const u8, length: usize, words: *mut u32) -> u32;
type WriteFn = unsafe extern "C" fn(
    words: *const u32,
    strings: *const u8,
    strings_length: usize,
    out: *mut u8,
    out_length: usize,
) -> u32;

// The proved library, from librail.a, which the crate `rail` links.
extern "C" {
    fn rail_pdu_read(message: *const u8, length: usize, words: *mut u32) -> u32;
    fn rail_pdu_write(
        words: *const u32,
        strings: *const u8,
        strings_length: usize,
        out: *mut u8,
        out_length: usize,
    ) -> u32;
}

/// One implementation of both jobs.
pub struct Side {
    pub name: &'static str,
    read: ReadFn,
    write: WriteFn,
}

pub static PROVED: Side = Side {
    name: "proved",
    read: rail_pdu_read,
    write: rail_pdu_write,
};

pub static PLAIN: Side = Side {
    name: "plain",
    read: plain::plain_pdu_read,
    write: plain::plain_pdu_write,
};

/// Does nothing, which measures the loop and the call.
pub static EMPTY: Side = Side {
    name: "empty",
    read: empty_read,
    write: empty_write,
};

/// Instructions of an empty entry point: set the answer, return.
pub const EMPTY_INSTRUCTIONS: f64 = 2.0;

#[inline(never)]
unsafe extern "C" fn empty_read(_: *const u8, _: usize, _: *mut u32) -> u32 {
    0
}

#[inline(never)]
unsafe extern "C" fn empty_write(
    _: *const u32,
    _: *const u8,
    _: usize,
    _: *mut u8,
    _: usize,
) -> u32 {
    0
}

impl Side {
    /// Answers a number; the words change only where it is 0.
    #[inline]
    pub fn read(&self, message: &[u8], words: &mut Words) -> u32 {
        // SAFETY: the entry point reads `length` bytes and writes 12 words, and
        // both references cover that.
        unsafe { (self.read)(message.as_ptr(), message.len(), words.as_mut_ptr()) }
    }

    /// Answers a number plus 65,536 times the bytes written.
    #[inline]
    pub fn write(&self, words: &Words, strings: &[u8], out: &mut [u8]) -> u32 {
        // SAFETY: the entry point reads 12 words and `strings_length` bytes and
        // writes at most `out_length`, and the references cover that.
        unsafe {
            (self.write)(
                words.as_ptr(),
                strings.as_ptr(),
                strings.len(),
                out.as_mut_ptr(),
                out.len(),
            )
        }
    }
}

/// What is measured.
#[derive(Clone, Copy)]
pub enum Job<'a> {
    /// Message to words.
    Read(&'a [u8]),
    /// Words, and strings, to a message in output memory of that many bytes.
    Write(&'a Words, &'a [u8], usize),
}

/// The memory that calls write to. It is not cleared between calls.
pub struct Memory {
    words: Words,
    out: Vec<u8>,
}

impl Memory {
    pub fn new() -> Self {
        Self {
            words: [0; 12],
            out: vec![0; ROOM],
        }
    }
}

/// Makes that many calls.
pub fn repeat(side: &Side, job: Job, memory: &mut Memory, calls: u64) {
    match job {
        Job::Read(message) => repeat_read(side, message, &mut memory.words, calls),
        Job::Write(words, strings, room) => {
            repeat_write(side, words, strings, &mut memory.out[..room], calls);
        }
    }
}

#[inline(never)]
fn repeat_read(side: &Side, message: &[u8], words: &mut Words, calls: u64) {
    let side = black_box(side);
    for _ in 0..calls {
        black_box(side.read(black_box(message), words));
    }
}

#[inline(never)]
fn repeat_write(side: &Side, words: &Words, strings: &[u8], out: &mut [u8], calls: u64) {
    let side = black_box(side);
    for _ in 0..calls {
        black_box(side.write(black_box(words), black_box(strings), out));
    }
}
