//! A message in one chunk beside reading it where it lies: instructions of the two entry
//! points, by callgrind, and of the copy that the chunk needs.
//!
//! The copy is what a first chunk with the message's bytes takes more than one without
//! data, both of which await more. What is then left of the whole chunk's count, less the
//! read, is what the channel adds.

use std::env;
use std::hint::black_box;

use second::pdu::chunk::{flag, Head};

use crate::callgrind;
use crate::inputs::{self, Input};

/// Calls that are counted together.
const CALLS: u64 = 1_000;
/// What the channel may add to reading and copying.
const AIM: u64 = 60;
/// Bytes of chunk memory.
const MEMORY: usize = rail::CHUNK_SIZE;

extern "C" {
    fn rail_chunk_reset(memory: *mut u8, memory_length: usize) -> u32;
    fn rail_chunk(
        memory: *mut u8,
        memory_length: usize,
        chunk: *const u8,
        chunk_length: usize,
        words: *mut u32,
    ) -> u32;
    fn rail_pdu_read(message: *const u8, length: usize, words: *mut u32) -> u32;
}

/// What is called: its name on the command line, and the function counted.
#[derive(Clone, Copy, PartialEq, Eq)]
enum What {
    Read,
    Whole,
    First,
    NoData,
}

impl What {
    const ALL: [(What, &'static str, &'static str); 4] = [
        (What::Read, "read", "rail_pdu_read"),
        (What::Whole, "whole", "rail_chunk"),
        (What::First, "first", "rail_chunk"),
        (What::NoData, "no-data", "rail_chunk"),
    ];
}

/// Prints the table. It fails where the aim is missed.
pub fn run() -> Result<(), String> {
    println!("| Message in one chunk | Bytes | Read where it lies | In a chunk | Its copy | More (aim {AIM}) |");
    println!("|---|---:|---:|---:|---:|---:|");
    let mut missed = Vec::new();
    for input in inputs::all().iter().filter(|input| input.answer == 0) {
        let [read, whole, first, no_data] = What::ALL.map(|what| instructions(input, what));
        let (read, whole, copy) = (read?, whole?, first? - no_data?);
        let more = whole - read - copy;
        println!(
            "| {} | {} | {read} | {whole} | {copy} | {more} |",
            input.label,
            input.message.len()
        );
        if more > AIM {
            missed.push(input.label);
        }
    }
    println!();
    println!("Instructions per call, counted by callgrind inside the entry point with all that it calls.");
    if missed.is_empty() {
        return Ok(());
    }
    Err(format!("the aim is missed for {}", missed.join(", ")))
}

fn instructions(input: &Input, what: (What, &str, &str)) -> Result<u64, String> {
    let program = env::current_exe().map_err(|error| format!("own program: {error}"))?;
    let (_, name, function) = what;
    let calls = CALLS.to_string();
    let words = ["chunk-one", input.name, name, &calls];
    Ok(callgrind::count_within(function, &program, &words)?.total / CALLS)
}

/// `bench chunk-one`: the calls that callgrind counts.
pub fn one(message: &str, what: &str, calls: &str) -> Result<(), String> {
    let inputs = inputs::all();
    let input = inputs.iter().find(|input| input.name == message);
    let input = input.ok_or_else(|| format!("no message `{message}`"))?;
    let known = What::ALL.into_iter().find(|(_, name, _)| *name == what);
    let (what, ..) = known.ok_or_else(|| format!("no call `{what}`"))?;
    let calls: u64 = calls
        .parse()
        .map_err(|_| format!("`{calls}` is no number of calls"))?;
    let length = input.message.len();
    let (flags, piece) = match what {
        What::Read | What::Whole => (flag::FIRST | flag::LAST, &input.message[..]),
        What::First => (flag::FIRST, &input.message[..]),
        What::NoData => (flag::FIRST, &[][..]),
    };
    let chunk = Head { length, flags }.with(piece);
    let mut memory = vec![0u8; MEMORY];
    let mut words = [0u32; 12];
    // SAFETY: the memory is written with its length.
    unsafe { rail_chunk_reset(memory.as_mut_ptr(), MEMORY) };
    for _ in 0..calls {
        let answer = if what == What::Read {
            let message = black_box(&input.message);
            // SAFETY: the message is read with its length, and 12 words are written.
            unsafe { rail_pdu_read(message.as_ptr(), message.len(), words.as_mut_ptr()) }
        } else {
            let chunk = black_box(&chunk);
            // SAFETY: as above; the memory is written with its length.
            unsafe {
                let (at, size) = (chunk.as_ptr(), chunk.len());
                rail_chunk(memory.as_mut_ptr(), MEMORY, at, size, words.as_mut_ptr())
            }
        };
        if black_box(answer) & 0xFF != 0 {
            return Err(format!("answered {answer}"));
        }
    }
    Ok(())
}
