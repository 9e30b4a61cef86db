//! Instructions per call, counted by callgrind.
//!
//! This program runs itself under callgrind, once with N calls and once with 2N.
//! The difference of the two totals, divided by N, is what one turn of the loop
//! takes: all that comes before and after the loop falls away. The same count
//! with an empty entry point gives the loop's own instructions, which are taken
//! off, so that a number counts the entry point from its first instruction to
//! its return, with all that it calls.

use std::env;
use std::process::Stdio;

use crate::call::{repeat, Memory, Side, EMPTY, EMPTY_INSTRUCTIONS, PLAIN, PROVED};
use crate::callgrind;
use crate::inputs::{self, Input, Output};
use crate::table::{print_header, print_row, Cost};

/// N. It has as many digits as 2N, so that both runs start alike.
const CALLS: u64 = 1_000;

/// Prints the tables.
pub fn run() -> Result<(), String> {
    let (inputs, outputs) = (inputs::all(), inputs::outputs());
    let read_loop = per_turn("read", inputs[0].name, &EMPTY)? - EMPTY_INSTRUCTIONS;
    let write_loop = per_turn("write", outputs[0].name, &EMPTY)? - EMPTY_INSTRUCTIONS;
    print_header("Read", "instructions");
    for input in &inputs {
        let cost = cost("read", input.name, read_loop)?;
        print_row(input.label, input.message.len(), cost, 0);
    }
    println!();
    print_header("Write", "instructions");
    for output in &outputs {
        let cost = cost("write", output.name, write_loop)?;
        print_row(output.label, output.size(), cost, 0);
    }
    println!();
    println!(
        "Instructions per call, counted by callgrind from the entry point's first instruction to \
         its return, with all that it calls; the loop's own ({read_loop} and {write_loop}) are \
         taken off. A copy by one repeated instruction, as the C library copies long strings, \
         counts once for each repetition.",
    );
    Ok(())
}

/// `bench one`: the calls that callgrind counts.
pub fn one(message: &str, side: &str, job: &str, calls: &str) -> Result<(), String> {
    let side = [&PROVED, &PLAIN, &EMPTY]
        .into_iter()
        .find(|known| known.name == side)
        .ok_or_else(|| format!("no side `{side}`"))?;
    let calls = calls
        .parse()
        .map_err(|_| format!("`{calls}` is no number of calls"))?;
    let (inputs, outputs) = (inputs::all(), inputs::outputs());
    let found = match job {
        "read" => inputs
            .iter()
            .find(|input| input.name == message)
            .map(Input::job),
        "write" => outputs
            .iter()
            .find(|output| output.name == message)
            .map(Output::job),
        _ => return Err(format!("no job `{job}`")),
    };
    let found = found.ok_or_else(|| format!("no message `{message}` to {job}"))?;
    repeat(side, found, &mut Memory::new(), calls);
    Ok(())
}

/// What a job takes on each side, without the loop.
fn cost(job: &str, message: &str, own: f64) -> Result<Cost, String> {
    Ok(Cost {
        proved: per_turn(job, message, &PROVED)? - own,
        plain: per_turn(job, message, &PLAIN)? - own,
    })
}

/// Instructions of one turn of the loop: the call and what is around it.
fn per_turn(job: &str, message: &str, side: &Side) -> Result<f64, String> {
    let fewer = total(job, message, side, CALLS)?;
    let more = total(job, message, side, 2 * CALLS)?;
    // Start-up may vary by a few instructions, far fewer than N.
    Ok(((more as f64 - fewer as f64) / CALLS as f64).round())
}

/// All instructions of one `bench one` run.
fn total(job: &str, message: &str, side: &Side, calls: u64) -> Result<u64, String> {
    let program = env::current_exe().map_err(|error| format!("own program: {error}"))?;
    let calls = calls.to_string();
    let words = ["one", message, side.name, job, &calls];
    Ok(callgrind::count(&program, &words, Stdio::null())?.total)
}
