//! Tests from the documents: layouts, rules, refusals, vectors, scripts.

#[path = "../common/mod.rs"]
mod common;

mod chunks;
mod command_line;
mod counter;
mod generator;
mod layout;
mod output;
mod refusals;
mod round_trip;
mod rules;
mod samples;
mod scripts;
mod settings;
mod vectors;

use common::hex;

/// What a script prints.
fn run(script: &[u8]) -> String {
    let mut output = Vec::new();
    second::script::pdu::run(script, &mut output).expect("memory takes all");
    String::from_utf8(output).expect("a text")
}

/// The script that a text stands for.
fn script_of(text: &str) -> Result<Vec<u8>, String> {
    second::hex::script(second::script::pdu::KINDS, text)
}

/// What the script written as text prints.
fn run_text(text: &str) -> String {
    run(&script_of(text).expect("a text form"))
}

/// The number that reading a message answers.
fn read_number(message: &[u8]) -> u8 {
    second::pdu::read(message).err().unwrap_or(0)
}
