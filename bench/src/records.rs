//! The session record: instructions of writing one beyond the validation of the memory,
//! and of opening one, by callgrind.
//!
//! A write that finds no room validates the memory and ends there, so that what a
//! granted one takes more is the writing.

use std::env;
use std::hint::black_box;

use rail::{Memory, Record, RECORD_LIMIT};

use crate::callgrind;

/// Calls that are counted together.
const CALLS: u64 = 200;
/// What an order may cost where it is written, its copy aside.
const WRITE_AIM: u64 = 60;
/// What opening a record of 128 orders may cost.
const OPEN_AIM: u64 = 4_000;

/// The orders after the mark: how many, and the bytes of each.
const SORTS: [(usize, usize); 5] = [(0, 7), (1, 7), (32, 7), (128, 7), (128, 255)];

/// Prints the table. It fails where an aim is missed.
pub fn run() -> Result<(), String> {
    println!("| Orders | Bytes of each | Validation, and 14 | Written | More for each (aim {WRITE_AIM} and its copy) | Opened (aim {OPEN_AIM}) |");
    println!("|---:|---:|---:|---:|---:|---:|");
    let mut missed = Vec::new();
    for (orders, bytes) in SORTS {
        let [refused, written, opened] =
            ["refused", "written", "opened"].map(|what| instructions(orders, bytes, what));
        let (refused, written, opened) = (refused?, written?, opened?);
        let each = (written - refused) / orders.max(1) as u64;
        println!("| {orders} | {bytes} | {refused} | {written} | {each} | {opened} |");
        if (bytes == 7 && orders > 1 && each > WRITE_AIM) || opened > OPEN_AIM {
            missed.push(format!("{orders} orders of {bytes} bytes"));
        }
    }
    println!();
    println!("Instructions per call, counted by callgrind inside the entry point with all that it calls.");
    if missed.is_empty() {
        return Ok(());
    }
    Err(format!("an aim is missed for {}", missed.join(", ")))
}

fn instructions(orders: usize, bytes: usize, what: &str) -> Result<u64, String> {
    let program = env::current_exe().map_err(|error| format!("own program: {error}"))?;
    let function = match what {
        "opened" => "rail_record_check",
        _ => "rail_record_write",
    };
    let [orders, bytes, calls] = [orders as u64, bytes as u64, CALLS].map(|n| n.to_string());
    let words = ["record-one", &orders, &bytes, what, &calls];
    Ok(callgrind::count_within(function, &program, &words)?.total / CALLS)
}

/// An order of so many bytes: of the desktop, or a window's title.
fn order(bytes: usize, is_first: bool) -> Vec<u8> {
    if bytes == 7 {
        return vec![0x2E, 7, 0, 2, 0, 0, 4];
    }
    let [low, high] = (bytes as u16).to_le_bytes();
    let [text_low, text_high] = (bytes as u16 - 13).to_le_bytes();
    let new = if is_first { 0x11 } else { 0x01 };
    let head = [
        0x2E, low, high, 4, 0, 0, new, 0x58, 0, 1, 0, text_low, text_high,
    ];
    let mut order = head.to_vec();
    order.resize(bytes, 0x41);
    order
}

/// `bench record-one`: the calls that callgrind counts.
pub fn one(orders: &str, bytes: &str, what: &str, calls: &str) -> Result<(), String> {
    let number = |text: &str| {
        text.parse::<usize>()
            .map_err(|_| format!("`{text}` is no number"))
    };
    let (orders, bytes, calls) = (number(orders)?, number(bytes)?, number(calls)?);
    let mut memory = Memory::new();
    let emptied = memory.lend().reset();
    emptied.map_err(|refusal| refusal.to_string())?;
    for index in 0..orders {
        let done = memory.lend().deliver(&order(bytes, index == 0));
        done.map_err(|refusal| refusal.to_string())?;
    }
    let mut record = vec![0; RECORD_LIMIT];
    let view = memory.view();
    let standing = view
        .record_bytes(&mut record)
        .map_err(|refusal| refusal.to_string())?;
    let size = 2 + 8 * standing.orders + standing.bytes;
    let mut out = vec![0; if what == "refused" { 1 } else { RECORD_LIMIT }];
    for _ in 0..calls {
        let is_granted = match what {
            "opened" => Record::open(black_box(&record[..size])).is_ok(),
            _ => black_box(view).record_bytes(&mut out).is_ok(),
        };
        if black_box(is_granted) == (what == "refused") {
            return Err(format!("`{what}` was answered otherwise"));
        }
    }
    Ok(())
}
