//! Scripts with faults in the chunk memory: those of control messages with `X` items
//! strewn in, then an emptying and items without faults.

use super::fault::Faulty;
use super::pdu;
use super::random::Random;
use crate::script::chunk::{call, Call, MEASURE};
use crate::script::{push_item, take_item, Item};

/// One item in this many is followed by a fault.
const FAULT_EVERY: usize = 8;
/// Half of the faults hit the last bytes, where the program compared keeps numbers.
const AIMED_LAST: usize = 8;
/// Sets the numbers drawn here apart from those that made the items.
const APART: u64 = 0x2545_F491_4F6C_DD1D;

/// The script of a seed: its items with faults strewn in, an emptying, and the items
/// of the next seed. No item of it is bad.
pub fn script(seed: u64, items: usize) -> Faulty {
    let mut random = Random::new(seed ^ APART);
    let mut script = Vec::new();
    // Faults made, the last of which may be taken back.
    let mut standing: Vec<Vec<u8>> = Vec::new();
    for item in good_items(&pdu::script(seed, items)) {
        push_item(&mut script, item.kind, item.payload);
        if random.below(FAULT_EVERY) == 0 {
            let fault = match standing.pop() {
                Some(last) if random.chance(50) => last,
                _ => {
                    standing.push(fault(&mut random));
                    standing[standing.len() - 1].clone()
                }
            };
            push_item(&mut script, b'X', &fault);
        }
    }
    let last_part = script.len();
    push_item(&mut script, b'E', &[]);
    for item in good_items(&pdu::script(seed.wrapping_add(1), items)) {
        push_item(&mut script, item.kind, item.payload);
    }
    Faulty { script, last_part }
}

/// The items of a script that has at most a last one bad, without it and without `T`
/// items at the end, which would make the call after them too short.
fn good_items(script: &[u8]) -> Vec<Item<'_>> {
    let mut items = Vec::new();
    let mut rest = script;
    while let Some((item, tail)) = take_item(rest) {
        items.push(item);
        rest = tail;
    }
    if items.last().is_some_and(|&item| is_bad(item)) {
        items.pop();
    }
    while items
        .iter()
        .rev()
        .find_map(|&item| call(item))
        .is_some_and(|call| call == Call::Shorten)
    {
        items.pop();
    }
    items
}

fn is_bad(item: Item<'_>) -> bool {
    let mut script = Vec::new();
    push_item(&mut script, item.kind, item.payload);
    let mut printed = Vec::new();
    crate::script::pdu::run(&script, &mut printed).expect("memory takes all that is written");
    printed == b"bad item\n"
}

fn fault(random: &mut Random) -> Vec<u8> {
    let measure = MEASURE as usize;
    let offset = if random.chance(50) {
        measure - 1 - random.below(AIMED_LAST)
    } else {
        random.below(measure)
    };
    // Low bits more often, so that numbers stay small.
    let bits = if random.chance(50) {
        1 << random.below(8)
    } else {
        1 + random.below(255)
    };
    [&(offset as u32).to_le_bytes()[..], &[bits as u8]].concat()
}
