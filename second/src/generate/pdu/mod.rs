//! Scripts of control messages.

mod chunks;
mod draft;

use super::random::Random;
use crate::script::push_item;
use chunks::Planner;
use draft::{declare_length, no_setting, Draft};

/// The most output memory that an item may ask for.
const MOST_MEMORY: u16 = 17_408;

/// Types that have no kind here, the two absent ones first.
const OTHER_TYPES: [u16; 14] = [
    0x0007, 0x000D, 0x0000, 0x0010, 0x0011, 0x0012, 0x0014, 0x007F, 0x0081, 0x0100, 0x0300, 0x0500,
    0x8000, 0xFFFF,
];

/// One seed in this many gives a script that ends with a bad item.
const BAD_END_EVERY: u64 = 20;

/// A script of that many items. In one of twenty the last item is a bad one.
pub fn script(seed: u64, items: usize) -> Vec<u8> {
    let mut random = Random::new(seed);
    let mut script = Vec::new();
    let mut planner = Planner::default();
    let bad_end = seed % BAD_END_EVERY == BAD_END_EVERY - 1;
    for left in (0..items).rev() {
        if left == 0 && bad_end {
            push_bad_end(&mut script, seed / BAD_END_EVERY, &mut random);
        } else if random.chance(40) {
            planner.push_next(&mut script, &mut random);
        } else {
            let (kind, payload) = call(&mut random);
            push_item(&mut script, kind, &payload);
        }
    }
    script
}

/// A call on a message or a record; one in four is in the counter profile.
fn call(random: &mut Random) -> (u8, Vec<u8>) {
    match random.below(8) {
        0 => (b'r', read_payload(random)),
        1 => (b'p', counter_payload(random)),
        2..=4 => (b'R', read_payload(random)),
        _ => (b'P', write_payload(random)),
    }
}

/// A message to be read, good or not.
fn read_payload(random: &mut Random) -> Vec<u8> {
    if random.below(4_000) == 0 {
        // As long as an item can be.
        return Draft::execute([520, 520, 64_483], random).message();
    }
    match random.below(800) {
        0 => largest(random).message(),
        1..=199 => Draft::usual(random).message(),
        200..=439 => Draft::at_edge(random).message(),
        440..=535 => misdeclared(random),
        536..=655 => unfilled(random),
        656..=703 => other_type(random),
        704..=735 => short(random),
        736..=755 => damaged(random),
        756..=769 => unknown_setting(random),
        770..=785 => other_outer(random),
        _ => noise(random),
    }
}

/// The longest message that the rules allow.
fn largest(random: &mut Random) -> Draft {
    Draft::execute([520, 520, 16_000], random)
}

/// The header's length is not that of the bytes.
fn misdeclared(random: &mut Random) -> Vec<u8> {
    let mut message = Draft::usual(random).message();
    let length = message.len();
    match random.below(6) {
        0 => declare(&mut message, length + 1),
        1 => declare(&mut message, length - 1),
        2 => declare(&mut message, random.bits() as usize),
        3 => message.truncate(4 + random.below(length - 4)),
        4 => message.truncate(length - 1),
        _ => message.extend(random_tail(random)),
    }
    message
}

fn declare(message: &mut [u8], length: usize) {
    message[2..4].copy_from_slice(&(length as u16).to_le_bytes());
}

/// The header's length is right, but the fields do not fill it.
fn unfilled(random: &mut Random) -> Vec<u8> {
    let mut draft = if random.chance(80) {
        Draft::usual(random)
    } else {
        Draft::at_edge(random)
    };
    if random.chance(70) && draft.missay_length(random) {
        return draft.message();
    }
    let mut message = draft.message();
    let length = message.len();
    match random.below(4) {
        0 => message.truncate(length - 1),
        1 => message.push(random.bits() as u8),
        2 => message.truncate(4 + random.below(length - 4)),
        _ => message.extend(random_tail(random)),
    }
    declare_length(&mut message);
    message
}

fn random_tail(random: &mut Random) -> Vec<u8> {
    let length = 1 + random.below(16);
    random.bytes(length)
}

/// The type of no kind, the rest as it was.
fn other_type(random: &mut Random) -> Vec<u8> {
    let mut message = Draft::usual(random).message();
    let kind = if random.chance(80) {
        random.pick(&OTHER_TYPES)
    } else {
        random.bits() as u16
    };
    message[..2].copy_from_slice(&kind.to_le_bytes());
    message
}

/// System parameters of 4 to 12 bytes or more with a number that is no setting,
/// or cut inside the number of one.
fn unknown_setting(random: &mut Random) -> Vec<u8> {
    let mut message = Draft::contrast(20, random).message();
    if random.chance(80) {
        message[4..8].copy_from_slice(&no_setting(random).to_le_bytes());
    }
    let length = if random.chance(80) {
        4 + random.below(9)
    } else {
        message.len()
    };
    message.truncate(length);
    declare_length(&mut message);
    message
}

/// High contrast whose outer length is not that of its string and 2.
fn other_outer(random: &mut Random) -> Vec<u8> {
    let length = random.pick(&[0, 1, 2, 40, 519, 520, 521]);
    let mut message = Draft::contrast(length, random).message();
    let outer = match random.below(8) {
        0 => u32::MAX,
        1 => 0,
        2 => length,
        3 => length + 1,
        4 | 5 => length + 3,
        6 => length + 2 + 0x1_0000,
        _ => random.bits() as u32,
    };
    message[12..16].copy_from_slice(&outer.to_le_bytes());
    message
}

/// 0 to 4 bytes, the beginning of a message or any.
fn short(random: &mut Random) -> Vec<u8> {
    let length = random.below(5);
    let mut message = Draft::usual(random).message();
    message.truncate(length);
    if random.chance(30) {
        message = random.bytes(length);
    }
    if random.chance(40) {
        declare_length(&mut message);
    }
    message
}

/// A good message with one bit or one byte changed.
fn damaged(random: &mut Random) -> Vec<u8> {
    let mut message = Draft::usual(random).message();
    // The beginning, where the numbers stand, is hit more often.
    let reach = if random.chance(70) {
        message.len().min(16)
    } else {
        message.len()
    };
    let at = random.below(reach);
    if random.chance(50) {
        message[at] ^= 1 << random.below(8);
    } else {
        message[at] = random.bits() as u8;
    }
    message
}

/// Random bytes, with a right length or a low type in some.
fn noise(random: &mut Random) -> Vec<u8> {
    let length = 4 + random.below(40);
    let mut message = random.bytes(length);
    if random.chance(70) {
        declare_length(&mut message);
    }
    if random.chance(50) {
        message[0] &= 0x0F;
        message[1] = 0;
    }
    message
}

/// A record to be written, good or not, and the memory lent for it.
fn write_payload(random: &mut Random) -> Vec<u8> {
    let (draft, roomy) = match random.below(800) {
        0 => (largest(random), 25),
        1..=360 => (Draft::usual(random), 25),
        _ => (Draft::at_edge(random), 70),
    };
    lent(&draft, roomy, random)
}

/// The same in the counter profile: any kind, or an Execute with a name that is
/// published or nearly so.
fn counter_payload(random: &mut Random) -> Vec<u8> {
    let (draft, roomy) = match random.below(8) {
        0..=2 => (Draft::usual(random), 25),
        3 => (Draft::at_edge(random), 70),
        _ => (program(random), 70),
    };
    lent(&draft, roomy, random)
}

/// An Execute whose name begins with two bars, or differs from that in a byte, in
/// length or at all, with flags up to the first that is none.
fn program(random: &mut Random) -> Draft {
    let mut name = b"|\0|\0".to_vec();
    let flags = if random.chance(50) {
        random.pick(&[0, 1, 8, 9])
    } else {
        random.below(0x21) as u32
    };
    match random.below(12) {
        0 => {}
        1 => name.truncate(random.below(4)),
        2 | 3 => {
            let at = random.below(4);
            name[at] ^= 1 << random.below(8);
            name.extend(random.bytes(2));
        }
        4 => name.push(random.bits() as u8),
        5 => name.extend_from_within(..),
        6 => name.extend([0, 0]),
        _ => {
            let length = 2 + 2 * random.below(20);
            name.extend(random.bytes(length));
        }
    }
    Draft::program(flags, name, random)
}

/// The payload of a record with the memory lent for it, which has room in `roomy` of
/// a hundred, else as much as is needed, a byte less or any.
fn lent(draft: &Draft, roomy: usize, random: &mut Random) -> Vec<u8> {
    let needed = draft.message().len() as u16;
    let size = if random.chance(roomy) {
        MOST_MEMORY
    } else {
        match random.below(6) {
            0 | 1 => needed,
            2 | 3 => needed - 1,
            4 => 0,
            _ => random.below(usize::from(MOST_MEMORY) + 1) as u16,
        }
    };
    draft.payload(size.min(MOST_MEMORY))
}

/// An item without a listed form; `sort` chooses which fault it has.
fn push_bad_end(script: &mut Vec<u8>, sort: u64, random: &mut Random) {
    let draft = Draft::usual(random);
    let good = draft.payload(MOST_MEMORY);
    match sort % 11 {
        0 => {
            let header = [b'R', 8, 0];
            script.extend_from_slice(&header[..1 + random.below(2)]);
        }
        1 => {
            push_item(script, b'P', &good);
            script.truncate(script.len() - 1 - random.below(good.len()));
        }
        2 => push_item(script, random.pick(b"ABkeZ\0\xff"), &draft.message()),
        3 => {
            let mut payload = good;
            payload[2..4].copy_from_slice(&random.pick(&OTHER_TYPES).to_le_bytes());
            push_item(script, b'P', &payload);
        }
        4 => {
            let mut payload = good;
            if random.chance(50) {
                payload.push(0);
            } else {
                payload.truncate(random.below(payload.len()));
            }
            push_item(script, b'P', &payload);
        }
        5 => push_item(script, b'E', &[0]),
        9 => {
            let mut payload = Draft::contrast(0, random).payload(MOST_MEMORY);
            payload[4..8].copy_from_slice(&no_setting(random).to_le_bytes());
            payload.truncate(random.pick(&[8, 9, 14]));
            push_item(script, b'P', &payload);
        }
        6 => push_item(script, b'T', &[0, 0]),
        7 => {
            let length = random.pick(&[0, 1, 3]);
            push_item(script, b'T', &[1, 0, 0][..length]);
        }
        8 => {
            let offset = random.pick(&[0x0001_0000, 0x0001_0001, u32::MAX]);
            let [a, b, c, d] = offset.to_le_bytes();
            let length = random.pick(&[4, 5, 5, 5, 6]);
            push_item(script, b'X', &[a, b, c, d, 1, 0][..length]);
        }
        _ => {
            let size = random.pick(&[MOST_MEMORY + 1, MOST_MEMORY + 2, 0x8000, 0xFFFF]);
            push_item(script, b'P', &draft.payload(size));
        }
    }
}
