//! The calls in the counter profile: `r` and `p`.

use super::limits::{kind_name, kind_of, KINDS};

/// The kinds that only a server sends.
const SERVER: [&str; 7] = [
    "HandshakeEx",
    "MoveSize",
    "MinMaxInfo",
    "ApplicationIdResponse",
    "ExecuteResult",
    "ScreenSaveActive",
    "ScreenSaveSecure",
];

/// The kind that both ends send.
const EITHER: &str = "Handshake";

/// Facts of their own: plain refusals before the profile's, names by their sort.
const SINGLE: [&str; 23] = [
    "r other 3",
    "r other 4",
    "r other 8",
    "r Execute 3",
    "r Execute 8",
    "r Activate 8",
    "r SystemCommand 8",
    "r MoveSize 8",
    "p ExecuteResult 8",
    "p ApplicationIdResponse 8",
    "p MoveSize 8",
    "p Execute name=short 21",
    "p Execute name=alone 21",
    "p Execute name=alone 14",
    "p Execute name=five 8",
    "p Execute name=byte0 21",
    "p Execute name=byte1 21",
    "p Execute name=byte2 21",
    "p Execute name=byte3 21",
    "p Execute name=twice 0",
    "p Execute name=zeros 0",
    "p Execute name=longer 0",
    "p Execute name=longer 14",
];

const PREFIX: [u8; 4] = [0x7C, 0, 0x7C, 0];

/// What a read of this message met.
pub fn read_facts(message: &[u8], number: u8) -> Vec<String> {
    let name = match message {
        [low, high, ..] => kind_name(kind_of(u16::from_le_bytes([*low, *high]), message)),
        _ => None,
    };
    vec![format!("r {} {number}", name.unwrap_or("other"))]
}

/// What a write of this payload met, whose message takes `needed` bytes.
pub fn write_facts(payload: &[u8], number: u8, needed: Option<usize>) -> Vec<String> {
    let word = |at: usize| u16::from_le_bytes([payload[at], payload[at + 1]]);
    let name = kind_name(kind_of(word(2), payload)).expect("an item with a listed type");
    let mut facts = vec![format!("p {name} {number}")];
    if let Some(needed) = needed {
        let spare = i64::from(word(0)) - needed as i64;
        if spare.abs() <= 1 {
            facts.push(format!("p {name} memory{spare:+} {number}"));
        }
    }
    if name == "Execute" {
        let program = &payload[12..12 + usize::from(word(6))];
        facts.extend(program_facts(word(4), program, number));
    }
    facts
}

fn program_facts(flags: u16, name: &[u8], number: u8) -> Vec<String> {
    let mut facts = Vec::new();
    let sort = sort_of(name);
    if sort == Some("longer".into()) && number != 14 {
        facts.push(format!("p Execute flags={flags} {number}"));
    }
    if let (Some(sort), 0 | 1 | 8 | 9) = (sort, flags) {
        facts.push(format!("p Execute name={sort} {number}"));
    }
    facts
}

/// How a name relates to the prefix, if it is near it.
fn sort_of(name: &[u8]) -> Option<String> {
    let Some((head, rest)) = name.split_first_chunk::<4>() else {
        return (name.len() == 2).then(|| "short".into());
    };
    let off: Vec<usize> = (0..4).filter(|&at| head[at] != PREFIX[at]).collect();
    match (off[..].as_ref(), rest) {
        ([], []) => Some("alone".into()),
        ([], [_]) => Some("five".into()),
        ([], [0, 0]) => Some("zeros".into()),
        ([], rest) if rest == PREFIX => Some("twice".into()),
        ([], rest) if rest.len() % 2 == 0 => Some("longer".into()),
        ([at], [_, _]) => Some(format!("byte{at}")),
        _ => None,
    }
}

/// All expected facts.
pub fn expected() -> Vec<String> {
    let mut facts: Vec<String> = SINGLE.map(String::from).to_vec();
    for (_, name) in KINDS {
        let by_server = SERVER.contains(&name);
        let read = if by_server || name == EITHER { 0 } else { 20 };
        let written = if by_server { 20 } else { 0 };
        facts.push(format!("r {name} {read}"));
        facts.push(format!("r {name} 7"));
        facts.push(format!("p {name} {written}"));
        facts.push(format!("p {name} memory+0 {written}"));
        facts.push(format!("p {name} memory-1 14"));
    }
    for flags in 0..=0x20 {
        let number = match flags {
            0x20 => 8,
            flags if flags & 6 == 2 => 8,
            flags if flags & 0x16 != 0 => 21,
            _ => 0,
        };
        facts.push(format!("p Execute flags={flags} {number}"));
    }
    facts
}
