//! Chunk items: messages cut into chunks, some of them spoiled, with emptyings and
//! calls that are lent too little strewn in.

use std::collections::VecDeque;

use super::draft::Draft;
use super::Random;
use crate::pdu::chunk::{flag, Head, LONGEST};
use crate::script::push_item;

/// Flags of the protocol that do not matter here, and one of no meaning.
const OTHER_FLAGS: [u32; 5] = [0x10, 0x20, 0x40, 0x0080_0000, 0x8000_0000];

/// Items planned and not yet in the script, in order.
#[derive(Default)]
pub struct Planner {
    planned: VecDeque<(u8, Vec<u8>)>,
}

impl Planner {
    /// Adds the next planned item to a script.
    pub fn push_next(&mut self, script: &mut Vec<u8>, random: &mut Random) {
        let (kind, payload) = match self.planned.pop_front() {
            Some(item) => item,
            None => {
                self.plan(random);
                self.planned.pop_front().expect("a plan has an item")
            }
        };
        push_item(script, kind, &payload);
    }

    /// Plans the chunks of a message.
    fn plan(&mut self, random: &mut Random) {
        let message = message(random);
        let mut chunks = cut(&message, random);
        if random.chance(45) {
            spoil(&mut chunks, random);
        }
        for chunk in chunks {
            self.stray(random);
            self.planned.push_back((b'K', chunk));
        }
    }

    /// Something beside the chunks, now and then.
    fn stray(&mut self, random: &mut Random) {
        let item = match random.below(60) {
            0 => (b'E', Vec::new()),
            1 | 2 => (b'T', missing(random)),
            // A change of no bit, and one that is taken back.
            3 => (b'X', fault(0, random)),
            4 => {
                let fault = change(random);
                self.planned.push_back((b'X', fault.clone()));
                (b'X', fault)
            }
            5 => {
                self.planned.push_back((b'X', change(random)));
                (b'E', Vec::new())
            }
            6 => {
                self.planned.push_back((b'T', missing(random)));
                (b'E', Vec::new())
            }
            _ => return,
        };
        self.planned.push_back(item);
    }
}

fn missing(random: &mut Random) -> Vec<u8> {
    let most: u16 = random.pick(&[1, 2, 4, 8, 9, 17_052, 17_059, 17_060, 17_061, 0xFFFF]);
    most.to_le_bytes().to_vec()
}

/// A change of some bits.
fn change(random: &mut Random) -> Vec<u8> {
    let bits = 1 + random.below(255) as u8;
    fault(bits, random)
}

fn fault(bits: u8, random: &mut Random) -> Vec<u8> {
    let offset = random.below(LONGEST) as u32;
    [&offset.to_le_bytes()[..], &[bits]].concat()
}

/// A message of 1 byte or more, good or not; long ones are rare.
fn message(random: &mut Random) -> Vec<u8> {
    let mut message = match random.below(200) {
        0 => Draft::execute([520, 520, 16_000], random).message(),
        1 => Draft::execute([520, 520, 15_999], random).message(),
        2 => Draft::execute([520, 520, 16_001], random).message(),
        3..=89 => Draft::usual(random).message(),
        90..=129 => Draft::at_edge(random).message(),
        130..=149 => super::misdeclared(random),
        150..=164 => super::unfilled(random),
        165..=174 => super::other_type(random),
        175..=184 => super::short(random),
        185..=188 => super::damaged(random),
        189..=190 => super::unknown_setting(random),
        191..=192 => super::other_outer(random),
        _ => super::noise(random),
    };
    if message.is_empty() {
        message.push(random.bits() as u8);
    }
    message
}

/// The chunks of a message, as one or more pieces, some of them empty.
fn cut(message: &[u8], random: &mut Random) -> Vec<Vec<u8>> {
    let count = random.pick(&[1, 1, 1, 2, 2, 3, 4, 7]);
    let mut ends: Vec<usize> = (1..count)
        .map(|_| match random.below(6) {
            0 => 0,
            1 => message.len(),
            _ => random.below(message.len() + 1),
        })
        .collect();
    ends.sort_unstable();
    ends.push(message.len());
    let last = ends.len() - 1;
    let mut from = 0;
    let mut chunks = Vec::new();
    for (index, &end) in ends.iter().enumerate() {
        let mut flags = if random.chance(30) {
            random.pick(&OTHER_FLAGS)
        } else {
            0
        };
        if index == 0 {
            flags |= flag::FIRST;
        }
        if index == last {
            flags |= flag::LAST;
        }
        let length = message.len();
        chunks.push(Head { length, flags }.with(&message[from..end]));
        from = end;
    }
    chunks
}

/// Makes the chunks of a message break a rule, or leaves them unfinished.
fn spoil(chunks: &mut Vec<Vec<u8>>, random: &mut Random) {
    let at = random.below(chunks.len());
    match random.below(13) {
        0 => chunks[at].truncate(random.below(8)),
        1 => {
            let length = random.below(8);
            chunks.insert(at, random.bytes(length));
        }
        2 => change_flags(&mut chunks[at], |flags| flags | flag::COMPRESSED),
        3 => change_flags(&mut chunks[at], |flags| flags ^ flag::FIRST),
        4 => change_flags(&mut chunks[at], |flags| flags ^ flag::LAST),
        5 => {
            let length = random.pick(&[0, 1, 17_051, 17_052, 17_053, 65_536, u32::MAX]);
            change_length(&mut chunks[at], |_| length);
        }
        6 => change_length(&mut chunks[at], |length| length.wrapping_add(1)),
        7 => change_length(&mut chunks[at], |length| length.wrapping_sub(1)),
        8 => {
            let length = 1 + random.below(3);
            chunks[at].extend(random.bytes(length));
        }
        9 if chunks[at].len() > 8 => {
            chunks[at].pop();
        }
        10 => chunks.truncate(at),
        11 => {
            chunks.remove(0);
        }
        _ => {
            let again = chunks[at].clone();
            chunks.insert(at, again);
        }
    }
    if chunks.is_empty() {
        let length = random.below(20);
        chunks.push(random.bytes(length));
    }
}

fn change_length(chunk: &mut [u8], change: impl Fn(u32) -> u32) {
    change_number(chunk, 0, change);
}

fn change_flags(chunk: &mut [u8], change: impl Fn(u32) -> u32) {
    change_number(chunk, 4, change);
}

fn change_number(chunk: &mut [u8], at: usize, change: impl Fn(u32) -> u32) {
    let number = &mut chunk[at..at + 4];
    let value = u32::from_le_bytes([number[0], number[1], number[2], number[3]]);
    number.copy_from_slice(&change(value).to_le_bytes());
}
