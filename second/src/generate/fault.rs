//! Scripts with faults in the state memory, at times in its figures alone, and in the store:
//! those of state calls with `X` items strewn in, then the store as it is lent at first, an emptying, and calls
//! without faults.

use super::random::Random;
use super::session;
use crate::memory::figures::SHOWN_AT;
use crate::script::parts::{Parts, StoreLengths, FIRST_LENGTHS, STORE_PARTS};
use crate::script::session::{call, Call, Session};
use crate::script::{push_item, take_item, Item};
use crate::table::PLACE_SIZE;

/// One item in this many is followed by a fault.
const FAULT_EVERY: usize = 10;
/// In so many of a hundred cases faults are in the store alone up to the next emptying, and
/// in so many in the figures alone.
const STORE_ALONE: usize = 35;
const FIGURES_ALONE: usize = 20;
/// Of the other faults so many of a hundred are in the store.
const IN_STORE: usize = 15;
/// Faults that are aimed stand below this offset, where the memory is in use.
const AIMED_BELOW: usize = 500;
/// Sets the numbers drawn here apart from those that made the calls.
const APART: u64 = 0x5851_F42D_4C95_7F2D;

/// A script with faults.
#[derive(Clone, Debug, PartialEq, Eq)]
pub struct Faulty {
    /// The script.
    pub script: Vec<u8>,
    /// Where in it the last part begins, whose first items are `L` and the emptying.
    pub last_part: usize,
}

/// The script of a seed: its state calls with faults strewn in, the store as it is at
/// first, an emptying, and the state calls of the next seed. No item of it is bad.
pub fn script(seed: u64, items: usize, parts: &Parts) -> Faulty {
    let mut strewer = Strewer {
        random: Random::new(seed ^ APART),
        parts,
        standing: Vec::new(),
    };
    let mut script = Vec::new();
    let mut session = Session::default();
    let mut aim = strewer.aim();
    let calls = session::script(seed, items, parts);
    for (item, call) in good_items(&calls, parts) {
        push_item(&mut script, item.kind, item.payload);
        let number = session.make(&call);
        if call == Call::Empty && number == Some(0) {
            strewer.standing.clear();
            aim = strewer.aim();
        }
        if strewer.random.below(FAULT_EVERY) == 0 {
            if let Some(fault) = strewer.fault(aim, &session.lengths()) {
                push_item(&mut script, b'X', &fault);
            }
        }
    }
    let last_part = script.len();
    push_item(
        &mut script,
        b'L',
        &FIRST_LENGTHS.map(u32::to_le_bytes).concat(),
    );
    push_item(&mut script, b'E', &[]);
    let calls = session::script(seed.wrapping_add(1), items, parts);
    for (item, _) in good_items(&calls, parts) {
        push_item(&mut script, item.kind, item.payload);
    }
    Faulty { script, last_part }
}

/// The items of a script up to a bad one, less a last `T` that still waits for its
/// call, which would make the call after them too short.
fn good_items<'a>(script: &'a [u8], parts: &Parts) -> Vec<(Item<'a>, Call<'a>)> {
    let mut items = Vec::new();
    let mut rest = script;
    while let Some((item, tail)) = take_item(rest) {
        let Some(call) = call(item, parts) else { break };
        items.push((item, call));
        rest = tail;
    }
    let is_waiting = |items: &[(Item<'_>, Call<'_>)]| {
        let mut last = items.iter().rev().map(|&(_, call)| call);
        let call =
            last.find(|call| !matches!(call, Call::ReadRecord(_) | Call::Lend(_) | Call::Dump));
        matches!(call, Some(Call::Shorten | Call::ShortenStore(..)))
    };
    while is_waiting(&items) {
        items.pop();
    }
    items
}

/// Where faults are, up to the next emptying.
#[derive(Clone, Copy, PartialEq, Eq)]
enum Aim {
    Any,
    Store,
    Figures,
}

struct Strewer<'a> {
    random: Random,
    parts: &'a Parts,
    /// Faults made and not taken back.
    standing: Vec<[u8; 6]>,
}

impl Strewer<'_> {
    fn aim(&mut self) -> Aim {
        match self.random.below(100) {
            n if n < STORE_ALONE => Aim::Store,
            n if n < STORE_ALONE + FIGURES_ALONE => Aim::Figures,
            _ => Aim::Any,
        }
    }

    /// A fault, or the last one again, which takes it back. The store has these lengths;
    /// a byte past them is left alone, as is all where a fault in the store is due and
    /// none of it is lent.
    fn fault(&mut self, aim: Aim, lengths: &StoreLengths) -> Option<[u8; 6]> {
        if self.random.chance(50) {
            let parts = self.parts;
            let again = self.standing.pop_if(|fault| is_lent(fault, parts, lengths));
            if again.is_some() {
                return again;
            }
        }
        let fault = match aim {
            Aim::Store => self.store_fault(lengths)?,
            Aim::Figures => self.figure_fault()?,
            Aim::Any if self.random.chance(IN_STORE) => self.store_fault(lengths)?,
            Aim::Any => self.new_fault(),
        };
        self.standing.push(fault);
        Some(fault)
    }

    /// A fault in the store as it is lent, most of them at the beginning of a place.
    fn store_fault(&mut self, lengths: &StoreLengths) -> Option<[u8; 6]> {
        let lent: Vec<usize> = (0..STORE_PARTS).filter(|&part| lengths[part] > 0).collect();
        if lent.is_empty() {
            return None;
        }
        let part = self.random.pick(&lent);
        let length = lengths[part] as usize;
        let offset = match self.random.chance(60) {
            true => self.random.below(length / PLACE_SIZE + 1) * PLACE_SIZE + self.random.below(40),
            false => self.random.below(length),
        };
        let part = self.parts.first_of_store() + part as u8;
        Some(self.item(part, offset.min(length - 1)))
    }

    /// A fault in the figures, half of them in those of all windows; none where the parts
    /// are not the ones of which it is known where they stand.
    fn figure_fault(&mut self) -> Option<[u8; 6]> {
        let figures = self.parts.figures()?;
        let totals = figures.start as usize + SHOWN_AT;
        let from = match self.random.chance(50) {
            true => totals,
            false => figures.start as usize,
        };
        let offset = from + self.random.below(figures.end as usize - from);
        Some(self.item(0, offset))
    }

    /// Half of them are aimed at the beginning of the first or the last part.
    fn new_fault(&mut self) -> [u8; 6] {
        let lengths = self.parts.lengths();
        let last = lengths.len() - 1;
        let aimed = self.random.chance(50);
        let part = if aimed {
            self.random.pick(&[0, last])
        } else {
            self.random.below(lengths.len())
        };
        let length = lengths[part] as usize;
        let offset = self.random.below(if aimed {
            length.min(AIMED_BELOW)
        } else {
            length
        });
        self.item(part as u8, offset)
    }

    fn item(&mut self, part: u8, offset: usize) -> [u8; 6] {
        let value = 1 + self.random.below(255);
        let [a, b, c, d] = (offset as u32).to_le_bytes();
        [part, a, b, c, d, value as u8]
    }
}

/// Whether a fault is in state memory, or in the store as it is lent.
fn is_lent(&[part, a, b, c, d, _]: &[u8; 6], parts: &Parts, lengths: &StoreLengths) -> bool {
    let part = part.checked_sub(parts.first_of_store());
    let length = part.map(|part| lengths[usize::from(part)]);
    length.is_none_or(|length| u32::from_le_bytes([a, b, c, d]) < length)
}
