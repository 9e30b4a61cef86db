//! What `Z` prints: the state memory and the places of the store, as hex.
//!
//! How a program lays out its state memory is its own affair, and the book here has none.
//! So a run prints the size alone, `Z 364847 bytes`, and before another program's output is
//! compared, each line of a `Z` in it is [`told`] in the same way: it must have just so many
//! bytes. What must not change from one such line to the next is looked at too.

use super::parts::Parts;
use super::session::{call, Call, Session};
use super::take_item;
use crate::hex;
use crate::table::PLACE_SIZE;

/// Adds what is printed in the place of memory of that size.
pub(super) fn push_size(line: &mut Vec<u8>, size: usize) {
    line.extend_from_slice(format!("Z {size} bytes\n").as_bytes());
}

/// The bytes of a line of `Z`, if it has the form of one.
pub fn memory(line: &[u8]) -> Option<Vec<u8>> {
    let digits = line.strip_prefix(b"Z ")?.strip_suffix(b"\n")?;
    let is_lowercase = |byte: &u8| matches!(byte, b'0'..=b'9' | b'a'..=b'f');
    digits
        .iter()
        .all(is_lowercase)
        .then(|| hex::bytes(digits).ok())?
}

/// The bytes of the last line of a `Z` in an output, if there is one.
pub fn last_memory(output: &[u8]) -> Option<Vec<u8>> {
    let mut lines = output.split_inclusive(|&byte| byte == b'\n');
    lines.rfind(|line| line.starts_with(b"Z ")).and_then(memory)
}

/// An output in which each line of a `Z` tells its size, as a run here prints it. Where a
/// byte is not as the `Z` before had it and nothing may have changed it since, the line
/// says so:
/// - any byte, if since then no order was granted or taken back, nothing was marked or
///   emptied, and no byte was changed by an item `X`;
/// - a byte of a place past those that emptying fixed, if the store was lent alike since
///   then and no item `X` changed it.
pub fn told(script: &[u8], parts: &Parts, printed: &[u8]) -> Vec<u8> {
    let mut told = Vec::new();
    let mut lines = printed.split_inclusive(|&byte| byte == b'\n');
    let mut watch = Watch::default();
    let mut session = Session::default();
    let mut rest = script;
    while let Some((item, tail)) = take_item(rest) {
        let Some(call) = call(item, parts) else { break };
        rest = tail;
        if call == Call::Dump {
            let Some(line) = lines.next() else { break };
            match memory(line) {
                Some(memory) => watch.push(&mut told, memory, parts),
                None => told.extend_from_slice(line),
            }
            continue;
        }
        let number = session.make(&call);
        watch.pass(&session, &call, number);
        if number.is_some() {
            told.extend_from_slice(lines.next().unwrap_or_default());
        }
    }
    lines.for_each(|line| told.extend_from_slice(line));
    told
}

/// What is known since the last `Z`.
#[derive(Default)]
struct Watch {
    /// What it printed, until the store is lent otherwise or changed by an item.
    memory: Option<Vec<u8>>,
    /// Whether memory may have changed since.
    may_differ: bool,
    /// The most places that a call could use since.
    places: usize,
}

impl Watch {
    /// A call was made, or passed that is none.
    fn pass(&mut self, session: &Session, call: &Call<'_>, number: Option<u8>) {
        self.may_differ |= match call {
            Call::Empty | Call::Deliver(_) | Call::Mark => number == Some(0),
            Call::StepBack(steps) => number == Some(0) && *steps > 0,
            Call::Update(..) => number != Some(1) && session.report().orders > 0,
            Call::Fault => true,
            _ => false,
        };
        self.places = self.places.max(session.book().places());
        if matches!(call, Call::Lend(_) | Call::FaultStore(..)) {
            self.memory = None;
        }
    }

    /// Tells a `Z`, which is the last one from now on.
    fn push(&mut self, told: &mut Vec<u8>, memory: Vec<u8>, parts: &Parts) {
        let kept_from = match self.may_differ {
            true => parts.size() + PLACE_SIZE * self.places,
            false => 0,
        };
        let size = memory.len();
        let earlier = self.memory.as_deref().unwrap_or(&memory);
        let differs = |&at: &usize| earlier.get(at) != memory.get(at);
        match (kept_from..size.max(earlier.len())).find(differs) {
            None => push_size(told, size),
            Some(at) => {
                let text = format!("Z {size} bytes, and byte {at} is not as it was\n");
                told.extend_from_slice(text.as_bytes());
            }
        }
        *self = Self {
            memory: Some(memory),
            may_differ: false,
            places: 0,
        };
    }
}
