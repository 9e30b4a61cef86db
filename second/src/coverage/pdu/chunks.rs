//! What generated scripts reach of chunks.

use super::limits::{kind_name, kind_of, KINDS};
use crate::pdu::chunk::{flag, Head, LONGEST};
use crate::script::chunk::{call, Call, Chunks, Outcome, MEASURE};
use crate::script::Item;

/// Calls on chunks, with the facts that they meet.
#[derive(Default)]
pub struct Watch {
    chunks: Chunks,
    /// Chunks that went into what is begun.
    so_far: usize,
}

impl Watch {
    /// Makes the call of an item and names what it meets; none if it is no item of
    /// chunks.
    pub fn facts(&mut self, item: Item<'_>) -> Option<Vec<String>> {
        let call = call(item)?;
        let short = self.chunks.is_short();
        let begun = self.chunks.assembly().unfinished().cloned();
        let outcome = self.chunks.make(call);
        Some(match call {
            Call::Shorten => {
                let missing = u32::from(u16::from_le_bytes([item.payload[0], item.payload[1]]));
                let what = if missing > MEASURE {
                    "more than all"
                } else {
                    "some"
                };
                vec![format!("T {what}")]
            }
            Call::Fault(_, bits) => {
                vec![format!("X {}", if bits == 0 { "no bit" } else { "bits" })]
            }
            Call::Empty => {
                let number = if short { 1 } else { 0 };
                let what = if begun.is_some() { "begun" } else { "nothing" };
                vec![format!("E {what} {number}")]
            }
            Call::Take(_) if short => vec!["K 1".into()],
            Call::Take(chunk) => {
                let begun = begun.map(|begun| (begun.promised, begun.pieces.len()));
                self.taken(chunk, begun, &outcome)
            }
        })
    }

    fn taken(
        &mut self,
        chunk: &[u8],
        begun: Option<(usize, usize)>,
        outcome: &Outcome,
    ) -> Vec<String> {
        let Some((head, piece)) = Head::split(chunk) else {
            let what = if begun.is_some() { "begun" } else { "nothing" };
            return vec![format!("K size={} 15", chunk.len()), format!("K {what} 15")];
        };
        let first = head.has(flag::FIRST);
        let place = match (first, head.has(flag::LAST)) {
            (true, true) => "only",
            (true, false) => "first",
            (false, true) => "last",
            (false, false) => "middle",
        };
        let mut facts = Vec::new();
        if first && begun.is_some() {
            facts.push("K afresh".into());
        }
        match outcome {
            Outcome::Number(16) => {
                let start = if first {
                    0
                } else {
                    begun.map_or(0, |(_, got)| got)
                };
                facts.extend(faults(
                    head,
                    piece.len() + start,
                    begun.map(|(total, _)| total),
                ));
                self.so_far = 0;
            }
            Outcome::Number(_) => {
                self.so_far = if first { 1 } else { self.so_far + 1 };
                facts.push(format!("K {place} awaits"));
                if piece.is_empty() {
                    facts.push(format!("K {place} empty"));
                }
                let got = self
                    .chunks
                    .assembly()
                    .unfinished()
                    .map(|begun| begun.pieces.len());
                if got == Some(head.length) {
                    facts.push("K all before the last".into());
                }
            }
            Outcome::Message(message) => {
                let count = if first { 1 } else { self.so_far + 1 };
                self.so_far = 0;
                let number = crate::pdu::read(message).err().unwrap_or(0);
                let pieces = if count == 1 { "one" } else { "some" };
                facts.push(format!("K {pieces} {number}"));
                if piece.is_empty() {
                    facts.push(format!("K {place} empty"));
                }
                if number == 0 {
                    let kind = u16::from_le_bytes([message[0], message[1]]);
                    let name = kind_name(kind_of(kind, message));
                    facts.push(format!("K {} {pieces}", name.expect("a known kind")));
                }
                if message.len() == LONGEST {
                    facts.push(format!("K size={LONGEST} {number}"));
                }
            }
            Outcome::Silent | Outcome::Unknown => {}
        }
        if head.flags & !(flag::FIRST | flag::LAST | flag::COMPRESSED) != 0 {
            facts.push("K other flags".into());
        }
        facts
    }
}

/// Each condition of 16 that holds, where it is the only one.
fn faults(head: Head, reached: usize, begun: Option<usize>) -> Vec<String> {
    let later = !head.has(flag::FIRST);
    let conditions = [
        ("compressed", head.has(flag::COMPRESSED)),
        ("nothing begun", later && begun.is_none()),
        ("length=0", head.length == 0),
        ("length over", head.length > LONGEST),
        (
            "other length",
            later && begun.is_some_and(|total| total != head.length),
        ),
        ("past", reached > head.length),
        ("short", head.has(flag::LAST) && reached < head.length),
    ];
    let held: Vec<&str> = conditions
        .iter()
        .filter(|(_, holds)| *holds)
        .map(|(name, _)| *name)
        .collect();
    let mut facts: Vec<String> = match held[..] {
        [only] => vec![format!("K {only} 16")],
        _ => Vec::new(),
    };
    if head.length == LONGEST + 1 {
        facts.push(format!("K length={} 16", LONGEST + 1));
    }
    facts
}

/// The facts that have to be met.
pub fn expected() -> Vec<String> {
    let mut facts: Vec<String> = [
        "E begun 0",
        "E nothing 0",
        "E begun 1",
        "T some",
        "T more than all",
        "X no bit",
        "X bits",
        "K 1",
        "K begun 15",
        "K nothing 15",
        "K afresh",
        "K other flags",
        "K first awaits",
        "K middle awaits",
        "K first empty",
        "K middle empty",
        "K last empty",
        "K all before the last",
        "K size=17052 0",
        "K compressed 16",
        "K nothing begun 16",
        "K length=0 16",
        "K length over 16",
        "K length=17053 16",
        "K other length 16",
        "K past 16",
        "K short 16",
    ]
    .map(String::from)
    .into();
    facts.extend((0..8).map(|size| format!("K size={size} 15")));
    for pieces in ["one", "some"] {
        facts.extend([0, 2, 3, 4, 7, 8].map(|number| format!("K {pieces} {number}")));
        facts.extend(KINDS.map(|(_, name)| format!("K {name} {pieces}")));
    }
    facts
}
