//! What is wrong with an input that is no script, for those who gave it.

use crate::script::parts::Parts;
use crate::script::{chunk, pdu as pdu_script, session as session_script, take_item, Item};

/// The first item of a script of state calls that is a bad one, in words.
pub fn session(script: &[u8], parts: &Parts) -> Option<String> {
    let text = first_bad(script, session_script::KINDS, |item| {
        session_script::call(item, parts).is_some()
    })?;
    let hint = if script.first() == Some(&0x2E) {
        ". It may be a raw update: second update-to-script makes a script of it"
    } else {
        ""
    };
    Some(text + hint)
}

/// The first item of a script of messages that is a bad one, in words.
pub fn pdu(script: &[u8]) -> Option<String> {
    let mut memory = vec![0; pdu_script::MEMORY_LIMIT];
    first_bad(script, pdu_script::KINDS, |item| {
        chunk::call(item).is_some()
            || pdu_script::answer(item, &mut memory) != pdu_script::Answer::BadItem
    })
}

fn first_bad(
    script: &[u8],
    kinds: &[u8],
    mut is_good: impl FnMut(Item<'_>) -> bool,
) -> Option<String> {
    let mut rest = script;
    for number in 1.. {
        let &kind = rest.first()?;
        let at = script.len() - rest.len();
        let why = match take_item(rest) {
            _ if !kinds.contains(&kind) => {
                let kinds: Vec<String> = kinds
                    .iter()
                    .map(|&kind| char::from(kind).to_string())
                    .collect();
                format!("{kind:02X} is no kind of item ({})", kinds.join(" "))
            }
            None => format!("item {} is cut", char::from(kind)),
            Some((item, _)) if !is_good(item) => {
                let (kind, length) = (char::from(kind), item.payload.len());
                format!("item {kind} cannot carry these {length} bytes")
            }
            Some((_, tail)) => {
                rest = tail;
                continue;
            }
        };
        return Some(format!("item {number}, at byte {at}: {why}"));
    }
    None
}
