//! What generated scripts of control messages reach.

mod chunks;
mod counter;
mod expected;
mod limits;

use super::Facts;
use crate::generate;
use crate::script::pdu::{answer, Answer, MEMORY_LIMIT};
use crate::script::{take_item, Item};
use limits::{kind_name, kind_of, size_by_fields, Kind, HIGH_CONTRAST, LIMITS};

/// The size of the longest message that the rules allow.
const LARGEST: usize = 17_052;

/// Runs the generated scripts of the seeds `from` to `to`. A fact is a text such
/// as `R Execute 0` (call, kind, number) or `P Activate enabled=2 8` (with the
/// field at a limit).
pub fn of_seeds(from: u64, to: u64, items: usize) -> Facts {
    let mut coverage = Coverage {
        facts: Facts::expecting(expected::facts()),
    };
    for seed in from..=to {
        coverage.add_script(&generate::pdu::script(seed, items));
    }
    coverage.facts
}

struct Coverage {
    facts: Facts,
}

impl Coverage {
    fn add_script(&mut self, script: &[u8]) {
        let mut watch = chunks::Watch::default();
        let mut rest = script;
        while !rest.is_empty() {
            let Some((item, tail)) = take_item(rest) else {
                self.add("cut item: bad item".into());
                return;
            };
            match watch.facts(item) {
                Some(facts) => self.add_all(facts),
                None => self.add_item(item),
            }
            rest = tail;
        }
    }

    fn add_item(&mut self, item: Item<'_>) {
        let mut memory = [0; MEMORY_LIMIT];
        let payload = item.payload;
        match answer(item, &mut memory) {
            Answer::Read(result) if item.kind == b'r' => {
                self.add_all(counter::read_facts(payload, result.err().unwrap_or(0)));
            }
            Answer::Read(result) => self.add_read(payload, result.err().unwrap_or(0)),
            Answer::Written(result) if item.kind == b'p' => {
                let number = result.err().unwrap_or(0);
                self.add_all(counter::write_facts(payload, number, needed(payload)));
            }
            Answer::Written(result) => self.add_write(item, result.map(<[u8]>::len)),
            Answer::BadItem => self.add(format!("{}: bad item", item.kind.escape_ascii())),
            Answer::MemoryChanged => self.add("output memory changed".into()),
        }
    }

    fn add_read(&mut self, message: &[u8], number: u8) {
        if message.len() <= 4 {
            self.add(format!("R size={} {number}", message.len()));
        }
        if message.len() < 4 {
            return self.add(format!("R - {number}"));
        }
        let kind = u16::from_le_bytes([message[0], message[1]]);
        let declared = i64::from(u16::from_le_bytes([message[2], message[3]]));
        let place = kind_of(kind, message);
        let Some(name) = kind_name(place) else {
            if kind == 0x0003 && number > 4 {
                self.add(format!("R unknown setting size={} {number}", message.len()));
            }
            if matches!(place, Kind::Setting(setting) if kind_name(Kind::Setting(setting & 0xFFFF)).is_some())
            {
                self.add(format!("R setting wider than 16 bits {number}"));
            }
            if expected::ABSENT.contains(&kind) {
                self.add(format!("R {kind:04X} {number}"));
            }
            return self.add(format!("R other {number}"));
        };
        self.add(format!("R {name} {number}"));
        if message.len() >= LARGEST {
            self.add(format!("R {name} size={} {number}", message.len()));
        }
        if place == HIGH_CONTRAST && number != 3 {
            self.add_outer(message, number);
        }
        match number {
            3 => self.add_offset("R", name, "declared", declared - message.len() as i64, 3),
            7 => match size_by_fields(message) {
                Some(size) => self.add_offset("R", name, "fields", size - declared, 7),
                None => self.add(format!("R {name} head cut 7")),
            },
            _ => self.add_limits('R', place, message, number),
        }
    }

    fn add_write(&mut self, item: Item<'_>, result: Result<usize, u8>) {
        let payload = item.payload;
        let size = usize::from(u16::from_le_bytes([payload[0], payload[1]]));
        let kind = u16::from_le_bytes([payload[2], payload[3]]);
        let kind = kind_of(kind, payload);
        let name = kind_name(kind).expect("an item with a listed type");
        let number = result.err().unwrap_or(0);
        self.add(format!("P {name} {number}"));
        self.add_limits('P', kind, payload, number);
        if size == 0 || size == MEMORY_LIMIT {
            self.add(format!("P {name} memory={size} {number}"));
        }
        if let Some(needed) = needed(payload) {
            if needed == LARGEST {
                self.add(format!("P {name} size={needed} {number}"));
            }
            self.add_offset("P", name, "memory", size as i64 - needed as i64, number);
        }
    }

    /// Facts about each limited field, if all other fields are allowed.
    fn add_limits(&mut self, call: char, kind: Kind, bytes: &[u8], number: u8) {
        let fields: Vec<_> = LIMITS
            .iter()
            .filter(|limit| limit.kind == kind)
            .filter_map(|limit| limit.value(call, bytes).map(|value| (limit, value)))
            .collect();
        for (limit, value) in &fields {
            let others_allowed = fields
                .iter()
                .all(|(other, value)| other.name == limit.name || (other.allows)(*value));
            if others_allowed {
                self.add(limit.fact(call, *value, number));
            }
        }
    }

    /// Facts about the outer length of high contrast whose string fills the message.
    fn add_outer(&mut self, message: &[u8], number: u8) {
        let (Some(&[a, b, c, d, low, high]), Some(size)) =
            (message.get(12..18), size_by_fields(message))
        else {
            return;
        };
        if size != message.len() as i64 {
            return;
        }
        let outer = i64::from(u32::from_le_bytes([a, b, c, d]));
        let length = i64::from(u16::from_le_bytes([low, high]));
        let offset = outer - length - 2;
        if offset.abs() <= 2 || offset == 0x1_0000 {
            self.add(format!("R HighContrast outer{offset:+} {number}"));
        }
        if outer == 0 || outer == 0xFFFF_FFFF {
            self.add(format!("R HighContrast outer={outer:X} {number}"));
        }
        if offset != 0 && length > 520 {
            self.add(format!("R HighContrast outer other, too long {number}"));
        }
    }

    /// A fact about a number that is exact, one off or off by all of 16 bits.
    fn add_offset(&mut self, call: &str, name: &str, what: &str, offset: i64, number: u8) {
        if offset.abs() <= 1 || offset == 0x1_0000 {
            self.add(format!("{call} {name} {what}{offset:+} {number}"));
        }
    }

    fn add_all(&mut self, facts: Vec<String>) {
        facts.into_iter().for_each(|fact| self.add(fact));
    }

    fn add(&mut self, fact: String) {
        self.facts.add(fact);
    }
}

/// The bytes that the message of an item `P` or `p` takes, if its record is allowed.
fn needed(payload: &[u8]) -> Option<usize> {
    let mut roomy = payload.to_vec();
    roomy[..2].copy_from_slice(&(MEMORY_LIMIT as u16).to_le_bytes());
    let item = Item {
        kind: b'P',
        payload: &roomy,
    };
    let mut memory = [0; MEMORY_LIMIT];
    match answer(item, &mut memory) {
        Answer::Written(Ok(bytes)) => Some(bytes.len()),
        _ => None,
    }
}
