//! The facts that generated scripts have to meet.

use super::limits::{KINDS, LIMITS};

/// The types of the documents that have no kind here.
pub const ABSENT: [u16; 2] = [0x0007, 0x000D];

/// Kinds that can meet 8 on reading; on writing one more can.
const RULED: [&str; 6] = [
    "HighContrast",
    "Execute",
    "Activate",
    "SystemCommand",
    "MoveSize",
    "ExecuteResult",
];

/// Facts of their own.
const SINGLE: [&str; 15] = [
    "R HighContrast outer+0 0",
    "R HighContrast outer-1 7",
    "R HighContrast outer+1 7",
    "R HighContrast outer-2 7",
    "R HighContrast outer+65536 7",
    "R HighContrast outer=FFFFFFFF 7",
    "R HighContrast outer=0 7",
    "R HighContrast outer other, too long 7",
    "R setting wider than 16 bits 8",
    "R other 3",
    "R other 4",
    "R Execute fields+65536 7",
    "R Execute size=17052 0",
    "P Execute size=17052 0",
    "P Execute size=17052 14",
];

/// All expected facts.
pub fn facts() -> Vec<String> {
    let mut facts = Vec::new();
    for size in 0..=3 {
        facts.push(format!("R size={size} 2"));
    }
    for number in [3, 4, 7] {
        facts.push(format!("R size=4 {number}"));
    }
    for size in 4..=12 {
        let number = if size < 8 { 7 } else { 8 };
        facts.push(format!("R unknown setting size={size} {number}"));
    }
    facts.extend(ABSENT.iter().map(|kind| format!("R {kind:04X} 4")));
    facts.extend(SINGLE.map(String::from));
    for (_, name) in KINDS {
        facts.extend(every_kind(name));
    }
    for name in RULED {
        facts.push(format!("R {name} 8"));
    }
    for name in RULED.into_iter().chain(["ApplicationIdResponse"]) {
        facts.push(format!("P {name} 8"));
        facts.push(format!("P {name} memory=0 8"));
    }
    facts.extend(limit_facts());
    facts.extend(super::chunks::expected());
    facts.extend(super::counter::expected());
    facts
}

fn every_kind(name: &str) -> Vec<String> {
    [
        "R _ 0",
        "R _ 3",
        "R _ declared+1 3",
        "R _ declared-1 3",
        "R _ 7",
        "R _ fields+1 7",
        "R _ fields-1 7",
        "P _ 0",
        "P _ memory+0 0",
        "P _ memory=17408 0",
        "P _ 14",
        "P _ memory-1 14",
        "P _ memory=0 14",
    ]
    .iter()
    .map(|fact| fact.replace('_', name))
    .collect()
}

/// Each number at a limit, granted or refused as the rules say.
fn limit_facts() -> Vec<String> {
    let mut facts = Vec::new();
    for limit in &LIMITS {
        for call in ['R', 'P'] {
            if limit.place(call).is_none() {
                continue;
            }
            for &value in limit.values {
                let number = if (limit.allows)(value) { 0 } else { 8 };
                facts.push(limit.fact(call, value, number));
            }
        }
    }
    facts
}
