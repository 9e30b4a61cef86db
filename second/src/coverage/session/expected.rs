//! The facts that generated scripts of state calls have to meet.

use super::{figures, of_stores};
use crate::coverage::order::expected as order;

/// The calls with the numbers that each can meet.
const CALLS: [(char, &[u8]); 13] = [
    ('E', &[0, 1]),
    ('D', &[0, 1, 2, 3, 4, 5, 6, 7, 8, 9, 10, 11, 12, 17]),
    ('U', &[0, 1, 2, 3, 4, 5, 6, 7, 8, 9, 10, 11, 12, 17]),
    ('M', &[0, 1]),
    ('B', &[0, 1, 13]),
    ('W', &[0, 1, 9]),
    ('N', &[0, 1, 9]),
    ('C', &[0, 1, 9]),
    ('S', &[0, 1]),
    ('O', &[0, 1, 14]),
    ('V', &[0, 18, 19]),
    ('I', &[0, 1]),
    ('H', &[0, 1, 9]),
];

/// The sorts of orders that pass the room of the history.
const PASSING: [&str; 14] = [
    "new window",
    "update window",
    "delete window",
    "small icon",
    "big icon",
    "overlay icon",
    "small cached icon",
    "big cached icon",
    "overlay cached icon",
    "new notification",
    "update notification",
    "update notification with icon",
    "delete notification",
    "desktop",
];

/// Facts of their own.
const SINGLE: [&str; 31] = [
    "D orders=128 0",
    "D orders=129 12",
    "D bytes=32768 0",
    "D bytes=32769 12",
    "B none 0",
    "B some 0",
    "B all 0",
    "B one too many 13",
    "B restores windows",
    "B restores icons",
    "B restores cells",
    "B restores desktop",
    "U limit 0",
    "U limit 1 reached",
    "U limit reached, more left",
    "U limit reached, none left",
    "U limit not reached",
    "U no bytes",
    "U refused first",
    "U refused after others",
    "U over 64 orders granted",
    "U size missing",
    "U size under 7",
    "U size past the end",
    "U orders granted, and 12",
    "I no windows",
    "I some windows",
    "I 32 windows",
    "I no icons",
    "I some icons",
    "I 16 icons",
];

/// The offsets of a window, and the numbers that each has to be looked up with.
pub const OFFSETS: [&str; 4] = ["client", "offset", "delta", "visible"];
pub const FAR: [i32; 4] = [i32::MIN, i32::MAX, -1, -100];

/// Facts of session records.
const RECORDS: [&str; 20] = [
    "O exact 0",
    "O one short 14",
    "O short 14",
    "O more 0",
    "V no count 18",
    "V no contents 18",
    "V count=0 0",
    "V count=1 0",
    "V count=127 0",
    "V count=128 0",
    "V count=129 19",
    "V count=129 18",
    "V count=65535 18",
    "V bytes=0 0",
    "V bytes=32768 0",
    "V bytes=32769 19",
    "V past the end 18",
    "V wraps 18",
    "V misplaced 19",
    "V left over 19",
];

/// All expected facts.
pub fn facts() -> Vec<String> {
    let mut facts = order::calls(&CALLS);
    facts.extend(order::facts());
    facts.extend(PASSING.map(|sort| format!("D {sort} 12")));
    facts.extend(SINGLE.map(String::from));
    for name in OFFSETS {
        for far in FAR {
            facts.extend(["x", "y"].map(|axis| format!("W {name} {axis}={far} 0")));
        }
    }

    facts.extend(RECORDS.map(String::from));
    facts.extend(figures::FACTS.map(String::from));
    facts.extend(of_stores::facts());
    facts
}
