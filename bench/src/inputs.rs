//! The benchmark messages: each kind, the sizes of interest, some refused ones.

use second::hex;

use crate::call::{Job, Words, PLAIN, ROOM};

/// A message with what reading it answers.
pub struct Input {
    /// For the command line.
    pub name: &'static str,
    /// For the tables.
    pub label: &'static str,
    pub message: Vec<u8>,
    pub answer: u32,
}

/// Kinds of fixed size.
const FIXED: [(&str, &str, &str); 14] = [
    ("activate", "Activate", "0200 0900 58000100 01"),
    (
        "system-command",
        "System Command",
        "0400 0A00 58000100 20F0",
    ),
    ("handshake", "Handshake", "0500 0800 B11D0000"),
    (
        "notify-event",
        "Notify Event",
        "0600 1000 58000100 07000000 02020000",
    ),
    (
        "window-move",
        "Window Move",
        "0800 1000 58000100 6400 3200 8403 5802",
    ),
    (
        "move-size",
        "Move/Size",
        "0900 1000 58000100 0100 0900 6400 3200",
    ),
    (
        "min-max-info",
        "Min Max Info",
        "0A00 1800 58000100 8007 3804 0000 0000 8800 2700 8C07 4404",
    ),
    (
        "client-information",
        "Client Information",
        "0B00 0800 01000000",
    ),
    ("system-menu", "System Menu", "0C00 0C00 58000100 6400 3200"),
    (
        "get-application-id",
        "Get Application ID",
        "0E00 0800 58000100",
    ),
    ("handshake-ex", "HandshakeEx", "1300 0C00 B11D0000 01000000"),
    (
        "drag-full-windows",
        "System Parameters, drag full windows",
        "0300 0900 25000000 01",
    ),
    (
        "screen-save-secure",
        "System Parameters, screen saver secure",
        "0300 0900 77000000 01",
    ),
    (
        "work-area",
        "System Parameters, work area",
        "0300 1000 2F000000 0000 0000 8007 1004",
    ),
];

/// Messages that reading refuses, with the number.
const REFUSED: [(&str, &str, &str, u32); 4] = [
    ("refused-no-bytes", "Refused: no bytes", "", 2),
    (
        "refused-length",
        "Refused: wrong length",
        "0500 0800 B11D00",
        3,
    ),
    (
        "refused-enabled",
        "Refused: Enabled 2",
        "0200 0900 58000100 02",
        8,
    ),
    (
        "refused-setting",
        "Refused: setting 99",
        "0300 0900 99000000 01",
        8,
    ),
];

/// All of them, in the tables' order.
pub fn all() -> Vec<Input> {
    let mut inputs = executes();
    inputs.extend(FIXED.map(|(name, label, text)| from_hex(name, label, text, 0)));
    inputs.push(granted(
        "application-id-response",
        "Application ID Response",
        application_id_response(),
    ));
    inputs.extend(execute_results());
    inputs.push(granted(
        "high-contrast",
        "System Parameters, high contrast",
        high_contrast(38),
    ));
    inputs.extend(REFUSED.map(|(name, label, text, number)| from_hex(name, label, text, number)));
    inputs
}

/// Words to be written, with the strings they tell of and the output memory lent.
pub struct Output {
    /// For the command line.
    pub name: &'static str,
    /// For the tables.
    pub label: &'static str,
    pub words: Words,
    pub strings: Vec<u8>,
    pub room: usize,
    pub answer: u32,
}

impl Input {
    pub fn job(&self) -> Job<'_> {
        Job::Read(&self.message)
    }
}

impl Output {
    pub fn job(&self) -> Job<'_> {
        Job::Write(&self.words, &self.strings, self.room)
    }

    /// Bytes of the message.
    pub fn size(&self) -> usize {
        (self.answer >> 16) as usize
    }
}

/// The words of each message that reading grants, and some that writing refuses.
pub fn outputs() -> Vec<Output> {
    let mut outputs: Vec<Output> = all()
        .into_iter()
        .filter(|input| input.answer == 0)
        .map(|input| {
            let mut words = [0; 12];
            assert_eq!(PLAIN.read(&input.message, &mut words), 0, "granted");
            Output {
                name: input.name,
                label: input.label,
                words,
                answer: (input.message.len() as u32) << 16,
                strings: input.message,
                room: ROOM,
            }
        })
        .collect();
    let refused = |name, label, words, room, answer| Output {
        name,
        label,
        words,
        strings: Vec::new(),
        room,
        answer,
    };
    let activate = |enabled| [2, 0x1_0058, enabled, 0, 0, 0, 0, 0, 0, 0, 0, 0];
    outputs.push(refused(
        "refused-enabled",
        "Refused: Enabled 2",
        activate(2),
        ROOM,
        8,
    ));
    outputs.push(refused(
        "refused-room",
        "Refused: no room",
        activate(1),
        8,
        14,
    ));
    outputs
}

fn executes() -> Vec<Input> {
    [
        ("execute-shortest", "Execute, shortest", [2, 0, 0]),
        ("execute-small", "Execute, small", [40, 24, 60]),
        ("execute-largest", "Execute, largest", [520, 520, 16_000]),
    ]
    .map(|(name, label, lengths)| granted(name, label, execute(lengths)))
    .into()
}

fn execute_results() -> Vec<Input> {
    [
        ("execute-result", "Execute Result, 23 bytes", 23),
        ("execute-result-largest", "Execute Result, 520 bytes", 520),
    ]
    .map(|(name, label, length)| granted(name, label, execute_result(length)))
    .into()
}

fn granted(name: &'static str, label: &'static str, message: Vec<u8>) -> Input {
    Input {
        name,
        label,
        message,
        answer: 0,
    }
}

fn from_hex(name: &'static str, label: &'static str, text: &str, answer: u32) -> Input {
    Input {
        name,
        label,
        message: hex::bytes(text.as_bytes()).expect("the text is hex"),
        answer,
    }
}

/// Flags 0004 (expand the directory), then strings of these lengths.
fn execute(lengths: [usize; 3]) -> Vec<u8> {
    let mut body = vec![0x04, 0x00];
    for length in lengths {
        body.extend_from_slice(&(length as u16).to_le_bytes());
    }
    for length in lengths {
        body.extend(string(length));
    }
    with_header(0x0001, &body)
}

/// A failed launch: result 3, a raw result, and a string of this length.
fn execute_result(length: usize) -> Vec<u8> {
    let mut body = vec![0x04, 0x00, 0x03, 0x00, 0x02, 0x00, 0x00, 0x00, 0x00, 0x00];
    body.extend_from_slice(&(length as u16).to_le_bytes());
    body.extend(string(length));
    with_header(0x0080, &body)
}

/// Flags, and a color scheme of this length.
fn high_contrast(length: usize) -> Vec<u8> {
    let mut body = vec![0x43, 0, 0, 0, 0x7E, 0, 0, 0];
    body.extend_from_slice(&(length as u32 + 2).to_le_bytes());
    body.extend_from_slice(&(length as u16).to_le_bytes());
    body.extend(string(length));
    with_header(0x0003, &body)
}

fn application_id_response() -> Vec<u8> {
    let mut body = vec![0x58, 0x00, 0x01, 0x00];
    body.extend(string(520));
    with_header(0x000F, &body)
}

fn with_header(kind: u16, body: &[u8]) -> Vec<u8> {
    let mut message = kind.to_le_bytes().to_vec();
    message.extend_from_slice(&(4 + body.len() as u16).to_le_bytes());
    message.extend_from_slice(body);
    message
}

/// Letters of 2 bytes each, the last cut if the length is odd.
fn string(length: usize) -> impl Iterator<Item = u8> {
    (b'a'..=b'z')
        .cycle()
        .flat_map(|letter| [letter, 0])
        .take(length)
}
