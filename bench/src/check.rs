//! Compares the two sides' answers, words and bytes.

use second::generate;
use second::script::take_item;

use crate::call::{Side, Words, PLAIN, PROVED, ROOM};
use crate::inputs;

/// Generated scripts and the items of each, about half of them messages to read.
const SCRIPTS: u64 = 8;
const ITEMS: usize = 2_000;

/// What output memory holds before a call.
const FILL: u8 = 0xEE;
const FILL_WORDS: Words = [0xEEEE_EEEE; 12];

/// Checks the benchmark messages and the generated ones; prints their number.
pub fn run() -> Result<(), String> {
    let mut checker = Checker::new();
    let inputs = inputs::all();
    for input in &inputs {
        let answer = checker.compare(&input.message)?;
        if answer != input.answer {
            let expected = input.answer;
            return Err(format!("{}: answer {answer}, not {expected}", input.name));
        }
    }
    for output in &inputs::outputs() {
        let answer = checker.compare_write(&output.words, &output.strings, output.room)?;
        if answer != output.answer {
            let expected = output.answer;
            return Err(format!(
                "{}: answer {answer:#x}, not {expected:#x}",
                output.name
            ));
        }
    }
    for seed in 0..SCRIPTS {
        checker.compare_script(&generate::pdu::script(seed, ITEMS))?;
    }
    println!(
        "check: both sides give the same on {} messages ({} of the benchmark, {} granted), in {} calls each",
        checker.messages,
        inputs.len(),
        checker.granted,
        checker.calls,
    );
    Ok(())
}

/// Compares message by message, and counts.
struct Checker {
    memory: [Vec<u8>; 2],
    messages: u64,
    granted: u64,
    calls: u64,
}

impl Checker {
    fn new() -> Self {
        Self {
            memory: [vec![FILL; ROOM], vec![FILL; ROOM]],
            messages: 0,
            granted: 0,
            calls: 0,
        }
    }

    fn compare_script(&mut self, script: &[u8]) -> Result<(), String> {
        let mut rest = script;
        while let Some((item, tail)) = take_item(rest) {
            if item.kind == b'R' {
                self.compare(item.payload)?;
            }
            rest = tail;
        }
        Ok(())
    }

    /// Both jobs on one message; what reading answers.
    fn compare(&mut self, message: &[u8]) -> Result<u32, String> {
        self.messages += 1;
        let (answer, words) = self.compare_read(message)?;
        if answer == 0 {
            self.granted += 1;
            let size = message.len();
            let written = self.compare_write(&words, message, ROOM)?;
            if written != (size as u32) << 16 {
                return Err(format!("{message:02x?} is written with {written:#x}"));
            }
            // As much room as needed, too little by one, and none.
            for room in [size, size - 1, 0] {
                self.compare_write(&words, message, room)?;
            }
            // One word more, another type, and strings that end too soon.
            for (at, word) in words.iter().enumerate() {
                let mut other = words;
                other[at] = word.wrapping_add(1 << (7 * at % 32));
                self.compare_write(&other, message, ROOM)?;
            }
            self.compare_write(&words, &message[..size - 1], ROOM)?;
        }
        Ok(answer)
    }

    fn compare_read(&mut self, message: &[u8]) -> Result<(u32, Words), String> {
        self.calls += 1;
        let proved = read(&PROVED, message);
        let plain = read(&PLAIN, message);
        if proved != plain {
            return Err(format!(
                "read differs on {message:02x?}: proved {proved:?}, plain {plain:?}"
            ));
        }
        Ok(plain)
    }

    /// Also compares the memory past the room that is lent.
    fn compare_write(&mut self, words: &Words, strings: &[u8], room: usize) -> Result<u32, String> {
        self.calls += 1;
        let [by_proved, by_plain] = &mut self.memory;
        by_proved.fill(FILL);
        by_plain.fill(FILL);
        let proved = PROVED.write(words, strings, &mut by_proved[..room]);
        let plain = PLAIN.write(words, strings, &mut by_plain[..room]);
        if proved != plain {
            return Err(format!(
                "write with room {room} differs on {words:x?}: proved {proved:#x}, plain {plain:#x}"
            ));
        }
        if by_proved != by_plain {
            return Err(format!(
                "write with room {room} writes other bytes on {words:x?}"
            ));
        }
        Ok(plain)
    }
}

fn read(side: &Side, message: &[u8]) -> (u32, Words) {
    let mut words = FILL_WORDS;
    let answer = side.read(message, &mut words);
    (answer, words)
}
