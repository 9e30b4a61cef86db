//! What a program may print for a script with faults in its chunk memory.
//!
//! After a fault nothing is known of what was begun, but something is known again
//! once a first chunk is taken, a message is whole, or 16 is answered; and memory that
//! is found unfit stays so until an emptying or a further fault.

use super::check::{number, Lines};
use super::Met;
use crate::compare::{item_text, line_text};
use crate::generate::fault::Faulty;
use crate::number::{
    BAD_CHUNK, CHUNK_TOO_SHORT, LENGTH_DIFFERS, NOT_FILLED, OUTSIDE_SET, STATE_UNFIT, TOO_SHORT,
    UNKNOWN_TYPE,
};
use crate::pdu::chunk::{flag, Assembly, Head, LONGEST};
use crate::script::chunk::{call, Call, Chunks, Outcome, SILENT};
use crate::script::pdu::{push_outcome, run};
use crate::script::{push_item, take_item, Item};

/// What reading a whole message can answer.
const OF_A_MESSAGE: [u8; 6] = [
    0,
    TOO_SHORT,
    LENGTH_DIFFERS,
    UNKNOWN_TYPE,
    NOT_FILLED,
    OUTSIDE_SET,
];

/// What was met in the lines printed, or the first that is wrong.
pub fn check(faulty: &Faulty, printed: &[u8]) -> Result<Met, String> {
    let mut met = Met::default();
    let mut judge = Judge::default();
    let mut lines = Lines(printed);
    let mut lines_before = 0;
    let mut rest = faulty.script.as_slice();
    while let Some((item, tail)) = take_item(rest) {
        rest = tail;
        met.items += 1;
        match call(item) {
            Some(Call::Fault(_, bits)) => {
                met.faults += u64::from(bits != 0);
                judge.fault(item);
                continue;
            }
            Some(Call::Shorten) => {
                judge.chunks.make(Call::Shorten);
                continue;
            }
            _ => {}
        }
        let line = lines.next();
        let may_print = line.is_some_and(|line| judge.may_print(item, line, &mut met));
        if !may_print {
            let item = item_text(&faulty.script, SILENT, lines_before);
            return Err(format!("item {item}\n  printed:  {}", line_text(line)));
        }
        lines_before += 1;
    }
    match lines.next() {
        None if judge.sight == Sight::Known => Ok(met),
        None => Err("the last emptying did not mend the memory".into()),
        line => Err(format!("after all items\n  printed:  {}", line_text(line))),
    }
}

/// What is known of the memory.
#[derive(Clone, Copy, Debug, Default, PartialEq, Eq)]
enum Sight {
    /// What it describes.
    #[default]
    Known,
    /// Nothing.
    Unknown,
    /// That it is unfit.
    Unfit,
}

#[derive(Default)]
struct Judge {
    /// The calls, as far as the memory is known.
    chunks: Chunks,
    sight: Sight,
}

impl Judge {
    fn fault(&mut self, item: Item<'_>) {
        if self.sight == Sight::Known {
            self.chunks.make(call(item).expect("an item of chunks"));
        } else {
            self.sight = Sight::Unknown;
        }
    }

    /// Whether the line may be printed for the item, which is not silent.
    fn may_print(&mut self, item: Item<'_>, line: &[u8], met: &mut Met) -> bool {
        let Some(call) = call(item) else {
            return line == alone(item);
        };
        if self.chunks.is_short() {
            met.lent_short += 1;
            return line == expected(item.kind, &self.chunks.make(call));
        }
        let Call::Take(chunk) = call else {
            self.sight = Sight::Known;
            return line == expected(item.kind, &self.chunks.make(call));
        };
        if self.sight == Sight::Known {
            match self.chunks.make(call) {
                Outcome::Unknown => self.sight = Sight::Unknown,
                outcome => return line == expected(item.kind, &outcome),
            }
        }
        if line == expected(item.kind, &Outcome::Number(STATE_UNFIT)) {
            met.unfit += 1;
            self.sight = Sight::Unfit;
            return true;
        }
        met.granted_after_fault += 1;
        self.sight == Sight::Unknown && self.may_answer(chunk, line)
    }

    /// Whether a chunk that meets well-formed memory of which nothing is known may print
    /// the line.
    fn may_answer(&mut self, chunk: &[u8], line: &[u8]) -> bool {
        let Some((head, _)) = Head::split(chunk) else {
            return line == expected(b'K', &Outcome::Number(CHUNK_TOO_SHORT));
        };
        let mut assembly = Assembly::default();
        let afresh = assembly.take(chunk);
        if head.has(flag::FIRST) {
            self.know(assembly);
            return line == expected(b'K', &Outcome::from(afresh));
        }
        if line == expected(b'K', &Outcome::Number(BAD_CHUNK)) {
            self.know(Assembly::default());
            return true;
        }
        if head.has(flag::COMPRESSED) || !(1..=LONGEST).contains(&head.length) {
            return false;
        }
        if head.has(flag::LAST) {
            self.know(Assembly::default());
            return number(line, b'K').is_some_and(|number| OF_A_MESSAGE.contains(&number));
        }
        line == expected(b'K', &Outcome::Number(0))
    }

    fn know(&mut self, assembly: Assembly) {
        self.sight = Sight::Known;
        self.chunks = Chunks::after(assembly);
    }
}

fn expected(kind: u8, outcome: &Outcome) -> Vec<u8> {
    let mut line = Vec::new();
    push_outcome(&mut line, kind, outcome);
    line
}

/// What an item prints that does not go by the memory.
fn alone(item: Item<'_>) -> Vec<u8> {
    let mut script = Vec::new();
    push_item(&mut script, item.kind, item.payload);
    let mut line = Vec::new();
    run(&script, &mut line).expect("memory takes all that is written");
    line
}
