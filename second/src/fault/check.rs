//! What a program may print for a script with faults.
//!
//! Up to the first fault, and from each emptying to the next one, the lines are those of
//! the book. A fault in the store alone changes pictures, so a line must be the book's but
//! for the bytes of pictures. While a figure is not the one that the windows have, every
//! call but an emptying answers 1. After another fault in the state memory only numbers are
//! known.

use std::collections::BTreeMap;

use super::Met;
use crate::compare::{item_text, line_text};
use crate::generate::fault::Faulty;
use crate::number::{
    NO_PLACE, OUTPUT_TOO_SMALL, ROOM_PASSED, STATE_UNFIT, TOO_MANY_STEPS, WRONG_ID,
};
use crate::record;
use crate::script::dump::memory;
use crate::script::parts::{places, Parts};
use crate::script::session::{call, Call, Session, SILENT};
use crate::script::take_item;
use crate::table::FEWEST_PLACES;

/// What was met in the lines printed, or the first that is wrong. Each call has a
/// line with its kind and a number that is listed for it, 1 where it was lent too
/// little.
pub fn check(faulty: &Faulty, parts: &Parts, printed: &[u8]) -> Result<Met, String> {
    let mut met = Met::default();
    let mut judge = Judge::new(parts);
    let mut lines = Lines(printed);
    let mut lines_before = 0;
    let mut rest = faulty.script.as_slice();
    while let Some((item, tail)) = take_item(rest) {
        rest = tail;
        met.items += 1;
        let call = call(item, parts).ok_or("the script has a bad item")?;
        if SILENT.contains(&item.kind) {
            judge.pass(&call, item.payload, &mut met);
            continue;
        }
        let line = lines.next();
        if !line.is_some_and(|line| judge.may_print(item.kind, &call, line, &mut met)) {
            let item = item_text(&faulty.script, SILENT, lines_before);
            let (line, book) = (line_text(line), line_text(judge.expected()));
            return Err(format!(
                "item {item}\n  printed:  {line}\n  the book: {book}"
            ));
        }
        lines_before += 1;
    }
    match lines.next() {
        None if judge.sight == Sight::Known => Ok(met),
        None => Err("the last emptying did not mend the memory".into()),
        line => Err(format!("after all items\n  printed:  {}", line_text(line))),
    }
}

/// What is known of the memory.
#[derive(Clone, Copy, Debug, PartialEq, Eq)]
enum Sight {
    /// What it describes.
    Known,
    /// The same but for the bytes of pictures.
    AllButPictures,
    /// What it described until figures changed, which are to change back.
    WrongFigures,
    /// Nothing.
    Unknown,
}

struct Judge<'a> {
    parts: &'a Parts,
    /// The calls, as far as the memory is known.
    session: Session,
    sight: Sight,
    /// The bytes of figures that are wrong, each by its offset with the bits changed.
    figures: BTreeMap<u32, u8>,
    /// The next call is lent too little state memory.
    is_short: bool,
    /// What the book prints for the last call.
    line: Vec<u8>,
}

impl<'a> Judge<'a> {
    fn new(parts: &'a Parts) -> Self {
        Self {
            parts,
            session: Session::default(),
            sight: Sight::Known,
            figures: BTreeMap::new(),
            is_short: false,
            line: Vec::new(),
        }
    }

    /// An item that prints nothing.
    fn pass(&mut self, call: &Call<'_>, payload: &[u8], met: &mut Met) {
        match call {
            Call::Fault => {
                met.faults += 1;
                self.sight = self.sight_after(payload, met);
            }
            Call::FaultStore(..) => {
                met.faults += 1;
                met.store_faults += 1;
                self.sight = match self.sight {
                    Sight::Known => Sight::AllButPictures,
                    Sight::WrongFigures => Sight::Unknown,
                    sight => sight,
                };
            }
            Call::Shorten => self.is_short = true,
            Call::ShortenStore(..) => self.is_short = false,
            _ => {}
        }
        self.session.make(call);
    }

    /// What is known after a fault in the state memory.
    fn sight_after(&mut self, payload: &[u8], met: &mut Met) -> Sight {
        let &[0, a, b, c, d, bits] = payload else {
            return Sight::Unknown;
        };
        let offset = u32::from_le_bytes([a, b, c, d]);
        let is_figure = self.parts.figures().is_some_and(|at| at.contains(&offset));
        if !is_figure || !matches!(self.sight, Sight::Known | Sight::WrongFigures) {
            return Sight::Unknown;
        }
        met.figure_faults += 1;
        let changed = self.figures.entry(offset).or_default();
        *changed ^= bits;
        match self.figures.values().all(|&bits| bits == 0) {
            true => Sight::Known,
            false => Sight::WrongFigures,
        }
    }

    /// Whether a call is refused for a wrong figure: all are that are lent state memory, but
    /// an emptying.
    fn is_refused(&self, call: &Call<'_>) -> bool {
        let others = matches!(call, Call::Empty | Call::ReadRecord(_) | Call::Dump);
        self.sight == Sight::WrongFigures && !others
    }

    /// Whether the line may be printed for an item that prints one.
    fn may_print(&mut self, kind: u8, call: &Call<'_>, line: &[u8], met: &mut Met) -> bool {
        let lent = places(&self.session.lent());
        self.line.clear();
        if self.is_refused(call) {
            self.session.refuse();
            self.line.extend_from_slice(&[kind, b' ', b'1', b'\n']);
        } else {
            self.session
                .make_line(kind, call, self.parts, &mut self.line);
        }
        if *call == Call::Dump {
            let size = self.session.dump_size(self.parts);
            return memory(line).is_some_and(|memory| memory.len() == size);
        }
        let is_short = match call {
            Call::ReadRecord(_) => false,
            _ => std::mem::take(&mut self.is_short) || lent < FEWEST_PLACES,
        };
        let Some(number) = number(line, kind).filter(|&n| may_answer(call, n, is_short)) else {
            return false;
        };
        let is_right = match self.sight {
            Sight::Known | Sight::WrongFigures => line == self.line,
            Sight::AllButPictures => without_pictures(line) == without_pictures(&self.line),
            Sight::Unknown => *call != Call::Empty || line == self.line,
        };
        match number {
            STATE_UNFIT if is_short => met.lent_short += 1,
            STATE_UNFIT if self.is_refused(call) => met.wrong_figures += 1,
            STATE_UNFIT if self.sight != Sight::Unknown => met.lent_short += 1,
            STATE_UNFIT => met.unfit += 1,
            0 if *call == Call::Empty => {
                self.sight = Sight::Known;
                self.figures.clear();
            }
            0 if self.sight == Sight::AllButPictures => met.granted_after_store_fault += 1,
            0 if self.sight == Sight::Unknown => met.granted_after_fault += 1,
            _ => {}
        }
        is_right
    }

    /// What the book prints for the last call, if that is known.
    fn expected(&self) -> Option<&[u8]> {
        (self.sight != Sight::Unknown).then_some(&self.line)
    }
}

/// A line with a dot for each hex digit of a picture's bytes: those of the fields that
/// have parts of one, or a whole one.
fn without_pictures(line: &[u8]) -> Vec<u8> {
    let mut words: Vec<Vec<u8>> = line
        .split(|&byte| byte == b' ')
        .map(<[u8]>::to_vec)
        .collect();
    for word in &mut words {
        let Some(at) = word.iter().position(|&byte| byte == b'=') else {
            continue;
        };
        // Of a whole picture the bits and the sides come first.
        let skipped = match &word[..at] {
            b"mask" | b"table" | b"color" => 0,
            b"small" | b"big" | b"overlay" | b"picture" if word[at + 1..] != *b"none" => 3,
            _ => continue,
        };
        let mut commas = 0;
        for byte in &mut word[at + 1..] {
            commas += usize::from(*byte == b',');
            if commas >= skipped && byte.is_ascii_hexdigit() {
                *byte = b'.';
            }
        }
    }
    words.join(&b' ')
}

/// Lines with their ends, and what is left of them.
pub(super) struct Lines<'a>(pub &'a [u8]);

impl<'a> Iterator for Lines<'a> {
    type Item = &'a [u8];

    fn next(&mut self) -> Option<&'a [u8]> {
        let line = self.0.split_inclusive(|&byte| byte == b'\n').next()?;
        self.0 = &self.0[line.len()..];
        Some(line)
    }
}

/// The number of a line that has its kind and its end. A refusal has no more.
pub(super) fn number(line: &[u8], kind: u8) -> Option<u8> {
    let line = std::str::from_utf8(line).ok()?.strip_suffix('\n')?;
    let answer = line.strip_prefix(char::from(kind))?.strip_prefix(' ')?;
    let (number, more) = match answer.split_once(' ') {
        Some((number, _)) => (number, true),
        None => (answer, false),
    };
    let number: u8 = number.parse().ok()?;
    // An update says what was granted and what stands whatever its last number is.
    let says_more = number == 0 || kind == b'U' && number != STATE_UNFIT;
    (more == says_more).then_some(number)
}

/// Whether a call may answer a number, whatever its memory is.
fn may_answer(call: &Call<'_>, number: u8, is_short: bool) -> bool {
    if is_short {
        return number == STATE_UNFIT;
    }
    match call {
        Call::Empty => number == 0,
        Call::Deliver(_) | Call::Update(..) => number <= ROOM_PASSED || number == NO_PLACE,
        Call::Mark | Call::Desktop | Call::Lists => [0, STATE_UNFIT].contains(&number),
        Call::StepBack(_) => [0, STATE_UNFIT, TOO_MANY_STEPS].contains(&number),
        Call::Window(_) | Call::Icon(..) | Call::Cell(_) | Call::Shared(..) => {
            [0, STATE_UNFIT, WRONG_ID].contains(&number)
        }
        Call::WriteRecord(_) => [0, STATE_UNFIT, OUTPUT_TOO_SMALL].contains(&number),
        Call::ReadRecord(bytes) => number == record::read(bytes).err().unwrap_or(0),
        Call::Shorten | Call::ShortenStore(..) | Call::Fault | Call::FaultStore(..) => false,
        Call::Lend(_) | Call::Dump => false,
    }
}
